"""Stores of schema 1 that other programs made, changed or damaged: `gazhub migrate` moves each as Python's own SQLite would move it, or refuses it and leaves it
as it was."""

import re
import shutil
import sqlite3
from collections.abc import Iterator
from pathlib import Path

from checks import damages
from checks.changing import copied
from checks.ground import alter
from checks.making import COLUMNS
from checks.migrating import CURRENT, MIGRATED, Place
from checks.migrating_refused import MOVED, REFUSALS, TABLES, altered, dumped, loosely
from checks.stores import built, hubs_of
from checks.tables import opened

# What becomes a store all the same, whoever made the tables.
TAKEN = {
    "no index": "DROP INDEX by_blpu; DROP INDEX by_street",
    "an index of other columns": "DROP INDEX by_blpu; CREATE INDEX by_blpu ON version (gone)",
    "an index more": "CREATE INDEX by_body ON version (body, gone)",
    "a further table and a view": "CREATE TABLE other (x); INSERT INTO other VALUES (1); CREATE VIEW items AS SELECT * FROM version",
    "a further column that may be nothing": "ALTER TABLE version ADD COLUMN x INTEGER; UPDATE version SET x = 7",
    "a further column of meta": "ALTER TABLE meta ADD COLUMN x TEXT",
    "no types and keys": "".join(map(loosely, TABLES)),
    "the columns in another order": "DROP INDEX by_blpu; DROP INDEX by_street; ALTER TABLE version RENAME TO it;"
    "CREATE TABLE version (body TEXT, gone INTEGER, born INTEGER, live INTEGER, lang INTEGER, street INTEGER, blpu INTEGER, id TEXT, kind INTEGER, cust INTEGER);"
    "INSERT INTO version SELECT body, gone, born, live, lang, street, blpu, id, kind, cust FROM it; DROP TABLE it",
    "the rows in another order": "CREATE TABLE it AS SELECT * FROM version; DELETE FROM version; INSERT INTO version SELECT * FROM it ORDER BY body DESC; DROP TABLE it",
    "the tables in another order": loosely("meta") + loosely("received") + "ALTER TABLE meta RENAME TO it; ALTER TABLE it RENAME TO META",
    "pages of 512 bytes": "PRAGMA journal_mode = DELETE; PRAGMA page_size = 512; VACUUM",
    "pages of 65536 bytes": "PRAGMA journal_mode = DELETE; PRAGMA page_size = 65536; VACUUM",
    "free pages": "CREATE TABLE other (x); INSERT INTO other VALUES (zeroblob(100000)); DROP TABLE other",
    "no log": "PRAGMA journal_mode = DELETE",
}


# A row of each table by which everything that may become of one changes something.
ROWS = {"version2": 6, "received": 3}


def of_rows() -> Iterator[tuple[str, str]]:
    """What becomes of a row of each table, but of hops and of custody, which schema 1 hasn't."""
    for table, them in damages.ROWS.items():
        for name, sql in them.items():
            text = sql.replace("version2", "version").replace(", hop FROM", " FROM").format(row=ROWS[table])
            if not re.search(r"\b(hop|92)\b", text):
                yield f"a row of {table.removesuffix('2')} {name}", f"{''.join(map(loosely, TABLES))}{text}"


def rows(store: Path) -> dict[str, list[tuple]] | str:
    """The rows of a store as bytes, by the names of their columns, whatever stands in them; or why Python doesn't read them."""
    with copied(store) as copy, opened(copy) as conn:
        conn.text_factory = bytes
        try:
            return {table: conn.execute(f"SELECT {', '.join(columns)} FROM {table} NOT INDEXED ORDER BY rowid").fetchall() for table, columns in COLUMNS.items()}
        except (sqlite3.DatabaseError, UnicodeDecodeError) as why:
            return str(why)


def by_python(store: Path) -> dict[str, list[tuple]] | str:
    """The rows that Python's SQLite makes of a copy by the statements of a migration, or why it refuses."""
    with copied(store) as copy:
        try:
            alter(copy, f"BEGIN; {MOVED}; COMMIT")
        except (sqlite3.DatabaseError, UnicodeDecodeError) as why:
            return str(why)
        return rows(copy)


def takes(on: Place, sql: str) -> str | None:
    """What is wrong where a store to which this was done isn't moved as Python would move it."""
    store = altered(on, sql)
    wanted = by_python(store)
    found = on.run(store, "migrate")
    if found != MIGRATED:
        return f"it says {found}, and Python makes of it {str(wanted)[:100]}"
    if rows(store) != wanted:
        return f"Python makes other rows of it: {str(wanted)[:100]}"
    again = on.run(store, "migrate")
    return None if again == CURRENT else f"then it says {again}"


def by_cell(store: Path, table: str, column: str, value: str) -> None:
    """Sets a cell of a row in the midst of a table, which takes anything where it would refuse that."""
    with opened(store) as conn:
        numbers = [row for (row,) in conn.execute(f"SELECT rowid FROM {table} ORDER BY rowid")]
    sql = f"UPDATE {table} SET {column} = {value} WHERE rowid = {numbers[len(numbers) // 2]}"
    try:
        alter(store, sql)
    except sqlite3.IntegrityError:
        alter(store, loosely(table, sql))


def damaged(on: Place) -> Iterator[tuple[str, Path]]:
    """Stores of schema 1 to whose cells, rows and pages something was done that no store does."""
    for table in ("version", "received"):
        for column in COLUMNS[table]:
            for name, value in damages.VALUES.items():
                store = altered(on, "")
                by_cell(store, table, column, value)
                yield f"{name} as {column} of {table}", store
    yield from ((name, altered(on, sql)) for name, sql in of_rows())
    for size in ("", damages.SMALL_PAGES):
        ready = altered(on, size)
        for number in range(ready.stat().st_size // damages.page_size(ready)):
            for how in damages.WRITTEN[number % 3 :: 3 if size else 1]:
                store = on.store()
                shutil.copyfile(ready, store)
                damages.by_bytes(store, number, how)
                yield f"page {number} of {'512' if size else '4096'} bytes: {how}", store


def endures(on: Place, store: Path) -> str | None:
    """What is wrong where a damaged store isn't either moved as Python would move it, or refused and left as it is."""
    held, wanted = dumped(store), by_python(store)
    found = on.run(store, "migrate")
    if found in REFUSALS.values():
        return None if dumped(store) == held else f"it says {found[2]} and doesn't hold what it held"
    if found != MIGRATED:
        return f"it says {found}"
    return None if rows(store) == wanted else f"Python makes other rows of it: {str(wanted)[:100]}"


def run_all(room: Path) -> Iterator[tuple[str, str | None]]:
    """Each store, and what is wrong."""
    with hubs_of(room) as (hubs, folder):
        on = Place(built(room, "gazhub"), hubs, folder)
        yield from ((f"changed: {name}", takes(on, sql)) for name, sql in TAKEN.items())
        yield from ((f"damaged: {name}", endures(on, store)) for name, store in damaged(on))
