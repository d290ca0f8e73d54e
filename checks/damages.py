"""What is done to a store that no store does: to its cells, rows, indexes and pages."""

import random
import shutil
import sqlite3
from collections.abc import Callable, Iterator
from dataclasses import dataclass
from pathlib import Path

from checks.tables import opened

COLUMNS = {
    "version2": ("cust", "kind", "id", "blpu", "street", "lang", "live", "born", "gone", "body", "hop"),
    "received": ("cust", "volume", "bytes", "state", "place", "rule"),
    "meta": ("id", "number", "register"),
}

VALUES = {
    "NULL": "NULL",
    "a real number": "1.5",
    "a word": "'x'",
    "a blob": "x'00ff'",
    "no UTF-8": "CAST(x'ff' AS TEXT)",
    "the least number": "-9223372036854775808",
    "the greatest number": "9223372036854775807",
    "0": "0",
    "-1": "-1",
    "an empty text": "''",
    "a megabyte": "zeroblob(1048576)",
}

# A row of custody beside another: whose it is, and which number passes to or from custodian 1002.
CUSTODY = "INSERT INTO version2 SELECT cust, 92, printf('%012d', rowid), rowid, 1002, 0,"

ROWS = {
    "version2": {
        "is gone": "DELETE FROM version2 WHERE rowid = {row}",
        "is there twice": "INSERT INTO version2 SELECT * FROM version2 WHERE rowid = {row}",
        "is there under another id": "INSERT INTO version2 SELECT cust, kind, id || '0', blpu, street, lang, live, born, gone, body, hop FROM version2 WHERE rowid = {row}",
        "is there of another kind": "INSERT INTO version2 SELECT cust, 35 - kind, id, blpu, street, lang, live, born, gone, body, hop FROM version2 WHERE rowid = {row}",
        "is there for nobody": "INSERT INTO version2 SELECT 9999, kind, id, blpu, street, lang, live, born, gone, body, hop FROM version2 WHERE rowid = {row}",
        "is born twice": "INSERT INTO version2 SELECT cust, kind, id, blpu, street, lang, live, born + 1, gone, body, hop FROM version2 WHERE rowid = {row}",
        "is born at once": "UPDATE version2 SET born = 1 WHERE rowid = {row}",
        "is born late": "UPDATE version2 SET born = 999999 WHERE rowid = {row}",
        "never goes": "UPDATE version2 SET gone = 1000000 WHERE rowid = {row}",
        "goes before it is born": "UPDATE version2 SET gone = born - 1 WHERE rowid = {row}",
        "has another body": "UPDATE version2 SET body = (SELECT body FROM version2 WHERE rowid <> {row} LIMIT 1) WHERE rowid = {row}",
        "has a hop": "UPDATE version2 SET hop = 1 WHERE rowid = {row}",
        "has a hop of 10000": "UPDATE version2 SET hop = 10000 WHERE rowid = {row}",
        "is one of custody": "UPDATE version2 SET kind = 92 WHERE rowid = {row}",
        "is of a number that was released, too": f"{CUSTODY} 0, born, 1000000, '', 1 FROM version2 WHERE rowid = {{row}}",
        "is of a number that was adopted, too": f"{CUSTODY} 1, born, 1000000, '', 2 FROM version2 WHERE rowid = {{row}}",
    },
    "received": {
        "is gone": "DELETE FROM received WHERE rowid = {row}",
        "is there twice": "INSERT INTO received SELECT * FROM received WHERE rowid = {row}",
        "is there as the next volume": "INSERT INTO received SELECT cust, volume + 1, bytes, state, place, rule FROM received WHERE rowid = {row}",
        "is there as the last volume": "INSERT INTO received SELECT cust, 999999, bytes, state, place, rule FROM received WHERE rowid = {row}",
        "is there for nobody": "INSERT INTO received SELECT 9999, volume, bytes, state, place, rule FROM received WHERE rowid = {row}",
        "isn't judged": "UPDATE received SET state = 0, place = 0, rule = 0 WHERE rowid = {row}",
        "is applied": "UPDATE received SET state = 1, place = 0, rule = 0 WHERE rowid = {row}",
        "is rejected": "UPDATE received SET state = 2, place = 9223372036854775807, rule = 255 WHERE rowid = {row}",
        "has another's bytes": "UPDATE received SET bytes = (SELECT bytes FROM received WHERE rowid <> {row} LIMIT 1) WHERE rowid = {row}",
    },
}

SCHEMAS = {
    "an index is gone": "DROP INDEX by_blpu2",
    "both indexes are gone": "DROP INDEX by_blpu2; DROP INDEX by_street2",
    "an index is over other columns": "sql = replace(sql, 'blpu, gone', 'gone, blpu') WHERE name = 'by_blpu2'",
    "an index says that it is one of keys": "sql = replace(sql, 'CREATE INDEX', 'CREATE UNIQUE INDEX') WHERE name = 'by_street2'",
    "the indexes of the table that is empty are gone": "DROP INDEX by_blpu; DROP INDEX by_street",
    "an index is the other one": "rootpage = (SELECT rootpage FROM sqlite_schema WHERE name = 'by_street2') WHERE name = 'by_blpu2'",
    "an index is a table": "rootpage = (SELECT rootpage FROM sqlite_schema WHERE name = 'version2') WHERE name = 'by_blpu2'",
    "a table is an index": "rootpage = (SELECT rootpage FROM sqlite_schema WHERE name = 'by_blpu2') WHERE name = 'version2'",
    "a table is another one": "rootpage = (SELECT rootpage FROM sqlite_schema WHERE name = 'received') WHERE name = 'version2'",
    "a table is the one that is empty": "rootpage = (SELECT rootpage FROM sqlite_schema WHERE name = 'version') WHERE name = 'version2'",
    "a table that is empty isn't": "rootpage = (SELECT rootpage FROM sqlite_schema WHERE name = 'version2') WHERE name = 'version'",
    "a table is the schema": "rootpage = 1 WHERE name = 'received'",
    "a table is behind the file": "rootpage = 99999 WHERE name = 'version2'",
    "a table's declaration is none": "sql = 'CREATE TABLE version2 (' WHERE name = 'version2'",
}

# Tables that take each value, with the same indexes and one in place of each key.
LOOSE = "".join(
    f"ALTER TABLE {table} RENAME TO it; CREATE TABLE {table} ({', '.join(columns)}); INSERT INTO {table} SELECT * FROM it; DROP TABLE it;"
    for table, columns in COLUMNS.items()
) + (
    "CREATE INDEX by_blpu2 ON version2 (cust, kind, blpu, gone); CREATE INDEX by_street2 ON version2 (cust, kind, street, gone);"
    "CREATE INDEX by_key ON version2 (cust, kind, id, born); CREATE INDEX by_volume ON received (cust, volume);"
)
# What a page is overwritten with.
WRITTEN = ("zeros", "noise", "noise at its head", *(f"five other bytes, {turn}" for turn in range(1, 6)))
SMALL_PAGES = "PRAGMA journal_mode = DELETE; PRAGMA page_size = 512; VACUUM"


@dataclass(frozen=True)
class Damage:
    """What is done to a copy of a store."""

    name: str
    do: Callable[[Path], None]
    harms: int | None = None  # the custodian of the one row of `version2` that it touches


def by_sql(store: Path, sql: str) -> None:
    with opened(store) as conn:
        conn.executescript(f"PRAGMA synchronous = OFF; BEGIN; {sql}; COMMIT")


def by_any_sql(store: Path, sql: str) -> None:
    """Does this to a store, whose tables take anything where they would refuse it."""
    try:
        by_sql(store, sql)
    except sqlite3.IntegrityError:
        by_sql(store, LOOSE)
        by_sql(store, sql)


def by_schema(store: Path, sql: str) -> None:
    with opened(store) as conn:
        conn.executescript(sql if sql.startswith("DROP") else f"PRAGMA writable_schema = ON; UPDATE sqlite_schema SET {sql}")


def page_size(store: Path) -> int:
    size = int.from_bytes(store.read_bytes()[16:18], "big")
    return 65_536 if size == 1 else size


def by_bytes(store: Path, number: int, how: str) -> None:
    """Overwrites a page of the file, or a few bytes of it."""
    size, dice = page_size(store), random.Random(f"{number} {how}")
    whole = {"zeros": bytes(size), "noise": dice.randbytes(size), "noise at its head": dice.randbytes(12)}
    pieces = [(0, whole[how])] if how in whole else [(dice.randrange(size), dice.randbytes(1)) for _ in range(5)]
    with store.open("r+b") as file:
        for at, data in pieces:
            file.seek(number * size + at)
            file.write(data)


def rows_in(store: Path, table: str) -> list[tuple[int, int]]:
    """The rows of a table, by their numbers, with whose they are."""
    whose = "0" if table == "meta" else "cust"
    with opened(store) as conn:
        return conn.execute(f"SELECT rowid, {whose} FROM {table} ORDER BY rowid").fetchall()


def of_cells(store: Path) -> Iterator[Damage]:
    """Each value in each column of the first row, the last and one between them."""
    for table, columns in COLUMNS.items():
        rows = rows_in(store, table)
        for row, whose in dict.fromkeys((rows[0], rows[len(rows) // 2], rows[-1])):
            for column in columns:
                for name, value in VALUES.items():
                    sql = f"UPDATE {table} SET {column} = {value} WHERE rowid = {row}"
                    yield Damage(f"{table} {row}: {name} as {column}", lambda it, sql=sql: by_any_sql(it, sql), whose if table == "version2" else None)


def of_rows(store: Path) -> Iterator[Damage]:
    """What becomes of each row."""
    for table, them in ROWS.items():
        for row, whose in rows_in(store, table):
            for name, sql in them.items():
                text = sql.format(row=row)
                yield Damage(f"{table} {row} {name}", lambda it, text=text: by_any_sql(it, text), whose if table == "version2" else None)


def of_pages(store: Path, small: Path) -> Iterator[Damage]:
    """Each page of the store, and of that with small pages."""
    for name, ready in (("page", store), ("small page", small)):
        for number in range(ready.stat().st_size // page_size(ready)):
            for how in WRITTEN:

                def do(it: Path, ready: Path = ready, number: int = number, how: str = how) -> None:
                    shutil.copyfile(ready, it)
                    by_bytes(it, number, how)

                yield Damage(f"{name} {number}: {how}", do)


def damages(store: Path) -> Iterator[Damage]:
    """All that is done to copies of a store; the one with small pages is made beside it."""
    small = store.with_name("small")
    shutil.copyfile(store, small)
    with opened(small) as conn:
        conn.executescript(SMALL_PAGES)
    yield from of_cells(store)
    yield from of_rows(store)
    yield from (Damage(name, lambda it, sql=sql: by_schema(it, sql)) for name, sql in SCHEMAS.items())
    yield from of_pages(store, small)
