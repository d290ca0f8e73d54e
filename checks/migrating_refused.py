"""Databases that `gazhub migrate` refuses, and with which word: each holds what it held, and where nothing may be written its file stays as it was."""

import shutil
import sqlite3
import subprocess
from collections.abc import Iterator
from pathlib import Path

from checks.changing import Said, copied
from checks.ground import alter
from checks.making import COLUMNS
from checks.migrating import CURRENT, MIGRATED, Place
from checks.sessions import fails
from checks.stores import built, hubs_of
from checks.tables import opened
from checks.written import FIRST, SECOND

BEHIND = SECOND.statements()[len(FIRST.statements()) :]  # what schema 2 has beside schema 1
MOVED = ";".join(
    (
        *BEHIND,
        "INSERT INTO version2 SELECT cust, kind, id, blpu, street, lang, live, born, gone, body, 0 FROM version",
        "DELETE FROM version",
        "UPDATE meta SET number = 2",
    )
)
TABLES = ("meta", "received", "version")
OTHER = "UPDATE meta SET register = replace(register, 'Upper', 'Lower')"
REFUSALS = {word: (3, b"", fails(word)) for word in ("BadSchema", "OtherRegister", "Fault")}


def loosely(table: str, *changes: str) -> str:
    """The table with nothing but the names of its columns, in which then anything may stand."""
    return (
        f"ALTER TABLE {table} RENAME TO it; CREATE TABLE {table} ({', '.join(COLUMNS[table])}); INSERT INTO {table} SELECT * FROM it; DROP TABLE it;"
        + ";".join(changes)
    )


def lacking() -> Iterator[str]:
    """A column of each table of schema 1 has another name."""
    for table in TABLES:
        for column in COLUMNS[table]:
            yield f"DROP INDEX IF EXISTS by_blpu; DROP INDEX IF EXISTS by_street; ALTER TABLE {table} RENAME COLUMN {column} TO {column}_"


# What makes of a store of schema 1 one that is refused, by the word of the refusal.
REFUSED = {
    "BadSchema": (
        "UPDATE meta SET number = 0",
        "UPDATE meta SET number = 2",
        "UPDATE meta SET number = 3",
        "UPDATE meta SET id = 2",
        "DELETE FROM meta",
        "INSERT INTO meta SELECT 2, number, register FROM meta",
        "INSERT INTO meta SELECT 2, 2, register FROM meta",
        f"UPDATE meta SET number = 3; {OTHER}",
        loosely("meta", "UPDATE meta SET number = 'x'"),
        loosely("meta", "UPDATE meta SET number = NULL"),
        "CREATE TABLE version2 (id)",
        "CREATE TABLE Version2 (id)",
        f"CREATE TABLE version2 (id); {OTHER}",
        BEHIND[0],
        ";".join(BEHIND),
        *(f"DROP TABLE {table}" for table in TABLES),
        "ALTER TABLE version RENAME TO versions",
        "DROP TABLE meta; CREATE VIEW meta AS SELECT 1 AS id, 1 AS number, '' AS register",
        "CREATE TRIGGER it AFTER INSERT ON received BEGIN DELETE FROM version; END",
        f"{MOVED}; UPDATE meta SET number = 1",
        f"{MOVED}; UPDATE meta SET number = 3",
        *lacking(),
    ),
    "OtherRegister": (
        OTHER,
        "UPDATE meta SET register = ''",
        "UPDATE meta SET register = rtrim(register, char(10))",
        loosely("meta", "UPDATE meta SET register = NULL"),
        f"{MOVED}; {OTHER}",
    ),
    "Fault": (
        "CREATE VIEW version2 AS SELECT 1",
        "CREATE TABLE note (id); CREATE INDEX version2 ON note (id)",
        "CREATE VIEW by_blpu2 AS SELECT 1",
        "CREATE TABLE by_blpu2 (id)",
        "CREATE INDEX by_blpu2 ON version (blpu)",
        "CREATE INDEX By_Street2 ON version (street)",
        "CREATE VIEW by_street2 AS SELECT 1",
        # a first table that takes what the second one doesn't
        loosely("version", "INSERT INTO version SELECT * FROM version LIMIT 1"),
        loosely("version", "UPDATE version SET blpu = 'x' WHERE rowid = 1"),
        loosely("version", "UPDATE version SET gone = NULL WHERE rowid = 2"),
        loosely("version", "UPDATE version SET body = x'00ff' WHERE rowid = 3"),
        loosely("version", "UPDATE version SET kind = 12 WHERE rowid = 4"),
        loosely("version", "UPDATE version SET born = 1.5 WHERE rowid = 5"),
        # files that the library doesn't open
        "PRAGMA auto_vacuum = 1; VACUUM",
        "ALTER TABLE version ADD COLUMN x INTEGER NOT NULL DEFAULT 0",
    ),
}


def dumped(store: Path) -> list[bytes] | str:
    """How all tables, views and indexes of a database were made, and the rows of each as bytes; or why Python doesn't read them."""
    with copied(store) as copy, opened(copy) as conn:
        conn.text_factory = bytes
        try:
            made = conn.execute("SELECT name, sql, type FROM sqlite_schema ORDER BY rowid").fetchall()
            return [*made, *(row for name, _, kind in made if kind == b"table" for row in conn.execute(f'SELECT * FROM "{name.decode()}" NOT INDEXED'))]
        except (sqlite3.DatabaseError, UnicodeDecodeError) as why:
            return str(why)


def altered(on: Place, sql: str) -> Path:
    """The history of schema 1 to which this was done."""
    store = on.store()
    shutil.copyfile(FIRST.folder / "history.db", store)
    alter(store, sql)
    return store


def refuses(on: Place, word: str, sql: str) -> str | None:
    """What is wrong with the refusal of a store to which this was done, or with what it then holds."""
    store = altered(on, sql)
    held, file = dumped(store), store.read_bytes()
    found = on.run(store, "migrate")
    if found != REFUSALS[word]:
        return f"it says {found}, wanted {REFUSALS[word]}"
    if dumped(store) != held:
        return "it doesn't hold what it held"
    return "the refused file was written" if word != "Fault" and store.read_bytes() != file else None


def no_stores(on: Place) -> Iterator[tuple[str, Said, Path]]:
    """Files that aren't a store of any schema, or none, with what is said of each; and a store of schema 2."""
    for name, word, data in (("no file", "Fault", None), ("no database", "Fault", b"This is no database. " * 100), ("an empty file", "BadSchema", b"")):
        store = on.store()
        if data is not None:
            store.write_bytes(data)
        yield name, REFUSALS[word], store
    store = on.store()
    assert on.run(store, "init")[0] == 0
    yield "a new store", CURRENT, store


def leaves(on: Place, wanted: Said, store: Path) -> str | None:
    """What is wrong where a file is told otherwise, or is another afterwards. (An empty one may become a database without tables.)"""
    data = store.read_bytes() if store.exists() else None
    found = on.run(store, "migrate")
    if found != wanted:
        return f"it says {found}, wanted {wanted}"
    if data == b"":
        return None if dumped(store) == [] else "it has tables"
    return None if (store.read_bytes() if store.exists() else None) == data else "the file is another one"


def in_use(on: Place) -> str | None:
    """What is wrong where Python has a store open, and no more afterwards."""
    store = altered(on, "")
    held = dumped(store)
    with opened(store) as conn:
        conn.execute("BEGIN IMMEDIATE")
        found = on.run(store, "migrate")
        conn.execute("ROLLBACK")
    if found != REFUSALS["Fault"]:
        return f"it says {found}"
    if dumped(store) != held:
        return "it doesn't hold what it held"
    found = on.run(store, "migrate")
    return None if found == MIGRATED else f"afterwards it says {found}"


def in_use_by_hub(on: Place) -> str | None:
    """What is wrong where `serve` has a store of schema 2 open, and no more afterwards."""
    store = on.store()
    assert on.run(store, "init")[0] == 0
    words = [on.gazhub, "serve", "--store", store, "--register", on.hubs.register, "--port", "0", "--connections", "1"]
    with subprocess.Popen(words, stdout=subprocess.PIPE) as served:
        served.stdout.readline()
        found = on.run(store, "migrate")
        served.kill()
    if found != REFUSALS["Fault"]:
        return f"it says {found}"
    found = on.run(store, "migrate")
    return None if found == CURRENT else f"afterwards it says {found}"


def run_all(room: Path) -> Iterator[tuple[str, str | None]]:
    """Each database, and what is wrong."""
    with hubs_of(room) as (hubs, folder):
        on = Place(built(room, "gazhub"), hubs, folder)
        yield from ((name, leaves(on, *it)) for name, *it in no_stores(on))
        yield "in use by Python", in_use(on)
        yield "in use by a hub", in_use_by_hub(on)
        for word, them in REFUSED.items():
            yield from ((f"{word}: {sql}"[:100], refuses(on, word, sql)) for sql in them)
