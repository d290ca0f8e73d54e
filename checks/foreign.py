"""Other people's SQLite: stores that Python's `sqlite3` damaged, changed or wrote, by our schema or by others with its tables and columns."""

import re
from collections.abc import Iterator
from dataclasses import dataclass
from pathlib import Path

from checks import sharing
from checks.ground import Ground, alter, ground
from checks.history import FILLING, HISTORY, LATER, QUESTIONS, file_of
from checks.stored import fault_in
from checks.stores import TEXT, Answered, get, hubs_of, post
from checks.tables import opened, rows_of, schema_in, write_store
from checks.written import SECOND

REFUSED = b'HTTP/1.1 503 Service Unavailable\r\nContent-Type: application/json\r\nContent-Length: 15\r\n\r\n{"refusal":51}\n'


@dataclass(frozen=True)
class Refusal:
    """A store that isn't one any more, and the word of its refusal."""

    name: str
    sql: str
    word: str = "BadSchema"


REFUSALS = (
    *(Refusal(f"no table {table}", f"DROP TABLE {table}") for table in ("meta", "received", "version", "version2")),
    Refusal("a column is gone", "ALTER TABLE received DROP COLUMN rule"),
    Refusal("a column has another name", "ALTER TABLE version2 RENAME COLUMN live TO alive"),
    Refusal("a table has another name", "ALTER TABLE version2 RENAME TO versions"),
    Refusal(
        "a table without rowids",
        "ALTER TABLE meta RENAME TO it; CREATE TABLE meta (id INTEGER PRIMARY KEY, number INTEGER, register TEXT) WITHOUT ROWID;"
        " INSERT INTO meta SELECT * FROM it; DROP TABLE it",
    ),
    Refusal("a trigger", "CREATE TRIGGER it AFTER INSERT ON received BEGIN DELETE FROM version2; END"),
    Refusal("the number before", "UPDATE meta SET number = 1"),
    Refusal("the next number", "UPDATE meta SET number = 3"),
    Refusal("a number that is none", "DROP TABLE meta; CREATE TABLE meta (id, number, register); INSERT INTO meta VALUES (1, 'x', '')"),
    Refusal("another id", "UPDATE meta SET id = 2"),
    Refusal("no row in meta", "DELETE FROM meta"),
    Refusal("two rows in meta", "INSERT INTO meta VALUES (2, 2, 'x')"),
    Refusal("another register and another number", "UPDATE meta SET number = 1, register = ''"),
    Refusal("another register", "UPDATE meta SET register = '1001,Upper County,,' || char(10)", "OtherRegister"),
    Refusal("a register without its last line end", "UPDATE meta SET register = rtrim(register, char(10))", "OtherRegister"),
    Refusal("pages that are freed of themselves", "PRAGMA auto_vacuum = 1; VACUUM", "Fault"),
    Refusal("a further column that no row has yet", "ALTER TABLE version2 ADD COLUMN x INTEGER NOT NULL DEFAULT 0", "Fault"),
)


@dataclass(frozen=True)
class Fault:
    """A store with a row that no store writes, and a request that reads it. Where `others` are asked too, they are answered right."""

    name: str
    sql: str
    asked: bytes
    others: bytes = b""
    history: bytes = HISTORY


STREET = post(1001, 1, file_of(1001, 1, "11,I,1,101,1,2001-04-01,"))

FAULTS = (
    Fault("a body that is none", "UPDATE version2 SET body = 'x'", get("/extract/1001/1"), history=STREET),
    Fault("a state 7", "UPDATE received SET state = 7", get("/custodians/1001"), history=STREET),
    Fault(
        "a body that is none among others",
        "UPDATE version2 SET body = 'x' WHERE cust = 1001 AND id = '000000000042'",
        get("/extract/1001/2"),
        get("/extract/1001/1") + get("/extract/1002/1") + get("/custodians/1001"),
    ),
    Fault(
        "an id that names no key",
        "UPDATE version2 SET id = '150' WHERE cust = 1001 AND kind = 11 AND id = '00000150'",
        get("/extract/1001/1"),
        get("/extract/1003/1"),
    ),
    Fault(
        "a state 7 of the last judged volume",
        "UPDATE received SET state = 7 WHERE cust = 1001 AND volume = 4",
        get("/custodians/1001"),
    ),
    Fault(
        "a rule beyond 255",
        "UPDATE received SET rule = 256 WHERE cust = 1003 AND volume = 2",
        get("/custodians/1003/volumes/2"),
    ),
)

# What leaves the rows of the tables, and so each answer.
HARMLESS = {
    "no index": "DROP INDEX by_blpu; DROP INDEX by_street; DROP INDEX by_blpu2; DROP INDEX by_street2",
    "an index of other columns": "DROP INDEX by_blpu2; CREATE INDEX by_blpu2 ON version2 (hop, gone)",
    "rows in the table that is empty": "INSERT INTO version SELECT cust, kind, id, blpu, street, lang, live, born, gone, 'x' FROM version2",
    "other columns of the table that is empty": "ALTER TABLE version ADD COLUMN x TEXT",
    "a further column of version2 that may be nothing": "ALTER TABLE version2 ADD COLUMN x INTEGER; UPDATE version2 SET x = 0",
    "a further table and a view": "CREATE TABLE other (x); INSERT INTO other VALUES (1); CREATE VIEW items AS SELECT * FROM version2",
    "a further column of meta": "ALTER TABLE meta ADD COLUMN x TEXT",
    "pages of 512 bytes": "PRAGMA page_size = 512; VACUUM",
    "pages of 65536 bytes": "PRAGMA page_size = 65536; VACUUM",
    "free pages": "CREATE TABLE other (x); INSERT INTO other VALUES (zeroblob(100000)); DROP TABLE other",
    "types that aren't kept": "CREATE TABLE it AS SELECT * FROM version2; DROP TABLE version2; ALTER TABLE it RENAME TO version2",
    "no log": "PRAGMA journal_mode = DELETE; UPDATE meta SET number = 2",
    "rows in another order": "CREATE TABLE it AS SELECT * FROM version2; DELETE FROM version2; INSERT INTO version2 SELECT * FROM it ORDER BY body DESC; DROP TABLE it",
}

# A table with a further column that has to be something takes no row: what makes it, and how a file is refused for it. `received` would have had
# the file, or `version2` what it changes. A row of `received` names no columns, so there any further one will do.
TAKING_NONE = {
    "received": (51, "ALTER TABLE received ADD COLUMN x INTEGER; UPDATE received SET x = 0"),
    "version2": (
        52,
        "ALTER TABLE version2 RENAME TO it;"
        "CREATE TABLE version2 (cust, kind, id, blpu, street, lang, live, born, gone, body, hop, x INTEGER NOT NULL);"
        "INSERT INTO version2 SELECT *, 0 FROM it; DROP TABLE it",
    ),
}


def refuses(on: Ground, case: Refusal) -> str | None:
    """What is wrong where a store isn't taken, and stays as it was."""
    store = on.damaged(case.sql)
    before = store.read_bytes()
    answered = on.hubs.over(store, QUESTIONS)
    wanted = Answered(3, b"", f"gaz_bench: {case.word}\n")
    if answered != wanted:
        return f"{answered}, wanted {wanted}"
    return None if store.read_bytes() == before else "the refused file was written"


def tells_fault(on: Ground, case: Fault) -> str | None:
    """What is wrong where a request meets a row that no store writes, and others don't."""
    store = on.place()
    on.hubs.over(store, case.history)
    alter(store, case.sql)
    wanted = REFUSED + b"".join(on.right(case.others))
    return fault_in(on.hubs.over(store, case.asked + case.others), wanted)


def answers_alike(on: Ground, sql: str) -> str | None:
    """What is wrong with the answers of a store to which this was done."""
    requests = QUESTIONS + LATER + QUESTIONS
    return fault_in(on.hubs.over(on.damaged(sql), requests), b"".join(on.right(requests)))


def takes_later(on: Ground, table: str, refusal: int, sql: str) -> str | None:
    """What is wrong with a store whose table has a further column: questions are answered, a file is taken only once the column is gone."""
    store = on.damaged(sql)
    fault = fault_in(on.hubs.over(store, QUESTIONS), b"".join(on.right(QUESTIONS)))
    if fault:
        return fault
    told = on.hubs.over(store, FILLING).replies
    if not told.endswith(b'{"refusal":%d}\n' % refusal):
        return f"a file is told {told}"
    alter(store, f"ALTER TABLE {table} DROP COLUMN x")
    again = FILLING * (refusal - 50)
    wanted = on.right(again + QUESTIONS)[refusal - 51 :]
    return fault_in(on.hubs.over(store, FILLING + QUESTIONS), b"".join(wanted))


Rows = dict[str, list[tuple]]


def schemas(schema: list[str], rows: Rows) -> Iterator[tuple[str, list[str], Rows]]:
    """Stores of the rows by the schema, and by others of the same tables and columns."""
    yield "by the same statements", schema, rows
    yield "without indexes", [it for it in schema if not it.startswith("CREATE INDEX")], rows
    yield "the last table first", sorted(schema, key=lambda it: (it.startswith("CREATE INDEX"), "TABLE version2" not in it)), rows
    further = [re.sub(r"hop INTEGER NOT NULL,", "hop INTEGER NOT NULL, x INTEGER,", it) for it in schema]
    yield "a further column behind the hop", further, rows | {"version2": [(*row, 7) for row in rows["version2"]]}
    yield "the hop before all columns", [in_front(it) for it in schema], rows | {"version2": [(row[-1], *row[:-1]) for row in rows["version2"]]}
    yield "without types and keys", [loosely(it) for it in schema if not it.startswith("CREATE INDEX")], rows
    yield "rows in the table of schema 1", schema, rows | {"version": [row[:-1] for row in rows["version2"]]}


def in_front(statement: str) -> str:
    """The statement with the column `hop` before all others, where it has that."""
    without = statement.replace(" hop INTEGER NOT NULL,", "")
    return without.replace("(cust", "(hop INTEGER NOT NULL, cust", 1) if without != statement else statement


def loosely(statement: str) -> str:
    """The table of a statement with nothing but the names of its columns."""
    name, inner = re.fullmatch(r"CREATE TABLE (\w+) \((.*)\) STRICT", statement).groups()
    columns = re.findall(r"(\w+) (?:INTEGER|TEXT|BLOB) NOT NULL", inner)
    return f"CREATE TABLE {name} ({', '.join(columns)})"


def answers_copy(on: Ground, schema: list[str], rows: Rows) -> str | None:
    """What is wrong with a store that Python wrote from a schema alone, with the rows of another."""
    store, requests = on.place(), QUESTIONS + LATER + QUESTIONS
    write_store(store, schema, rows)
    return fault_in(on.hubs.over(store, requests), b"".join(on.right(requests)))


def answers_empty(on: Ground, schema: list[str]) -> str | None:
    """What is wrong with a store that Python wrote from a schema alone, with no row but that of `meta`, in which all is received."""
    store = on.place()
    write_store(store, schema, {"meta": [(1, 2, TEXT)]})
    return fault_in(on.hubs.over(store, HISTORY + QUESTIONS), on.hubs.without_store(HISTORY + QUESTIONS).replies)


def judges_all_that_is_ready(on: Ground, schema: list[str]) -> str | None:
    """What is wrong with a store of which no file is judged yet, as a stop may leave it: one question has all that is ready judged before it is answered."""
    store, asked, rows = on.place(), get("/custodians/1003"), rows_of(on.ready)
    unjudged = [(code, volume, data, 0, 0, 0) for code, volume, data, *_ in rows["received"]]
    write_store(store, schema, {"meta": rows["meta"], "received": unjudged})
    fault = fault_in(on.hubs.over(store, asked), b"".join(on.right(asked)))
    return fault or (None if rows_of(store) == rows else "its rows aren't those of files that were judged as they came")


def schema_alike(on: Ground, schema: list[str]) -> str | None:
    """What is wrong where our store's schema isn't that of the page."""
    with opened(on.damaged()) as conn:
        found = [row[0] for row in conn.execute("SELECT sql FROM sqlite_schema WHERE sql IS NOT NULL ORDER BY rowid")]
    return None if found == schema else f"its schema is {found}, wanted {schema}"


def refuses_utf_16(on: Ground, schema: list[str]) -> str | None:
    """What is wrong where a store in another encoding is taken."""
    store = on.place()
    write_store(store, ["PRAGMA encoding = 'UTF-16'", *schema], rows_of(on.ready))
    found = on.hubs.over(store, QUESTIONS)
    return None if found == sharing.FAULT else f"{found}, wanted {sharing.FAULT}"


def run_all(root: Path, room: Path) -> Iterator[tuple[str, str | None]]:
    """Each case, and what is wrong."""
    schema = SECOND.statements()
    with hubs_of(room) as (hubs, folder):
        on = ground(hubs, folder)
        yield from ((f"damaged: {case.name}", refuses(on, case)) for case in REFUSALS)
        yield from ((f"damaged: {case.name}", tells_fault(on, case)) for case in FAULTS)
        yield from ((f"changed: {name}", answers_alike(on, sql)) for name, sql in HARMLESS.items())
        yield from ((f"with a further column of {table}", takes_later(on, table, *how)) for table, how in TAKING_NONE.items())
        yield from ((f"written by Python, {name}", answers_copy(on, *of)) for name, *of in schemas(schema, rows_of(on.ready)))
        yield "written by Python, with no file", answers_empty(on, schema)
        yield "written by Python, with no file judged", judges_all_that_is_ready(on, schema)
        yield "written by Python, in UTF-16", refuses_utf_16(on, schema)
        yield "with the schema of the page", schema_alike(on, schema_in(root / "docs" / "tables.md"))
        yield "read by Python", sharing.python_reads(on)
        yield "in use, and then left by a hub that was killed", sharing.killed(on)
        yield "in use by Python", sharing.in_use(on)
        yield "left by Python in a transaction", sharing.left_in_transaction(on)
