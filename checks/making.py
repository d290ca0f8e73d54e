"""Which databases become a store, by `init`, and which are taken as one, by `status`: databases that Python's own SQLite made. A refused one
holds what it held."""

import subprocess
import tempfile
from collections.abc import Iterator
from dataclasses import dataclass
from pathlib import Path

from checks.conversations import DEADLINE
from checks.sessions import fails
from checks.tables import opened

REGISTER = '[[custodian]]\ncode = 1001\nname = "one"\nuprn = []\nusrn = []\n'

# Tables as another program may have made them: in another order, in other case, with a column beside.
LOOSE = (
    "CREATE TABLE Meta (register TEXT, number INTEGER, id INTEGER PRIMARY KEY);"
    "CREATE TABLE VERSION (born, gone, body, cust, kind, id, blpu, street, lang, live, note);"
    "CREATE TABLE Version2 (hop, born, gone, body, cust, kind, id, note, blpu, street, lang, live);"
    "CREATE TABLE received (place, rule, STATE, bytes, volume, cust);"
    "INSERT INTO meta (id, number, register) VALUES (1, 2, '1001,one,,' || char(10))"
)
NO_TABLES = "DROP TABLE meta; DROP TABLE received; DROP TABLE version; DROP TABLE version2"
COLUMNS = {
    "version": ("cust", "kind", "id", "blpu", "street", "lang", "live", "born", "gone", "body"),
    "version2": ("cust", "kind", "id", "blpu", "street", "lang", "live", "born", "gone", "body", "hop"),
    "received": ("cust", "volume", "bytes", "state", "place", "rule"),
    "meta": ("id", "number", "register"),
}
WORDS = {"init": ("init",), "status": ("status", "1001")}
READY = {"init": b"ready\n", "status": b"custodian 1001 judged 0 held 0 wants 1001/1\n"}


@dataclass(frozen=True)
class Group:
    """Databases of which a command says the same: which they are is what these statements make of an empty database or of a new store."""

    command: str
    of_a_store: bool
    word: str  # why it is refused; none where it isn't
    statements: tuple[str, ...]


def lacking() -> Iterator[str]:
    """Stores of which a table has another name in place of one of its columns."""
    for table, columns in COLUMNS.items():
        for other in columns:
            named = ", ".join(f"{it}_" if it == other else it for it in columns)
            yield f"DROP TABLE {table}; CREATE TABLE {table} (note, {named})"


GROUPS = (
    Group("init", False, "", ("", "CREATE TABLE note (id)")),
    Group("init", True, "", (NO_TABLES,)),
    # A table of one of the four names, in whatever case, with whatever in it.
    Group(
        "init",
        False,
        "BadSchema",
        (
            "CREATE TABLE version (id)",
            "CREATE TABLE version2 (id)",
            "CREATE TABLE received (id)",
            "CREATE TABLE meta (id)",
            "CREATE TABLE VERSION (id)",
            "CREATE TABLE Version2 (id)",
            "CREATE TABLE Received (id); INSERT INTO Received VALUES (7)",
            "CREATE TABLE mETA (id); CREATE INDEX by_id ON mETA (id); CREATE TABLE note (id)",
            LOOSE,
        ),
    ),
    Group("init", True, "BadSchema", ("", "DROP TABLE meta", "DROP TABLE version2", "DROP TABLE meta; DROP TABLE received; DROP TABLE version")),
    # What else has one of these names, or that of an index.
    Group(
        "init",
        False,
        "Fault",
        (
            "CREATE VIEW version AS SELECT 1",
            "CREATE VIEW version2 AS SELECT 1",
            "CREATE VIEW received AS SELECT 1",
            "CREATE VIEW meta AS SELECT 1",
            "CREATE TABLE note (id); CREATE INDEX meta ON note (id)",
            "CREATE TABLE by_blpu (id)",
            "CREATE TABLE note (id); CREATE INDEX by_street ON note (id)",
            "CREATE TABLE by_blpu2 (id)",
            "CREATE TABLE note (id); CREATE INDEX by_street2 ON note (id)",
        ),
    ),
    # Whoever has made the tables, in whatever order.
    Group("status", False, "", (LOOSE,)),
    Group(
        "status",
        True,
        "",
        (
            "",
            "DROP INDEX by_blpu; DROP INDEX by_blpu2; CREATE TABLE note (id)",
            "INSERT INTO version VALUES (1001, 11, 'x', 0, 0, 0, 0, 1, 2, '')",
        ),
    ),
    # No tables, or not all, or not all columns.
    Group("status", False, "BadSchema", ("", "CREATE TABLE note (id)")),
    Group(
        "status",
        True,
        "BadSchema",
        (
            NO_TABLES,
            "DROP TABLE version",
            "DROP TABLE version2",
            "DROP TABLE received",
            "DROP TABLE meta",
            "DROP TABLE version; CREATE TABLE version (id)",
            "DROP TABLE meta; CREATE TABLE metas (id, number, register)",
            "DROP TABLE meta; CREATE VIEW meta AS SELECT 1 AS id, 2 AS number, '' AS register",
            *lacking(),
        ),
    ),
    # The rows of `meta`; they are asked for before its text.
    Group(
        "status",
        True,
        "BadSchema",
        (
            "DELETE FROM meta",
            "INSERT INTO meta SELECT 2, number, register FROM meta",
            "UPDATE meta SET id = 2",
            "UPDATE meta SET number = 1",
            "UPDATE meta SET number = 3",
            "UPDATE meta SET number = 1; DROP TABLE version2",
            "UPDATE meta SET register = 'x', number = 1",
            "UPDATE meta SET register = 'x'; DROP TABLE received",
        ),
    ),
    Group(
        "status",
        True,
        "OtherRegister",
        (
            "UPDATE meta SET register = '1001,two,,' || char(10)",
            "UPDATE meta SET register = ''",
            "DROP TABLE meta; CREATE TABLE meta (id, number, register); INSERT INTO meta VALUES (1, 2, NULL)",
        ),
    ),
)


def content(store: Path) -> str:
    """All that a database holds, as Python reads it: how its tables, views and indexes were made, and the rows of each."""
    with opened(store) as conn:
        return "\n".join(conn.iterdump())


def run(program: Path, folder: Path, command: str) -> tuple[int, bytes, bytes]:
    """How a command over the store of a folder ended, and what it printed, and said."""
    words = [program, WORDS[command][0], "--store", "s.db", "--register", "r.toml", *WORDS[command][1:]]
    ran = subprocess.run(words, cwd=folder, stdin=subprocess.DEVNULL, capture_output=True, timeout=DEADLINE)
    return ran.returncode, ran.stdout, ran.stderr


def fault_of(program: Path, group: Group, statements: str) -> str | None:
    """What is wrong with what a command says of this database, and with what it then holds."""
    wanted = (3, b"", fails(group.word)) if group.word else (0, READY[group.command], b"")
    with tempfile.TemporaryDirectory(prefix="check-making-") as made:
        folder = Path(made)
        (folder / "r.toml").write_text(REGISTER)
        store = folder / "s.db"
        store.touch()
        if group.of_a_store and run(program, folder, "init")[0] != 0:
            return "no store was made"
        with opened(store) as conn:
            conn.executescript(statements)
        before = content(store)
        try:
            found = run(program, folder, group.command)
        except subprocess.TimeoutExpired:
            return f"didn't end within {DEADLINE:g} s"
        if found != wanted:
            return f"{found}, wanted {wanted}"
        is_made = group.command == "init" and not group.word
        if (content(store) != before) != is_made:
            return "it doesn't hold what it held" if not is_made else "no table was made"
    return None


def run_all(program: Path, groups: tuple[Group, ...] = GROUPS) -> Iterator[tuple[str, str | None]]:
    """Each database, and what is wrong with it."""
    for group in groups:
        for statements in group.statements:
            of = "a new store" if group.of_a_store else "nothing"
            yield f"{group.command} over {of}, {statements or 'as it is'}"[:100], fault_of(program, group, statements)
