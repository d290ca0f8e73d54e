"""Stores of schema 1 that `gazhub migrate` takes: what it says and makes of each, and that the store then tells and takes just what one does that received the
same files anew."""

import shutil
import subprocess
import tempfile
from collections.abc import Iterator
from dataclasses import dataclass, replace
from pathlib import Path

from checks.changing import Said, copied
from checks.conversations import DEADLINE, requests_in
from checks.history import LATER, QUESTIONS
from checks.stored import fault_in
from checks.stores import Hubs, built, get, hubs_of
from checks.tables import opened, rows_of
from checks.written import FIRST, SECOND, STORES, moved, text_of

MIGRATED: Said = (0, b"migrated\n", b"")
CURRENT: Said = (0, b"current\n", b"")

# (where the trees of a table stand goes by when it was made)
SCHEMA = "SELECT type, name, tbl_name, sql FROM sqlite_schema ORDER BY rowid"
CODES = (1001, 1002, 1003)

Rows = dict[str, list[tuple]]


@dataclass(frozen=True)
class Place:
    """The programs, and a folder for stores."""

    gazhub: Path
    hubs: Hubs
    folder: Path

    def store(self) -> Path:
        """Where no store is yet."""
        return Path(tempfile.mkdtemp(dir=self.folder)) / "s.db"

    def run(self, store: Path, command: str, *more: str) -> Said:
        words = [self.gazhub, command, "--store", store, "--register", self.hubs.register, *more]
        ran = subprocess.run(words, stdin=subprocess.DEVNULL, capture_output=True, timeout=DEADLINE)
        return ran.returncode, ran.stdout, ran.stderr

    def received_anew(self, files: list[tuple]) -> Path:
        """A store in which the files of these rows of `received` were received, in their order."""
        store, file = self.store(), self.folder / "file.csv"
        made = self.run(store, "init")
        assert made == (0, b"ready\n", b""), made
        for code, volume, data, *_ in files:
            file.write_bytes(data)
            self.run(store, "submit", str(code), str(volume), str(file))
        return store


def held(store: Path) -> Rows:
    """The rows of a store, whose files are left alone."""
    with copied(store) as copy:
        return rows_of(copy)


def schema_fault(store: Path, wanted: str) -> str | None:
    """What is wrong where a store has other tables and indexes than these statements make, or Python finds it damaged."""
    with copied(store) as copy, opened(copy) as conn, opened(":memory:") as other:
        if conn.execute("PRAGMA integrity_check").fetchall() != [("ok",)]:
            return "it is damaged"
        other.executescript(wanted)
        ours, theirs = (it.execute(SCHEMA).fetchall() for it in (conn, other))
    return None if ours == theirs else f"its tables differ in {sorted(set(ours) ^ set(theirs), key=str)}"


def migration_fault(on: Place, store: Path) -> str | None:
    """What is wrong with the migration of a store, and with two further ones, which find it done."""
    wanted = moved(held(store))
    for turn, words in enumerate((MIGRATED, CURRENT, CURRENT)):
        file = store.read_bytes()
        found = on.run(store, "migrate")
        if found != words:
            return f"it says {found}, wanted {words}"
        if held(store) != wanted:
            return "it has other rows than before"
        if turn and store.read_bytes() != file:
            return "it wrote to a store that is current"
    return None


def asked_of(rows: Rows) -> list[tuple[str, ...]]:
    """The commands that ask for all there is to ask of a store by commands, and for what is next to it."""
    reached = {code: sum(1 for cust, _, _, state, *_ in rows["received"] if (cust, state > 0) == (code, True)) for code in CODES}
    uprns = sorted({int(row[2]) for row in rows["version2"] if row[1] == 21} | {1})
    return [
        *(("status", str(code)) for code in CODES),
        *(("extract", str(code), str(volume)) for code in CODES for volume in range(1, reached[code] + 2)),
        *(("line", str(uprn)) for uprn in uprns),
    ]


def questions_of(rows: Rows) -> bytes:
    """All that is asked of it by requests: the same, and the outcome of each volume up to one behind the last, and closed streets."""
    last = {code: max((volume for cust, volume, *_ in rows["received"] if cust == code), default=0) for code in CODES}
    outcomes = (f"/custodians/{code}/volumes/{volume}" for code in CODES for volume in range(1, last[code] + 2))
    asked = {"status": "/custodians/{}", "extract": "/extract/{}/{}", "line": "/uprn/{}"}
    targets = (asked[word].format(*more) for word, *more in asked_of(rows))
    return b"".join(map(get, (*outcomes, *targets, "/closed")))


def told_otherwise(on: Place, store: Path, anew: Path) -> str | None:
    """The first question to which a migrated store has another answer than one that received the files anew: by commands, by requests that are answered from the
    tables, and from memory."""
    rows = held(store)
    for words in asked_of(rows):
        found, wanted = on.run(store, *words), on.run(anew, *words)
        if found != wanted:
            return f"{' '.join(words)} is told {found}, and anew {wanted}"
    for way in (on.hubs.over, on.hubs.at_hand):
        wanted = way(anew, questions_of(rows))
        fault = wanted.fault() or fault_in(way(store, questions_of(rows)), wanted.replies)
        if fault:
            return fault
    return None if held(store) == rows else "a question has written"


def goes_on_otherwise(on: Place, store: Path, anew: Path, more: bytes) -> str | None:
    """What is wrong where further files make something else of a migrated store; it is opened for each of them."""
    pieces = requests_in(more)
    wanted = on.hubs.over_each(anew, pieces)
    fault = wanted.fault() or fault_in(on.hubs.over_each(store, pieces), wanted.replies)
    return fault or (None if held(store) == held(anew) else "it has other rows afterwards")


def fault_of(on: Place, store: Path, more: bytes) -> str | None:
    """What is wrong with a store of schema 1 that is migrated, asked and sent further files."""
    fault = migration_fault(on, store) or schema_fault(store, SECOND.tables())
    if fault:
        return fault
    anew = on.received_anew(held(store)["received"])
    if held(anew) != held(store):
        return "its rows aren't those of a store that received the files anew"
    return told_otherwise(on, store, anew) or goes_on_otherwise(on, store, anew, more)


def freed(on: Place) -> str | None:
    """What is wrong where a file waits in a store of schema 1, and what it waits for comes once the store is migrated."""
    store, name = on.store(), STORES[0].name
    shutil.copyfile(FIRST.folder / f"{name}.db", store)
    wanting, missing = on.folder / "3.csv", on.folder / "2.csv"
    wanting.write_bytes(next(data for _, volume, data, *_ in held(store)["received"] if volume == 3))
    missing.write_bytes(b"10,1,1001,2,2024-02-01\n15,I,1,101,ENG,High Street,,Arden,Arden\n99,1\n")
    for words, wanted in (
        (("status", "1001"), (3, b"", b"gazhub: BadSchema\n")),
        (("migrate",), MIGRATED),
        (("status", "1001"), (0, b"custodian 1001 judged 1 held 1 wants 1001/2\n", b"")),
        (("submit", "1001", "2", str(missing)), (0, b"new applied\n", b"")),
        (("submit", "1001", "3", str(wanting)), (0, b"repeat applied\n", b"")),
        (("line", "42"), (0, b"Flat 2, 12A-14 High Street, Arden, AR1 2DN\n", b"")),
    ):
        found = on.run(store, *words)
        if found != wanted:
            return f"{words[0]}: {found}, wanted {wanted}"
    return None


def stores_of(on: Place, root: Path) -> Iterator[tuple[str, Path, bytes]]:
    """Each store of schema 1, as Python writes it and as the last program of that schema left it, and what it is sent and asked further."""
    sent = {it.name: replace(it, most=None).requests(root) for it in STORES}
    for name in ("history", *sent):
        left, theirs = on.store(), on.store()
        shutil.copyfile(FIRST.folder / f"{name}.db", left)
        with opened(theirs) as conn:
            conn.executescript(FIRST.tables() + text_of(held(left)))
        for how, store in (("as it was left", left), ("as Python writes it", theirs)):
            yield f"{name}, {how}", store, sent.get(name, b"") + LATER + QUESTIONS


def run_all(root: Path, room: Path) -> Iterator[tuple[str, str | None]]:
    """Each store, and what is wrong."""
    with hubs_of(room) as (hubs, folder):
        on = Place(built(room, "gazhub"), hubs, folder)
        yield "a file that waits", freed(on)
        yield from ((name, fault_of(on, store, more)) for name, store, more in stores_of(on, root))
