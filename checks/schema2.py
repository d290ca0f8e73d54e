"""Stores of schema 2 as written tables: our stores hold just the rows that are written, and a hub over the rows answers alike. One is of a property that passed; the others are those of schema 1,
moved: so are those of a history, of which the last program of schema 1 left a store."""

import contextlib
import shutil
import sqlite3
from collections.abc import Iterator
from pathlib import Path

from checks.conversations import replies_in
from checks.history import HISTORY, LATER, QUESTIONS
from checks.stored import fault_in
from checks.stores import Hubs, hubs_of
from checks.tables import opened, rows_of
from checks.written import FIRST, PASSED, SECOND, STORES, Written, moved, text_of

SCHEMA = "SELECT type, name, tbl_name, rootpage, sql FROM sqlite_schema ORDER BY rowid"


def left_by(hubs: Hubs, store: Path, requests: bytes) -> str:
    """The rows that requests leave in a new store, as statements."""
    answered = hubs.over(store, requests)
    assert answered.fault() is None, answered.fault()
    return text_of(rows_of(store))


def first_other(wanted: str, found: str) -> str | None:
    """The first line of rows that is another."""
    ours, theirs = found.splitlines(), wanted.splitlines()
    pairs = enumerate(zip(theirs, ours), 1)
    return next((f"line {at}: {got}, wanted {want}" for at, (want, got) in pairs if want != got), None) or (
        f"{len(ours)} lines, wanted {len(theirs)}" if len(ours) != len(theirs) else None
    )


def holds(hubs: Hubs, root: Path, folder: Path, written: Written) -> str | None:
    """What is wrong where our store holds other rows than are written."""
    return first_other(SECOND.rows(written), left_by(hubs, folder / f"{written.name}.ours", written.requests(root)))


def answers(hubs: Hubs, root: Path, folder: Path, written: Written) -> str | None:
    """What is wrong where a store as written answers the conversation, held once more, otherwise than a hub that had held it."""
    store, requests = folder / f"{written.name}.theirs", written.requests(root)
    SECOND.write(store, written)
    twice = replies_in(hubs.without_store(requests + requests).replies)
    return fault_in(hubs.over(store, requests), b"".join(twice[len(twice) // 2 :]))


def left_rows(folder: Path) -> dict[str, list[tuple]]:
    """The rows of the history as the last program of schema 1 left them, moved. Python reads a copy, since it changes what it opens."""
    copy = folder / "left.db"
    shutil.copyfile(FIRST.folder / "history.db", copy)
    return moved(rows_of(copy))


def holds_history(hubs: Hubs, folder: Path) -> str | None:
    """What is wrong where our store of a history holds other rows than that of schema 1 did."""
    return first_other(text_of(left_rows(folder)), left_by(hubs, folder / "history.ours", HISTORY))


def answers_history(hubs: Hubs, folder: Path) -> str | None:
    """What is wrong where the rows that schema 1 had of a history are told otherwise than a hub tells it that had held it."""
    store, requests = folder / "history.theirs", QUESTIONS + LATER + QUESTIONS
    with opened(store) as conn:
        conn.executescript(SECOND.tables() + text_of(left_rows(folder)))
    behind = len(replies_in(hubs.without_store(HISTORY).replies))
    return fault_in(hubs.over(store, requests), b"".join(replies_in(hubs.without_store(HISTORY + requests).replies)[behind:]))


def same_tables(hubs: Hubs, folder: Path) -> str | None:
    """What is wrong where our store's tables aren't those that are written, made in the same order."""
    store = folder / "tables"
    hubs.over(store, b"")
    with opened(store) as conn, contextlib.closing(sqlite3.connect(":memory:")) as written:
        written.executescript(SECOND.tables())
        ours, theirs = (it.execute(SCHEMA).fetchall() for it in (conn, written))
    return None if ours == theirs else f"differ in {sorted(set(ours) ^ set(theirs), key=str)}"


def run_all(root: Path, room: Path) -> Iterator[tuple[str, str | None]]:
    """Each store as written, and what is wrong."""
    with hubs_of(room) as (hubs, folder):
        yield "the tables", same_tables(hubs, folder)
        yield "rows of a history", holds_history(hubs, folder)
        yield "answers of a history", answers_history(hubs, folder)
        for written in (*STORES, PASSED):
            yield f"rows of {written.name}", holds(hubs, root, folder, written)
            yield f"answers of {written.name}", answers(hubs, root, folder, written)
