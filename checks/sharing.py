"""A store that a hub and Python's `sqlite3` read one after the other, or at once, or after one of them was cut off."""

import json
import shutil
import sqlite3
from pathlib import Path

from checks.conversations import DEADLINE, Client, difference, replies_in
from checks.ground import Ground
from checks.history import EXTRACTS, FILES, HISTORY, QUESTIONS
from checks.stored import fault_in
from checks.stores import Answered
from checks.tables import opened, outcome_in, rows_of, view_in

FAULT = Answered(3, b"", "gaz_bench: Fault\n")


def told_in(reply: bytes) -> dict:
    told = json.loads(reply.split(b"\r\n\r\n", 1)[1])
    return {name: value for name, value in told.items() if name != "wants"}


def outcomes_alike(conn: sqlite3.Connection, replies: list[bytes]) -> str | None:
    """What is wrong where the rows of the files tell other outcomes than the replies do."""
    for (code, volume), reply in zip(FILES, replies, strict=True):
        told, found = told_in(reply), outcome_in(conn, code, volume)
        if told != found:
            return f"the row of {code}/{volume} says {found}, and the reply {told}"
    return None


def views_alike(conn: sqlite3.Connection, replies: list[bytes]) -> str | None:
    """What is wrong where the rows of a volume aren't those of its extract."""
    for (code, volume), reply in zip(EXTRACTS, replies, strict=True):
        fault = difference(reply.split(b"\r\n\r\n", 1)[1], view_in(conn, code, volume))
        if fault:
            return f"the view {code}/{volume} {fault}"
    return None


def python_reads(on: Ground) -> str | None:
    """What is wrong with what Python's SQLite finds in a store of ours."""
    store = on.damaged()
    replies = replies_in(on.hubs.over(store, QUESTIONS).replies)
    with opened(store) as conn:
        found = conn.execute("PRAGMA integrity_check").fetchall()
        if found != [("ok",)]:
            return f"integrity_check says {found}"
        outcomes, extracts = replies[: len(FILES)], replies[len(FILES) :][: len(EXTRACTS)]
        return outcomes_alike(conn, outcomes) or views_alike(conn, extracts)


def is_locked(store: Path) -> bool:
    """Whether Python finds the store in use."""
    try:
        with opened(store) as conn:
            conn.execute("PRAGMA busy_timeout = 0")
            conn.execute("SELECT * FROM meta")
    except sqlite3.OperationalError as why:
        return "locked" in str(why)
    return False


def killed(on: Ground) -> str | None:
    """What is wrong where a hub is killed with the store open: until then nobody else reads it, and then its log has what was answered."""
    store, replies = on.place(), on.hubs.without_store(HISTORY).replies
    with Client([on.hubs.bench, "stored", store, on.hubs.register], DEADLINE) as client:
        client.send(HISTORY)
        if not client.receive(replies):
            return difference(replies, client.got)
        if not is_locked(store):
            return "Python reads a store that is in use"
    copy = on.place()
    for end in ("", "-wal"):
        shutil.copyfile(f"{store}{end}", f"{copy}{end}")
    if rows_of(copy) != rows_of(on.ready):
        return "Python finds other rows in the file and its log"
    return fault_in(on.hubs.over(store, QUESTIONS), b"".join(on.right(QUESTIONS)))


def in_use(on: Ground) -> str | None:
    """What is wrong where Python has the store open: a hub can't, and leaves it alone."""
    store = on.damaged()
    with opened(store) as conn:
        conn.execute("BEGIN IMMEDIATE")
        conn.execute("UPDATE meta SET number = 2")
        found = on.hubs.over(store, QUESTIONS)
        conn.execute("COMMIT")
    if found != FAULT:
        return f"{found}, wanted {FAULT}"
    return fault_in(on.hubs.over(store, QUESTIONS), b"".join(on.right(QUESTIONS)))


def left_in_transaction(on: Ground) -> str | None:
    """What is wrong with a store that Python left within a transaction: only SQLite can take it back, and then a hub finds what was there."""
    store, left = on.damaged(), on.place()
    with opened(store) as conn:
        conn.executescript("PRAGMA journal_mode = DELETE; PRAGMA cache_size = 1; BEGIN; DELETE FROM version2; CREATE TABLE other (x)")
        conn.execute("INSERT INTO other VALUES (zeroblob(1000000))")
        for end in ("", "-journal"):
            shutil.copyfile(f"{store}{end}", f"{left}{end}")
    found = on.hubs.over(left, QUESTIONS)
    if found != FAULT:
        return f"{found}, wanted {FAULT}"
    if rows_of(left) != rows_of(on.ready):
        return "Python finds other rows than before"
    return fault_in(on.hubs.over(left, QUESTIONS), b"".join(on.right(QUESTIONS)))
