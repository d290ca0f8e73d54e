"""What `gazhub serve` brings to hand of a store: a row that can't be read is told as a command tells it, and a file that is held far ahead costs nothing.
What a release ends a command doesn't read."""

import contextlib
import sqlite3
import subprocess
import time
from collections.abc import Callable
from pathlib import Path

from checks.serving import STREET, Room, replied

FAILED = b'{"refusal":51}\n'
PROPERTY = b"10,1,1001,1,2024-01-02\n21,I,1,42,1,450000,250000,,,2001-04-01,\n99,1\n"
RELEASE = b"10,2,1001,2,2025-01-02\n91,I,1,42,1002,1\n99,1\n"
LAST = 999_999
SOON = 2.0  # seconds, where a look at each volume before the last takes longer


def submit(room: Room, store: Path, code: int, volume: int, text: bytes) -> bytes:
    """What is printed, whatever becomes of it."""
    file = room.folder / "file.csv"
    file.write_bytes(text)
    return subprocess.run(room.words("submit", store, str(code), str(volume), str(file)), stdout=subprocess.PIPE).stdout


def spoil(store: Path) -> None:
    """No row of an item can be read any more."""
    with contextlib.closing(sqlite3.connect(store, isolation_level=None)) as conn:
        conn.execute("UPDATE version2 SET body = 'nothing'")


def a_row_that_cant_be_read_is_told(room: Room) -> str | None:
    store = room.store()
    submit(room, store, 1001, 1, STREET)
    spoil(store)
    asked = subprocess.run(room.words("extract", store, "1001", "1"), capture_output=True)
    if (asked.returncode, asked.stderr) != (3, b"gazhub: NotReceived\n"):
        return f"the command says {asked.stderr!r} with status {asked.returncode}"
    with room.serves(1, store) as served:
        got = replied(served.client(), "GET", "/extract/1001/1")
        return None if got == (503, FAILED) else f"it replies {got}"


def a_row_that_a_release_ends_is_told_before_it(room: Room) -> str | None:
    store = room.store()
    submit(room, store, 1001, 1, PROPERTY)
    spoil(store)
    said = submit(room, store, 1001, 2, RELEASE)
    if said != b"new applied\n":
        return f"the release is answered {said!r}"
    ran = [subprocess.run(room.words("extract", store, "1001", str(volume)), capture_output=True) for volume in (2, 1)]
    told = [(it.returncode, it.stderr) for it in ran]
    return None if told == [(0, b""), (3, b"gazhub: NotReceived\n")] else f"the extracts end so: {told}"


def what_is_held_far_ahead_costs_nothing(room: Room) -> str | None:
    store = room.store()
    for code in (1001, 1002, 1003):
        submit(room, store, code, LAST, b"10,1,%d,%d,2024-01-02\n99,0\n" % (code, LAST))
    with room.serves(1, store) as served:
        begun = time.monotonic()
        status, said = replied(served.client(), "GET", "/custodians/1003")
        took = time.monotonic() - begun
    if (status, b'"held":1,' in said) != (200, True):
        return f"it replies {status} {said!r}"
    return None if took < SOON else f"the first reply came after {took:.1f} s"


CASES: tuple[Callable[[Room], str | None], ...] = (
    a_row_that_cant_be_read_is_told,
    a_row_that_a_release_ends_is_told_before_it,
    what_is_held_far_ahead_costs_nothing,
)
