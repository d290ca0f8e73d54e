"""Stores to which something was done that no store does: a hub over them ends, each request gets a reply, and nothing is written by asking."""

import os
import re
import shutil
import sqlite3
import sys
from concurrent.futures import ThreadPoolExecutor
from dataclasses import dataclass
from pathlib import Path

from checks.conversations import replies_in, requests_in
from checks.damages import COLUMNS, Damage, damages
from checks.ground import Ground, ground
from checks.history import EXTRACTS, FILES, HISTORY, LATER, QUESTIONS, REACHED
from checks.stores import Answered, hubs_of
from checks.tables import opened

REPLY = re.compile(
    rb"HTTP/1\.1 (\d{3}) [A-Za-z ]+\r\nContent-Type: (application/json|text/csv)\r\nContent-Length: (\d+)\r\n(?:Connection: close\r\n)?\r\n(.*)", re.DOTALL
)
REFUSALS = re.compile(r"gaz_bench: (BadSchema|OtherRegister|Fault)\n")
FAILED = (b'{"refusal":51}\n', b'{"refusal":52}\n')

FIRST_STANDING = len(FILES) + len(EXTRACTS)  # the place in QUESTIONS

# A file with such a text isn't opened.
MAY_REFUSE = "no UTF-8"


def is_spared(place: int, harmed: int) -> bool:
    """Whether the question at a place of QUESTIONS reads no row of `version2` of this custodian: it is about files, or another's extract."""
    if place < len(FILES):
        return True
    if place < FIRST_STANDING:
        return EXTRACTS[place - len(FILES)][0] != harmed
    return place < FIRST_STANDING + len(REACHED)


def malformed(reply: bytes) -> str | None:
    """What is wrong with the form of a reply."""
    found = REPLY.fullmatch(reply)
    if not found or int(found[3]) != len(found[4]):
        return f"no reply: {reply[:200]}"
    if found[1] == b"503" and found[4] not in FAILED:
        return f"another refusal: {reply[:200]}"
    return None


def contents(store: Path) -> list | str:
    """The rows of the tables as Python finds them, or why it doesn't."""
    try:
        with opened(store) as conn:
            conn.text_factory = bytes
            return [conn.execute(f"SELECT * FROM {table} NOT INDEXED").fetchall() for table in (*COLUMNS, "version")]
    except (sqlite3.DatabaseError, UnicodeDecodeError) as why:
        return str(why)


@dataclass(frozen=True)
class Told:
    """What a hub tells over a damaged store."""

    store: Path
    before: bytes
    answered: Answered

    def is_refused(self) -> bool:
        return self.answered.status == 3 and self.answered.replies == b"" and REFUSALS.fullmatch(self.answered.said) is not None

    def fault(self, requests: int) -> str | None:
        """What is wrong, whatever the damage was."""
        if self.is_refused():
            return None if self.store.read_bytes() == self.before else "the refused file was written"
        if self.answered.fault():
            return self.answered.fault()
        replies = replies_in(self.answered.replies)
        if len(replies) != requests:
            return f"{len(replies)} replies to {requests} requests"
        return next(filter(None, map(malformed, replies)), None)


def told(on: Ground, store: Path, requests: bytes) -> Told:
    before = store.read_bytes()
    return Told(store, before, on.hubs.over(store, requests))


def first_other(got: list[bytes], right: list[bytes], harmed: int) -> str | None:
    """The first question that reads no damaged row, and yet is told something else."""
    pairs = enumerate(zip(got, right, strict=True))
    return next((f"question {at} is told {it[:200]}" for at, (it, wanted) in pairs if it != wanted and is_spared(at, harmed)), None)


def has_other_files(now: list | str, then: list | str) -> bool:
    """Whether a damage, of a page say, was one to the received files."""
    received = list(COLUMNS).index("received")
    return isinstance(now, list) and isinstance(then, list) and now[received] != then[received]


def asks(on: Ground, store: Path, damage: Damage, right: list[bytes]) -> str | None:
    """What is wrong with questions alone: also, they are told as before where they read no damaged row, and write nothing. But among the received
    files a damage may make one ready, which is judged before a question is answered."""
    before = contents(store)
    may_make_ready = damage.name.startswith("received") or has_other_files(before, contents(on.ready))
    it = told(on, store, QUESTIONS)
    fault = it.fault(len(right))
    if fault:
        return fault
    if not may_make_ready and contents(store) != before:
        return "a question has written"
    if damage.harms is None:
        return None
    if it.is_refused():
        return None if MAY_REFUSE in damage.name else f"isn't opened: {it.answered.said}"
    return first_other(replies_in(it.answered.replies), right, damage.harms)


def endures(on: Ground, damage: Damage, right: list[bytes]) -> str | None:
    """What is wrong with a hub over a store to which this was done. `right` is what was told to QUESTIONS before."""
    store, requests = on.place(), HISTORY + QUESTIONS + LATER
    shutil.copyfile(on.ready, store)
    damage.do(store)
    try:
        return asks(on, store, damage, right) or told(on, store, requests).fault(len(requests_in(requests)))
    finally:
        shutil.rmtree(store.parent)


def run_all(root: Path, room: Path, stride: int = 1) -> list[tuple[str, str | None]]:
    """Each damage, or one in so many, and what is wrong. With one in seven each value comes, and each way to write over a page."""
    with hubs_of(room) as (hubs, folder), ThreadPoolExecutor(len(os.sched_getaffinity(0))) as workers:
        on = ground(hubs, folder)
        right, them = on.right(QUESTIONS), list(damages(on.ready))[::stride]
        return list(workers.map(lambda it: (it.name, endures(on, it, right)), them))


def main() -> int:
    """Does all damages to stores of the program that is built here, for a person: `python3 -m checks.damaged`, at the top of the repository."""
    ran = run_all(Path.cwd(), Path.cwd())
    faults = [f"{name}: {fault}" for name, fault in ran if fault]
    print(*faults, f"{len(ran) - len(faults)} passed, {len(faults)} failed", sep="\n")
    return 1 if faults else 0


if __name__ == "__main__":
    sys.exit(main())
