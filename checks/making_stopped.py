"""`gazhub init`, stopped or failing at each call of the store's files: what is left is no store, of which the next `init` makes one, or the whole store, as it is
where nothing fails. Either then takes files."""

import sqlite3
from collections.abc import Iterator
from dataclasses import replace
from pathlib import Path

from checks import stopped
from checks.changing import AFTER, BEFORE, Change, Said, Tried, copied, said
from checks.failing import Room
from checks.making import content
from checks.moments import NONE, Files
from checks.serving import STREET
from checks.sessions import fails
from checks.stopped import Part, came_over, room_of, run_parts
from checks.stores import SAMPLE
from checks.troubled import Came

FILES = {"r.toml": SAMPLE, "street.csv": STREET.decode()}
PLACES = ("--store", "s.db", "--register", "../r.toml")
INIT, STATUS, SUBMIT = ("init", *PLACES), ("status", *PLACES, "1001"), ("submit", *PLACES, "1001", "1", "../street.csv")

READY: Said = (0, b"ready\n", b"")
THERE: Said = (3, b"", fails("BadSchema"))
NO_STORE = (THERE, (3, b"", fails("Fault")))  # what `status` says where there is none


def told(line: bytes) -> Said:
    return 0, line + b"\n", b""


NEW = told(b"custodian 1001 judged 0 held 0 wants 1001/1")
# What is said of a store that is there, one command after the other.
USED = (
    (INIT, THERE),
    (STATUS, NEW),
    (SUBMIT, told(b"new applied")),
    (SUBMIT, told(b"repeat applied")),
    (STATUS, told(b"custodian 1001 judged 1 held 0 wants 1001/2")),
    (INIT, THERE),
)


def content_of(store: Path) -> str:
    """All that a copy of a store holds, or why Python can't read it."""
    with copied(store) as copy:
        try:
            return content(copy)
        except sqlite3.DatabaseError as why:
            return f"{type(why).__name__}: {why}"


class Making(Tried):
    """A store that is made where nothing is."""

    def first(self) -> Files:
        return NONE

    def read_state(self, store: Path) -> str | None:
        """By what `status` says of a copy: whether it is a store in which nothing was received, or none."""
        with copied(store) as copy:
            found = said(self.room, copy, STATUS)
        return AFTER if found == NEW else BEFORE if found in NO_STORE else None

    def asked_fault(self, store: Path, state: str) -> str | None:
        """What is wrong where somebody asks a copy of it first."""
        with copied(store) as copy:
            said(self.room, copy, STATUS)
            return self.again_fault(copy, state)

    def again_fault(self, store: Path, state: str) -> str | None:
        """What is wrong with the next `init`, and with the store behind it."""
        fault = super().again_fault(store, state)
        if fault:
            return fault
        if content_of(store) != self.after:
            return "given again it leaves another store"
        for words, wanted in USED:
            found = said(self.room, store, words)
            if found != wanted:
                return f"then {words[0]} says {found}, wanted {wanted}"
        return None


def unlisted(tried: Tried, number: int) -> Came:
    """The machine stops, and a file of which nothing was synced by then isn't there."""
    run, found = tried.watched(tried.first())
    place = run.call_behind(number)
    if place is None:
        return came_over(tried, run, found, place, run.last)
    synced = {it.which for it in run.calls[:place] if it.what == "s"}
    left = tuple(data if which in synced else None for which, data in enumerate(run.left_at(place, (0, 0))))
    return came_over(tried, run, found, place, left)


PARTS = (*stopped.PARTS, Part("the machine stops, and a file that wasn't synced isn't there", unlisted))


def making_of(room: Room) -> tuple[Making, str | None]:
    """A store that is made without trouble, and what is wrong with it then."""
    tried = Making(room, Change("init", Path(), INIT, READY, THERE, ()), "", "")
    store = tried.place()
    found = said(room, store, INIT)
    if found != READY:
        return tried, f"without trouble it says {found}, wanted {READY}"
    tried = replace(tried, after=content_of(store))
    return tried, tried.again_fault(store, AFTER)


def run_all(gazhub: Path, every: int = 1, parts: tuple[Part, ...] = PARTS) -> Iterator[tuple[str, str | None]]:
    """Each moment at which the making of a store may stop or fail."""
    with room_of(gazhub, FILES) as room:
        yield from run_parts(*making_of(room), every, parts)
