"""Commands that change or make a store at once, while calls of the store's files fail, the machine stops, the process is killed, or memory is refused, one moment a run."""

import contextlib
import itertools
import os
import shutil
import tempfile
from collections import Counter
from collections.abc import Callable, Iterator
from concurrent.futures import ThreadPoolExecutor
from dataclasses import dataclass, replace
from functools import partial
from pathlib import Path

from checks import failing, wanting
from checks.allowed import STOPPED
from checks.changing import AFTER, BEFORE, Change, Said, Tried, came_of, ran, tried_of
from checks.failing import Room
from checks.moments import Blocks, Files, Watched
from checks.preloading import library
from checks.stores import QUICK
from checks.troubled import CUTS, Came, rising

FARTHEST = 11  # the stride of the calls by which a second try is stopped

Trouble = Callable[[Room, Path, int], dict[str, str]]  # the environment of a run over a store, by its number


def calls(which: str, room: Room, store: Path, number: int) -> dict[str, str]:
    """Each call of these files fails once so many passed; or the next alone."""
    return room.files(store, which.format(number))


def memory(room: Room, store: Path, number: int) -> dict[str, str]:
    return room.memory(number)


def once(trouble: Trouble, tried: Tried, number: int) -> Came:
    store = tried.place()
    try:
        return came_of(tried, store, *ran(tried.room, store, tried.change.words, **trouble(tried.room, store, number)))
    finally:
        shutil.rmtree(store.parent)


def stopped_over(first: Files, tried: Tried, number: int, blocks: Blocks | None) -> tuple[Files, Came]:
    """What is there where the command over these files is stopped once so many calls of both passed, and what comes of it."""
    run, found = tried.watched(first)
    place = run.call_behind(number)
    left = run.last if place is None else run.left_at(place, blocks)
    return left, came_over(tried, run, found, place, left)


def came_over(tried: Tried, run: Watched, found: Said, place: int | None, left: Files) -> Came:
    """What comes of a run that is stopped before the call at a place, where there is one, and leaves this."""
    found = found if place is None else (STOPPED, run.told_at(place), b"")
    store = tried.place(left)
    try:
        came = came_of(tried, store, found, int(place is not None))
    finally:
        shutil.rmtree(store.parent)
    return came if run.is_true else Came("the calls that were seen don't make what is there", Counter())


def stop(tried: Tried, number: int, blocks: Blocks | None = (0, 0)) -> Came:
    """The machine stops, and of what wasn't synced so many blocks of the log and of the file are there; or where none are named the process alone is killed."""
    return stopped_over(tried.first(), tried, number, blocks)[1]


def cut(is_file: bool, tried: Tried, number: int) -> Came:
    """The machine stops, and the number says behind which call and how many blocks of one of the two are there."""
    call, at = divmod(number, len(CUTS))
    return stop(tried, call, (0, CUTS[at]) if is_file else (CUTS[at], 0))


def twice(tried: Tried, number: int) -> Came:
    """The machine stops, and in a second try, over what that left, at each call by a stride. Where none is left, that says what a command says that is given again."""
    left, came = stopped_over(tried.first(), tried, number, (0, 0))
    if came.fault or not came.met:
        return came
    met, is_changed = Counter(), came.met[AFTER]
    again = replace(tried, change=replace(tried.change, done=tried.change.again)) if is_changed else tried
    for more in itertools.count(number % FARTHEST, FARTHEST):
        came = stopped_over(left, again, more, (0, 0))[1]
        met += came.met
        if came.fault or not came.met:
            return Came(came.fault and f"and once more behind {more}: {came.fault}", met)


@dataclass(frozen=True)
class Part:
    """What fails or stops, by how much the number of a run rises, in which states it has to leave stores, and whether a store of which one in so many moments is
    tried has each of these."""

    name: str
    once: Callable[[Tried, int], Came]
    stride: int = 1
    met: tuple[str, ...] = (BEFORE, AFTER)
    is_each: bool = False


PARTS = (
    Part("calls of the log", partial(once, partial(calls, "log {}"))),
    Part("calls of the file", partial(once, partial(calls, "file {}"))),
    Part("calls of both", partial(once, partial(calls, "both {}"))),
    Part("one call", partial(once, partial(calls, "both {} 1"))),
    Part("the machine stops", stop, is_each=True),
    Part("the process is killed", partial(stop, blocks=None)),
    Part("the machine stops, and the log is there in part", partial(cut, False), 7),
    Part("the machine stops, and the file is there in part", partial(cut, True), 7),
    Part("the machine stops twice", twice, 7),
    Part("memory", partial(once, memory), 61, (BEFORE,)),
)


def part_fault(tried: Tried, part: Part, every: int = 1) -> str | None:
    """What is wrong with the first run that goes wrong, or that no run met what has to be met."""
    met: Counter[str] = Counter()
    stride = part.stride * (1 if part.is_each else every)
    with ThreadPoolExecutor(len(os.sched_getaffinity(0))) as workers:
        for number, came in rising(lambda number: part.once(tried, number), stride, workers):
            met += came.met
            if came.fault:
                return f"number {number}: {came.fault}"
    lacking = [it for it in part.met if not met[it]]
    return f"no store is as it was {lacking[0]} the change" if lacking else None


def few_faults(tried: Tried, part: Part, count: int) -> str | None:
    """What is wrong with the first of so many runs that goes wrong, at moments that are evenly spread over all calls."""
    calls = len(tried.watched(tried.first())[0].calls)
    came = ((number, part.once(tried, number)) for number in range(calls // (2 * count), calls, calls // count))
    return next((f"number {number} of {calls}: {it.fault}" for number, it in came if it.fault), None)


@contextlib.contextmanager
def room_of(gazhub: Path, registers: dict[str, str]) -> Iterator[Room]:
    """A folder with these registers, and the two libraries."""
    with tempfile.TemporaryDirectory(prefix="check-stopped-", dir=QUICK) as made, tempfile.TemporaryDirectory() as built:
        folder, libraries = Path(made).resolve(), Path(built)  # (from a folder in memory none may be loaded)
        for name, text in registers.items():
            (folder / name).write_text(text)
        yield Room(gazhub, folder, library(failing.SOURCE, libraries), library(wanting.SOURCE, libraries))


def run_all(room: Room, change: Change, every: int = 1, parts: tuple[Part, ...] = PARTS) -> Iterator[tuple[str, str | None]]:
    """Each part, by one in so many of its moments, and what is wrong."""
    return run_parts(*tried_of(room, change), every, parts)


def run_parts(tried: Tried, fault: str | None, every: int = 1, parts: tuple[Part, ...] = PARTS) -> Iterator[tuple[str, str | None]]:
    """The same of what is tried, and what was wrong with it without trouble."""
    name = tried.change.name
    yield f"{name}, without trouble", fault
    if fault is None:
        yield from ((f"{name}, {part.name}", part_fault(tried, part, every)) for part in parts)


def run_few(room: Room, change: Change, count: int, names: tuple[str, ...]) -> Iterator[tuple[str, str | None]]:
    """These parts at so many moments each, where the store is too large for all of them."""
    tried, fault = tried_of(room, change)
    yield f"{change.name}, without trouble", fault
    if fault is None:
        yield from ((f"{change.name}, {part.name}", few_faults(tried, part, count)) for part in PARTS if part.name in names)
