"""Histories over keepers that fail: a statement, a call of the store's files or of the keeper, or a request for memory, one moment a run.

Each answer is what a plain hub in Python says, but 51 and 52, where something failed. After a 51 the hub is as before, and after a 52 the
file is in. In the end all is sent again and asked; over a store in a file by a further process, once the trouble is over.
"""

import functools
import itertools
import os
import tempfile
from collections import Counter
from collections.abc import Callable, Iterator
from concurrent.futures import ThreadPoolExecutor
from dataclasses import dataclass, replace
from pathlib import Path

from checks import wanting
from checks.allowed import STOPPED, Along, Ended
from checks.conversations import replies_in
from checks.failing import SOURCE, Requests, Room, files_of
from checks.moments import NONE, Blocks, Files, Watched, digests, held, write
from checks.preloading import library
from checks.stores import QUICK, SAMPLE
from checks.short_histories import HISTORIES, QUESTIONS, outcome_of
from checks.wanting import body_of

WAITING = ("a file waits for a neighbour's",)

STORES = ("stored", "at-hand")
MAPS = ("maps",)  # a keeper in memory
IN_TURN = "stored-each"  # the store is closed and opened between two requests

CALM = 8  # so many runs one behind the other that met nothing are the last
CUTS = (1, 2, 8, 9, 17, 40)  # blocks of 512 bytes; a page in the log takes eight and a bit
FARTHEST = 5  # so far behind the first call or request that fails the second one is


@dataclass(frozen=True)
class Came:
    """What is wrong with a run, and what it met: refusals, stops, and where there was no store."""

    fault: str | None
    met: Counter[str]


def met_in(ended: Ended) -> Counter[str]:
    met = Counter(str(it) for it in ended.refusals() if it)
    if ended.failed and not met:
        met["stop" if ended.status == STOPPED else "end" if ended.replies else "no store"] += 1
    return met


def within(room: Room, words: list[str], history: Requests, failures: int | None = None, **env: str) -> Came:
    """A run over one hub, where so many calls fail at most; all is sent again to it and asked."""
    requests = (*history, *history, *QUESTIONS)
    ended = room.run(words, requests, **env)
    if failures is not None:
        ended = replace(ended, failed=min(failures, sum(map(bool, ended.refusals()))))
    return Came(Along().fault(requests, ended), met_in(ended))


def in_file(room: Room, way: str, store: Path, history: Requests, **env: str) -> Came:
    """A run over a store in a file, which is opened once more afterwards."""
    along, ended = Along(), room.run(room.words(way, store), history, **env)
    fault = along.fault(history, ended)
    return Came(fault or opened_again(room, way, held(store), history, along), met_in(ended))


def opened_again(room: Room, way: str, left: Files, history: Requests, along: Along) -> str | None:
    """What is wrong with a store of which this was left and that is opened without trouble. One is opened for all that were left alike behind the same answers."""
    way = "stored" if way == IN_TURN else way
    alike = way, history, along.hub.files, frozenset(along.doubtful), digests(left)
    return room.once(alike, lambda: opened_anew(room, way, left, history, along))


def opened_anew(room: Room, way: str, left: Files, history: Requests, along: Along) -> str | None:
    """What is wrong with one store of which this was left and that is opened without trouble; where none was made, one is made in new files. (What `init` makes of those that are
    left: making_stopped.py.)"""
    requests = (*QUESTIONS, *history, *QUESTIONS)
    with tempfile.TemporaryDirectory(dir=room.folder) as made:
        store = Path(made) / "store"
        write(store, left)
        ended = room.run(room.words(way, store), requests)
        if ended.said == b"gaz_bench: BadSchema\n" and not along.hub.files:
            for it in files_of(store):
                it.unlink()
            ended = room.run(room.words(way, store), requests)
    return along.fault_opened(requests, ended)


def statements(room: Room, way: str, store: Path, history: Requests, number: int) -> Came:
    """Statements of more steps than the number are refused, from the making of the store on or from a request on."""
    met: Counter[str] = Counter()
    for place in range(0, len(history), 3):
        at = Path(tempfile.mkdtemp(dir=store.parent)) / "store"
        along = Along()
        before, behind = history[:place], history[place:]
        fault = along.fault(before, room.run(room.words(way, at), before)) if place else None
        ended = room.run([*room.words(way, at), str(number)], behind)
        ended = replace(ended, failed=sum(map(bool, ended.refusals())) or int(ended.status == 3))
        met += met_in(ended)
        fault = fault or along.fault(behind, ended) or opened_again(room, way, held(at), history, along)
        if fault:
            return Came(f"from request {place + 1} on: {fault}", met)
    return Came(None, met)


def files(which: str, room: Room, way: str, store: Path, history: Requests, number: int) -> Came:
    """Calls of these files fail once so many passed, and they are opened again as they were written."""
    return in_file(room, way, store, history, **room.files(store, f"{which} {number}"))


def watched(room: Room, way: str, history: Requests) -> tuple[Watched, str | None]:
    """The run without trouble over a store that it makes, and what is wrong with it or with what it leaves."""
    run, ended = room.watch(way, NONE, history)
    along = Along()
    fault = None if run.is_true else "the calls that were seen don't make what is there"
    return run, fault or along.fault(history, ended) or opened_again(room, way, run.last, history, along)


def stopped(room: Room, way: str, history: Requests, which: str, number: int, blocks: Blocks) -> tuple[Files | None, Along, Came]:
    """What is there where the machine stops once so many calls of these files passed, and so many blocks are there of what wasn't synced; none where there are no more."""
    run, fault = room.once(("watched", way, history), lambda: watched(room, way, history))
    place, along = run.call_behind(number, which), Along()
    if place is None:
        return None, along, Came(fault, Counter())
    ended = Ended(STOPPED, replies_in(run.told_at(place)), b"", 1, way == IN_TURN)
    return run.left_at(place, blocks), along, Came(along.fault(history, ended), met_in(ended))


def stop(room: Room, way: str, store: Path, history: Requests, number: int, which: str = "both", blocks: Blocks = (0, 0)) -> Came:
    """The machine stops once so many calls of the files passed."""
    left, along, came = stopped(room, way, history, which, number, blocks)
    if left is None or came.fault:
        return came
    return Came(opened_again(room, way, left, history, along), came.met)


def cut(which: str, room: Room, way: str, store: Path, history: Requests, number: int) -> Came:
    """The machine stops once so many calls of this file passed, and of what wasn't synced to it its first blocks are there."""
    met: Counter[str] = Counter()
    for blocks in CUTS:
        came = stop(room, way, store, history, number, which, (blocks, 0) if which == "log" else (0, blocks))
        met += came.met
        if came.fault:
            return Came(f"{blocks} blocks: {came.fault}", met)
    return Came(None, met)


def twice(stride: int, room: Room, way: str, store: Path, history: Requests, number: int) -> Came:
    """The machine stops, and once more at each call, by this stride, by which the store is opened again and closed."""
    left, along, came = stopped(room, way, history, "both", number, (0, 0))
    if left is None or came.fault:
        return came
    again, ended = room.once(("watched", way, digests(left)), lambda: room.watch(way, left, ()))
    met, fault = came.met, None if again.is_true and ended.status in (0, 3) else f"opened: exit status {ended.status}"
    for place in range(number % stride, len(again.calls), stride):
        met += Counter(stop=1)
        beside = Along(doubtful=[*along.doubtful])
        beside.hub.files = along.hub.files
        fault = fault or opened_again(room, way, again.left_at(place, (0, 0)), history, beside)
    return Came(fault, met)


def memory(room: Room, way: str, store: Path, history: Requests, number: int) -> Came:
    """A request for memory is refused over a store in a file."""
    return in_file(room, way, store, history, **room.memory(number))


def failing(room: Room, first: int = 0, second: int = 0) -> list[str]:
    """The words of a hub over a keeper in memory of which the calls of these numbers fail."""
    return ["failing", str(room.folder / "register.toml"), str(first), str(second)]


def memory_twice(room: Room, way: str, store: Path, history: Requests, number: int) -> Came:
    """A request for memory is refused and one of the next, over a keeper in memory."""
    return within(room, failing(room), history, **room.memory(number, number + 1 + number % FARTHEST))


def calls(behinds: tuple[int, ...], room: Room, way: str, store: Path, history: Requests, number: int) -> Came:
    """The keeper's call of a number fails, and perhaps one of the next."""
    met: Counter[str] = Counter()
    for behind in behinds:
        second = number + 1 + behind if behind >= 0 else 0
        came = within(room, failing(room, number + 1, second), history, 1 + (behind >= 0))
        met += came.met
        if came.fault:
            return Came(f"and {second}: {came.fault}", met)
    return Came(None, met)


def sent_again(room: Room, way: str, store: Path, history: Requests, number: int) -> Came:
    """The keeper's call of a number fails, as that which keeps the judgement of the file for which the others wait. That file is then
    answered 52; it is sent once more, and is applied, as those are that waited for it."""
    ended = room.run(failing(room, number + 1), (*history[:3], history[2], *map(outcome_of, history[:2])))
    met = met_in(ended)
    if ended.refusals()[2:3] != [52]:
        return Came(None, met)
    said = [body_of(it) for it in ended.replies[3:]]
    are_applied = [it.endswith(b'"outcome":"applied"}\n') for it in said] == [True] * 3
    return Came(None if are_applied else f"52, and then {said!r}", met + Counter(freed=1))


@dataclass(frozen=True)
class Part:
    """What fails, over which keepers, by how much the number of a run rises, and what has to be met."""

    name: str
    run: Callable[[Room, str, Path, Requests, int], Came]
    ways: tuple[str, ...]
    stride: int
    met: tuple[str, ...] = ("51", "52")
    histories: tuple[str, ...] = tuple(HISTORIES)


PARTS = (
    Part("statements", statements, ("stored",), 1, ("51", "no store")),
    Part("log", functools.partial(files, "log"), STORES, 1, ("51", "52", "no store")),
    Part("file", functools.partial(files, "file"), STORES, 1, ("end", "no store")),
    Part("both", functools.partial(files, "both"), STORES, 2, ("51", "52", "no store")),
    Part("stop", stop, STORES, 1, ("stop",)),
    Part("both in turn", functools.partial(files, "both"), (IN_TURN,), 11, ("51", "52", "no store", "end")),
    Part("stop in turn", stop, (IN_TURN,), 11, ("stop",)),
    Part("cut-log", functools.partial(cut, "log"), STORES, 9, ("stop",)),
    Part("cut-file", functools.partial(cut, "file"), STORES, 4, ("stop",)),
    Part("twice", functools.partial(twice, 5), STORES, 29, ("stop",)),
    Part("memory", memory, STORES, 61, ("51", "no store")),
    Part("memory twice", memory_twice, MAPS, 13),
    Part("calls", functools.partial(calls, (-1,)), MAPS, 1),
    Part("sent again", sent_again, MAPS, 1, ("freed",), WAITING),
    Part("calls twice", functools.partial(calls, tuple(range(FARTHEST + 1))), MAPS, 11),
)


def rising(once: Callable[[int], Came], stride: int, workers: ThreadPoolExecutor) -> Iterator[tuple[int, Came]]:
    """Runs of rising numbers, up to some that met nothing, or to a fault."""
    for first in itertools.count(0, CALM * stride):
        numbers = range(first, first + CALM * stride, stride)
        came = list(workers.map(once, numbers))
        yield from zip(numbers, came)
        if any(it.fault for it in came) or not any(it.met for it in came):
            return


def run_part(room: Room, part: Part, workers: ThreadPoolExecutor) -> tuple[str | None, Counter[str]]:
    """What is wrong with the first run that goes wrong, and what all runs met."""
    met: Counter[str] = Counter()
    for way, name in itertools.product(part.ways, part.histories):
        history = HISTORIES[name]

        def once(number: int) -> Came:
            with tempfile.TemporaryDirectory(dir=room.folder) as made:
                return part.run(room, way, Path(made) / "store", history, number)

        for number, came in rising(once, part.stride, workers):
            met += came.met
            met["runs"] += 1
            if came.fault:
                return f"{way}, {name}, number {number}: {came.fault}", met
    lacking = [it for it in part.met if not met[it]]
    return f"it met no {lacking[0]}" if lacking else None, met


def run_all(bench: Path, parts: tuple[Part, ...] = PARTS) -> Iterator[tuple[str, str | None]]:
    """Each part, and what is wrong with it."""
    with tempfile.TemporaryDirectory(prefix="check-troubled-", dir=QUICK) as made, tempfile.TemporaryDirectory() as built:
        folder, libraries = Path(made).resolve(), Path(built)  # (from a folder in memory none may be loaded)
        (folder / "register.toml").write_text(SAMPLE)
        room = Room(bench, folder, library(SOURCE, libraries), library(wanting.SOURCE, libraries))
        with ThreadPoolExecutor(len(os.sched_getaffinity(0))) as workers:
            for part in parts:
                yield part.name, run_part(room, part, workers)[0]
