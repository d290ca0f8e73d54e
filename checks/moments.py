"""A run that is watched: what a store's files hold before each of its calls, and how much was told by then. So what a stop at any of them leaves is known without
another run."""

from dataclasses import dataclass
from functools import cached_property
from hashlib import sha256
from pathlib import Path

BLOCK = 512
ENDINGS = ("-wal", "")  # of the log and of the database file
NAMES = ("log", "file")

Files = tuple[bytes | None, bytes | None]  # what the log and the database file hold, as far as they are there
Blocks = tuple[int, int]  # how many of each

NONE: Files = (None, None)


@dataclass(frozen=True)
class Call:
    """A call of one of the two files (failing.c), how much was told before it, and which of them were there."""

    what: str
    which: int
    told: int
    at: int
    there: int
    data: bytes


def calls_in(seen: bytes) -> list[Call]:
    """The calls that were written down."""
    calls, at = [], 0
    while at < len(seen):
        end = seen.index(b"\n", at) + 1
        what, which, told, place, size, there = seen[at:end].split()
        at = end + int(size) if what == b"w" else end
        calls.append(Call(what.decode(), int(which), int(told), int(place), int(there), seen[end:at]))
    return calls


def held(store: Path) -> Files:
    """What a store's files hold."""
    files = [store.with_name(store.name + it) for it in ENDINGS]
    return tuple(it.read_bytes() if it.exists() else None for it in files)


def digests(files: Files) -> tuple[bytes | None, ...]:
    """What the files hold, in short."""
    return tuple(None if it is None else sha256(it).digest() for it in files)


def write(store: Path, files: Files) -> None:
    """Makes these files of a store."""
    for ending, data in zip(ENDINGS, files):
        if data is not None:
            store.with_name(store.name + ending).write_bytes(data)


class Replayed:
    """The files while calls are made again: as they are written, and as each was synced last, if it was."""

    def __init__(self, first: Files, synced: Files) -> None:
        self.written, self.synced = [bytearray(it or b"") for it in first], [*synced]

    def make(self, call: Call) -> None:
        data = self.written[call.which]
        if call.what in "wc":
            data += bytes(max(call.at - len(data), 0))
        if call.what == "w":
            data[call.at : call.at + len(call.data)] = call.data
        elif call.what == "c":
            del data[call.at :]
        elif call.what == "s":
            self.synced[call.which] = bytes(data)

    def left(self, there: int, blocks: Blocks | None) -> Files:
        """What a stop leaves: all that was written, or where blocks are named what was synced, and of what was written since so many blocks."""
        new = [bytes(data) if there >> which & 1 else None for which, data in enumerate(self.written)]
        return tuple(new if blocks is None else map(put_back, self.synced, new, blocks))


def first_change(old: bytes, new: bytes) -> int:
    """The place of the first block in which two files differ, or that isn't whole."""
    at = 0
    while len(old) - at >= BLOCK and old[at : at + BLOCK] == new[at : at + BLOCK]:
        at += BLOCK
    return at


def put_back(old: bytes | None, new: bytes | None, blocks: int) -> bytes | None:
    """A file as it was synced, but for so many blocks; as it is, where it was never synced."""
    if old is None or new is None:
        return new
    end = min(first_change(old, new) + blocks * BLOCK, len(new))
    return new[:end] + old[end:]


@dataclass(frozen=True)
class Watched:
    """What a run began with and had synced of that, its calls, what it told, and what it left."""

    first: Files
    synced: Files
    calls: list[Call]
    told: bytes
    last: Files

    @cached_property
    def is_true(self) -> bool:
        """Whether the calls make of the first files the last."""
        replayed = Replayed(self.first, self.synced)
        for it in self.calls:
            replayed.make(it)
        return all(data is None or data == made for data, made in zip(self.last, replayed.written))

    def call_behind(self, number: int, which: str = "both") -> int | None:
        """The place of the call before which so many of these files passed, if there is one."""
        places = [at for at, it in enumerate(self.calls) if which in ("both", NAMES[it.which])]
        return places[number] if number < len(places) else None

    def left_at(self, place: int, blocks: Blocks | None) -> Files:
        """What a stop before a call leaves."""
        replayed = Replayed(self.first, self.synced)
        for it in self.calls[:place]:
            replayed.make(it)
        return replayed.left(self.calls[place].there, blocks)

    def told_at(self, place: int) -> bytes:
        return self.told[: self.calls[place].told]
