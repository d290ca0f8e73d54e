"""A hub over a store in a file, from outside: the program that answers over it, requests and replies."""

import contextlib
import os
import subprocess
import tempfile
from collections.abc import Iterator
from dataclasses import dataclass
from pathlib import Path

from checks.conversations import DEADLINE
from checks.sample import SAMPLE, TEXT  # noqa: F401

LEAST = 1_000_000_000  # bytes that stores may take


def is_quick(folder: str) -> bool:
    """Whether a folder in memory is there, with room for stores."""
    if not os.access(folder, os.W_OK):
        return False
    found = os.statvfs(folder)
    return found.f_bavail * found.f_frsize > LEAST


# A folder in memory, so that no disk is waited for: what a sync leaves is for a library to say (failing.c). From there no library can be loaded.
QUICK = next(filter(is_quick, ("/dev/shm",)), None)

BLOCKS = 8  # of each custodian, of either kind


def blocks_of(place: int, size: int) -> str:
    """The blocks of the custodian at this place, each of so many numbers, and no number in two of them."""
    firsts = [1 + (place * BLOCKS + k) * size for k in range(BLOCKS)]
    return "[" + ", ".join(f"[{first}, {first + size - 1}]" for first in firsts) + "]"


def register_of(count: int) -> str:
    """A register of so many custodians, each with 8 blocks of UPRNs and 8 of USRNs, those at odd places before the others."""
    return "\n".join(
        f'[[custodian]]\ncode = {place + 1}\nname = "Custodian {place + 1}"\n'
        f"uprn = {blocks_of(place, 300_000_000)}\nusrn = {blocks_of(place, 30_000)}\n"
        for place in (*range(1, count, 2), *range(0, count, 2))
    )


@dataclass(frozen=True)
class Answered:
    """How a run of the program ended."""

    status: int
    replies: bytes
    said: str  # on standard error

    def fault(self) -> str | None:
        """What is wrong with its end."""
        return f"exit status {self.status}, {self.said.strip() or 'nothing said'}" if self.status or self.said else None


@dataclass(frozen=True)
class Hubs:
    """Hubs of the sample register: over stores in files, and over the keeper in memory."""

    bench: Path  # the program gaz_bench
    register: Path

    def over(self, store: Path, requests: bytes) -> Answered:
        """The answers to a stream over the store in a file, which is made where there is none and closed at the end."""
        return _run([self.bench, "stored", store, self.register], requests)

    def over_each(self, store: Path, pieces: list[bytes]) -> Answered:
        """The answers to a stream over the store in a file, which is closed and opened between these pieces, within one process."""
        return _run([self.bench, "stored-each", store, self.register], framed(pieces))

    def at_hand(self, store: Path, requests: bytes) -> Answered:
        """The answers to a stream over the store in a file, read from memory where the store can be brought to hand."""
        return _run([self.bench, "at-hand", store, self.register], requests)

    def calls(self, word: str, store: Path) -> Answered:
        """What is said where the calls are made that each keeper answers alike, over a new store in a file."""
        return _run([self.bench, word, store, self.register], b"")

    def without_store(self, requests: bytes) -> Answered:
        """The answers over the keeper in memory."""
        return _run([self.bench, "play", self.register], requests)

    def counted(self, requests: bytes) -> Answered:
        """The answers over the keeper in memory, and how often that was asked is said."""
        return _run([self.bench, "counted", self.register], requests)


def _run(words: list[str | Path], given: bytes) -> Answered:
    try:
        ran = subprocess.run(words, input=given, capture_output=True, timeout=DEADLINE)
    except subprocess.TimeoutExpired:
        return Answered(-1, b"", f"didn't end within {DEADLINE:g} s")
    return Answered(ran.returncode, ran.stdout, ran.stderr.decode("utf-8", "replace"))


def framed(pieces: list[bytes]) -> bytes:
    """The pieces, each behind a line with its length."""
    return b"".join(b"%d\n%s" % (len(piece), piece) for piece in pieces)


@contextlib.contextmanager
def hubs_of(root: Path) -> Iterator[tuple[Hubs, Path]]:
    """Hubs by the programs that are built under `root`, and a folder for stores."""
    with tempfile.TemporaryDirectory(prefix="check-stores-", dir=QUICK) as made:
        register = Path(made) / "register.toml"
        register.write_text(SAMPLE)
        yield Hubs(built(root, "gaz_bench"), register), Path(made)


def built(root: Path, name: str) -> Path:
    """Where a program of the repository is, once it is built."""
    return root / "crates" / name / "out" / name


def get(target: str) -> bytes:
    return f"GET {target} HTTP/1.1\r\nHost: hub\r\n\r\n".encode()


def post(code: int, volume: int, body: bytes) -> bytes:
    head = f"POST /custodians/{code}/volumes/{volume} HTTP/1.1\r\nHost: hub\r\nContent-Length: {len(body)}\r\n\r\n"
    return head.encode() + body
