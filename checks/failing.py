"""The program `gaz_bench` over a store or a keeper that fails, as a process that is given a request at a time."""

import contextlib
import os
import shutil
import socket
import subprocess
import tempfile
from collections.abc import Callable, Hashable, Iterator
from dataclasses import dataclass, field
from pathlib import Path
from typing import BinaryIO, TypeVar

from checks import stores
from checks.allowed import Ended
from checks.conversations import DEADLINE, replies_in
from checks.moments import NONE, Files, Watched, calls_in, held, write
from checks.stores import QUICK

SOURCE = Path(__file__).resolve().parent / "failing.c"

Requests = tuple[bytes, ...]
Told = TypeVar("Told")


@dataclass(frozen=True)
class Room:
    """The program, what is loaded before it, and a folder for runs."""

    bench: Path
    folder: Path
    failing: Path
    wanting: Path
    known: dict[Hashable, object] = field(default_factory=dict, compare=False)

    def once(self, what: Hashable, told: Callable[[], Told]) -> Told:
        """What is told of something, which is asked once for all stores that were left alike."""
        if what not in self.known:
            self.known[what] = told()
        return self.known[what]

    def run(self, words: list[str], requests: Requests, **env: str) -> Ended:
        """Runs the program over a stream, of which it reads a request at a time."""
        in_turn = words[0] == "stored-each"
        with (framed if in_turn else sent)(requests) as given, tempfile.NamedTemporaryFile(dir=self.folder) as counted, tempfile.TemporaryFile(dir=self.folder) as taken:
            env = {"FAILING_TOLD": counted.name, "WANTED": counted.name} | env
            ran = subprocess.run([self.bench, *words], stdin=given, stdout=taken, stderr=subprocess.PIPE, timeout=DEADLINE, env=os.environ | env)
            counts = [int(it) for it in Path(counted.name).read_text().split()]
            taken.seek(0)
            told = taken.read()
        if "WANTING" in env:
            failed = sum(int(it) < counts[0] for it in set(env["WANTING"].split()))
        else:
            failed = counts[1] if counts else 0
        return Ended(ran.returncode, replies_in(told), ran.stderr, failed, in_turn)

    def watch(self, way: str, first: Files, requests: Requests) -> tuple[Watched, Ended]:
        """A run without trouble over a store that begins with these files, watched."""
        store = Path(tempfile.mkdtemp(dir=self.folder)) / "store"
        seen = store.with_name("seen")
        write(store, first)
        ended = self.run(self.words(way, store), requests, **self.seeing(store, seen))
        watched = Watched(first, NONE, calls_in(seen.read_bytes()), b"".join(ended.replies), held(store))
        shutil.rmtree(store.parent)
        return watched, ended

    def words(self, way: str, store: Path) -> list[str]:
        return [way, str(store), str(self.folder / "register.toml")]

    def seeing(self, store: Path, seen: Path) -> dict[str, str]:
        """An environment in which calls of a store's files are written down."""
        return {"LD_PRELOAD": str(self.failing), "FAILING_STORE": str(store), "FAILING_SEEN": str(seen)}

    def files(self, store: Path, calls: str, left: str | None = None) -> dict[str, str]:
        """An environment in which calls of a store's files fail, or stop the machine where something is said of what is left."""
        env = {"LD_PRELOAD": str(self.failing), "FAILING_STORE": str(store), "FAILING_CALLS": calls, "FAILING_RANDOM": "1"}
        return env | ({} if left is None else {"FAILING_SYNCED": str(store.parent), "FAILING_LEFT": left})

    def memory(self, *numbers: int) -> dict[str, str]:
        """An environment in which requests for memory are refused."""
        both = {"LD_PRELOAD": f"{self.wanting} {self.failing}", "FAILING_TOLD": os.devnull, "FAILING_RANDOM": "1"}
        return both | {"WANTING": " ".join(map(str, numbers))}


@contextlib.contextmanager
def sent(requests: Requests) -> Iterator[socket.socket]:
    """A socket from which each read takes one request: so the replies before it are told before it is taken in hand."""
    ours, theirs = socket.socketpair(socket.AF_UNIX, socket.SOCK_SEQPACKET)
    with ours, theirs:
        for it in requests:
            ours.send(it)
        ours.shutdown(socket.SHUT_WR)
        yield theirs


@contextlib.contextmanager
def framed(requests: Requests) -> Iterator[BinaryIO]:
    """The requests in a file, each as a piece of its own, for which the program opens the store anew."""
    with tempfile.TemporaryFile(dir=QUICK) as file:
        file.write(stores.framed(list(requests)))
        file.seek(0)
        yield file


def files_of(store: Path) -> list[Path]:
    """The database file and its log, as far as they are there."""
    return [it for it in (store, store.with_name(f"{store.name}-wal")) if it.exists()]
