"""The hubs that are measured beside each other: `gazhub play`, `gazhub serve` over a store in a file, the keeper in memory, and hubs in Python.

Each takes what is loaded before the clock runs. Then all are asked the same in turn, and have to reply the same.
"""
import contextlib
import os
import re
import shutil
import socket
import subprocess
import sys
import tempfile
import time
from itertools import islice

from measure import ROUNDS, SAMPLE, TOP, Talk, exchanged, in_file, medians, memory_of, one_by_one, program, seconds
from statements import FILES, by_library, received, tables

EACH = 1_000  # requests of a connection
MANY = 1_000_000  # connections of a hub that is stopped before all have come
FEWEST, MOST, PAGE = 2_000, 64_000, 4_096  # the pages that a hub keeps at hand, and the bytes of one
IN_MEMORY = "the same, the keeper in memory"
HEAD = re.compile(rb"HTTP/1\.1 [^\r\n]+(?:\r\n[^\r\n]+)*?\r\nContent-Length: (\d+)(?:\r\n[^\r\n]+)*\r\n\r\n")


# ---- words of programs


def played():
    """The words of the program as users get it, over a store in memory."""
    return [program("gazhub"), "play"]


def plain():
    """The words of a plain hub in Python, which writes each reply at once."""
    return [sys.executable, "-u", f"{TOP}/bench/hub.py"]


def over_sqlite(store=":memory:"):
    """The words of such a hub over `sqlite3`, in memory or in a file."""
    return [sys.executable, "-u", f"{TOP}/bench/hub_sqlite.py", store]


def http_server(store=None):
    """The words of Python's `http.server` before the plain hub, or before that over `sqlite3` in a file."""
    return [sys.executable, f"{TOP}/bench/server.py", *([store] if store else [])]


# ---- what is asked


def replies_in(stream):
    """The replies of a stream, one by one."""
    at = 0
    while at < len(stream):
        head = HEAD.match(stream, at)
        end = head.end() + int(head[1])
        yield stream[at:end]
        at = end


def closing(reply):
    """A reply behind which the conversation ends."""
    head, body = reply.split(b"\r\n\r\n", 1)
    return head + b"\r\nConnection: close\r\n\r\n" + body


class Asked:
    """Requests, and the replies that have to come."""

    def __init__(self, requests, replies):
        self.requests, self.replies = requests, replies
        self.whole = b"".join(requests), b"".join(replies)

    def connections(self):
        """These requests and replies over connections in turn, each of which ends behind so many."""
        for first in range(0, len(self.requests), EACH):
            requests, replies = self.requests[first : first + EACH], self.replies[first : first + EACH]
            if len(requests) == EACH:
                replies[-1] = closing(replies[-1])
            yield Asked(requests, replies)

    def count(self, words):
        return self.whole[1].count(words)


# ---- hubs


class Opened(Talk):
    """A conversation with a hub over a store that has what is loaded."""

    def begin(self, _load):
        pass


class Served:
    """A program that says where it listens, asked over connections of at most 1,000 requests, one after the other. What is loaded it has."""

    def __init__(self, words):
        self.words = words

    def __enter__(self):
        self.child = subprocess.Popen(self.words, stdout=subprocess.PIPE)
        self.port = int(self.child.stdout.readline().rsplit(b":", 1)[1])
        return self

    def __exit__(self, *_fault):
        """It is stopped, whatever connections it still waits for."""
        self.child.kill()
        self.child.wait()
        self.child.stdout.close()

    @contextlib.contextmanager
    def connected(self):
        """The socket of a connection."""
        with socket.create_connection(("127.0.0.1", self.port)) as peer:
            peer.setsockopt(socket.IPPROTO_TCP, socket.TCP_NODELAY, 1)
            yield peer.fileno()

    def begin(self, _load):
        """The first connection waits until the store is at hand."""
        with socket.create_connection(("127.0.0.1", self.port)) as peer:
            peer.shutdown(socket.SHUT_WR)
            assert peer.recv(1) == b""

    def ask(self, requests, replies):
        """Sends these requests over a connection and awaits their replies, which are to be these bytes: how long it took."""
        start = time.perf_counter()
        with self.connected() as peer:
            begun = time.perf_counter()
            spent, told = exchanged(peer, peer, requests, len(replies))
        assert told == replies, "the hub replies otherwise"
        return begun - start + spent

    def ask_one_by_one(self, asked):
        start = time.perf_counter()
        with self.connected() as peer:
            begun = time.perf_counter()
            return begun - start + one_by_one(peer, peer, asked.requests, asked.replies)

    def spent(self, asked):
        return sum(self.ask(*piece.whole) for piece in asked.connections())

    def spent_one_by_one(self, asked):
        return sum(map(self.ask_one_by_one, asked.connections()))

    def memory(self, word):
        return memory_of(self.child.pid, word)


class Taking(Served):
    """A program that says where it listens and has nothing yet: what is loaded it takes first."""

    def begin(self, load):
        self.spent(load)


class Place:
    """A folder of its own within another, with a register, and hubs of that register over stores in files there."""

    def __init__(self, folder, text=SAMPLE):
        self.folder, self.stores = tempfile.mkdtemp(dir=folder), 0
        self.register = in_file(self.folder, "register.toml", text.encode())

    def in_memory(self):
        """The words of a hub over the keeper in memory."""
        return [program("gaz_bench"), "play", self.register]

    def words(self, command, store, *more):
        """The words of a command of the program over a store."""
        return [program("gazhub"), command, "--store", store, "--register", self.register, *map(str, more)]

    def fresh(self, store=None):
        """A file that no run has seen: a copy of a store, or nothing yet."""
        self.stores += 1
        path = os.path.join(self.folder, f"fresh{self.stores}")
        if store:
            shutil.copyfile(store, path)
            with open(path, "rb") as copy:
                os.fsync(copy.fileno())  # so that no commit waits for it
        return path

    def new(self):
        """A store that has nothing."""
        store = self.fresh()
        subprocess.run(self.words("init", store), check=True, stdout=subprocess.DEVNULL)
        return store

    def served(self, store, connections=MANY):
        return Served(self.words("serve", store, "--port", 0, "--connections", connections))

    def loaded(self, load):
        """A store that took what is loaded, and was closed."""
        store, connections = self.new(), list(load.connections())
        with self.served(store, len(connections)) as hub:
            for connection in connections:
                hub.ask(*connection.whole)
            assert hub.child.wait() == 0
        return store

    def asked(self, *batches):
        """These batches of requests, with what the keeper in memory replies to them one behind the other."""
        requests = b"".join(request for batch in batches for request in batch)
        _, stream = seconds(self.in_memory(), in_file(self.folder, "batches", requests))
        replies = replies_in(stream)
        return [Asked(list(batch), list(islice(replies, len(batch)))) for batch in batches]


# ---- measuring


@contextlib.contextmanager
def begun(hubs, load):
    """These hubs, each of which has what is loaded."""
    with contextlib.ExitStack() as stack:
        for hub in hubs:
            stack.enter_context(hub)
            hub.begin(load)
        yield hubs


def in_turn(hubs, batches):
    """The median times of hubs, each of which takes every batch, one hub after the other."""
    return medians([[hub.spent(batch) for hub in hubs] for batch in batches])


def behind(hubs, load, batches):
    """The median times of hubs, each of which takes what is loaded and then every batch, one hub after the other."""
    with begun(hubs, load):
        return in_turn(hubs, batches)


def anew(makers, load, asked):
    """The median times of hubs that are made anew in each round, and take the same each time."""
    return medians([[behind([make()], load, [asked])[0] for make in makers] for _ in range(ROUNDS)])


def commit_alone(place, size=100):
    """Seconds of the receiving of a file of so many bytes by the statement alone, with its commit."""
    _, nanoseconds = by_library(place.fresh(), (tables(), ("receive", received(size))), FEWEST)["receive"]
    return nanoseconds / FILES / 1e9


def pages_for(store):
    """How many pages a hub keeps at hand of the store in a file."""
    pages = os.path.getsize(store) // PAGE
    return min(max(pages + pages // 2, FEWEST), MOST)


def with_memory(title, ours, memory, cells):
    """A row of what the program takes, and beside it one of what the same takes over the keeper in memory."""
    yield title, *cells(ours)
    yield IN_MEMORY, *cells(memory)
