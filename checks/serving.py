"""`gazhub serve` and its clients: Python's, `curl`, such as break off, such as send nothing more or take nothing."""

import contextlib
import http.client
import os
import re
import shutil
import socket
import subprocess
import tempfile
import time
from collections.abc import Callable, Iterator
from concurrent.futures import ThreadPoolExecutor
from dataclasses import dataclass
from pathlib import Path

from checks.conversations import DEADLINE, replies_in
from checks.large import MOST_CHANGES, chain
from checks.stores import SAMPLE, get, post

STREET = b"10,1,1001,1,2024-01-02\n11,I,1,101,1,2001-04-01,\n99,1\n"
APPLIED = b'{"outcome":"applied"}\n'
NOT_THERE = b'{"refusal":17}\n'
LARGE = b"a" * 1_048_577
MOST_REQUESTS = 1_000  # of a connection
PATIENCE = 28.0  # seconds for which a peer is waited for that sends nothing
TAKING = 9.0  # seconds for which one write waits for a peer that takes nothing
SOON = 40.0  # seconds after which the next one is answered: 30, and what a busy machine adds
FEW_BYTES = 4_096  # that a peer takes, once the system's buffers are full


@dataclass
class Served:
    """A process that answers connections over a new store, and where."""

    child: subprocess.Popen
    port: int
    store: Path

    def ended(self) -> str | None:
        """What is wrong with how it ends, once all its connections were."""
        try:
            status = self.child.wait(DEADLINE)
        except subprocess.TimeoutExpired:
            return "it goes on behind the last connection"
        said = self.child.stderr.read()
        return f"exit status {status}, {said!r}" if status or said else None

    def client(self) -> http.client.HTTPConnection:
        return http.client.HTTPConnection("127.0.0.1", self.port, timeout=DEADLINE)


@dataclass(frozen=True)
class Room:
    """The program, and a folder with a register."""

    program: Path
    folder: Path

    def words(self, command: str, store: Path, *more: str) -> list[str]:
        return [str(self.program), command, "--store", str(store), "--register", str(self.folder / "r.toml"), *more]

    def store(self) -> Path:
        """A new store."""
        store = Path(tempfile.mkdtemp(dir=self.folder)) / "s.db"
        subprocess.run(self.words("init", store), check=True, stdout=subprocess.DEVNULL)
        return store

    @contextlib.contextmanager
    def serves(self, connections: int, store: Path | None = None, **env: str) -> Iterator[Served]:
        """Serves so many connections, on a port that the system chooses, in an environment with these besides."""
        store = store or self.store()
        words = self.words("serve", store, "--port", "0", "--connections", str(connections))
        child = subprocess.Popen(words, stdout=subprocess.PIPE, stderr=subprocess.PIPE, env=os.environ | env)
        try:
            line = child.stdout.readline().decode()
            found = re.fullmatch(r"listening 127\.0\.0\.1:(\d+)\n", line)
            assert found, f"it says {line!r}, {last_words(child)!r}"
            yield Served(child, int(found[1]), store)
        finally:
            child.kill()
            child.wait()
            child.stdout.close()
            child.stderr.close()


def last_words(child: subprocess.Popen) -> bytes:
    """What a program that ends says on standard error; nothing of one that goes on."""
    try:
        child.wait(10)
    except subprocess.TimeoutExpired:
        return b""
    return child.stderr.read()


def replied(client: http.client.HTTPConnection, method: str, target: str, body: bytes | None = None) -> tuple[int, bytes]:
    client.request(method, target, body)
    reply = client.getresponse()
    return reply.status, reply.read()


def python_keeps_its_connection(room: Room) -> str | None:
    """Python's client, several requests on one connection, and another connection behind it."""
    with room.serves(2) as served:
        first, second = served.client(), served.client()
        told = [replied(first, "POST", "/custodians/1001/volumes/1", STREET), replied(first, "GET", "/uprn/42")]
        first.close()
        told.append(replied(second, "POST", "/custodians/1001/volumes/1", STREET))
        second.close()
        wanted = [(201, APPLIED), (404, NOT_THERE), (200, APPLIED)]
        return served.ended() if told == wanted else f"it replies {told}"


def a_connection_ends_behind_a_thousand_requests(room: Room) -> str | None:
    ask = b"GET /uprn/1 HTTP/1.1\r\nHost: hub\r\n\r\n"
    with room.serves(1) as served, socket.create_connection(("127.0.0.1", served.port), DEADLINE) as ours:
        ours.sendall(ask * (MOST_REQUESTS + 1))
        told = b"".join(iter(lambda: ours.recv(1 << 16), b""))
        ours.close()
        replies = replies_in(told)
        if len(replies) != MOST_REQUESTS:
            return f"{len(replies)} replies"
        lasts = [b"\r\nConnection: close\r\n" in it for it in replies]
        return served.ended() if lasts == [False] * (MOST_REQUESTS - 1) + [True] else "another reply than the last one ends the connection"


def a_large_file_is_refused_and_told(room: Room) -> str | None:
    """A client that goes on sending behind a refusal gets it: the connection isn't reset under it."""
    with room.serves(1) as served, socket.create_connection(("127.0.0.1", served.port), DEADLINE) as peer:
        peer.sendall(b"POST /custodians/1001/volumes/1 HTTP/1.1\r\nContent-Length: 1048577\r\n\r\n" + LARGE)
        peer.shutdown(socket.SHUT_WR)
        told = b"".join(iter(lambda: peer.recv(1 << 16), b""))
        fault = None if told.startswith(b"HTTP/1.1 413 ") and told.endswith(b'{"refusal":13}\n') else f"it replies {told!r}"
        return fault or served.ended()


def who_breaks_off_harms_nobody(room: Room) -> str | None:
    """A connection that is reset, one that breaks off within a request, one that ends at once; and then one that asks."""
    with room.serves(4) as served:
        where = ("127.0.0.1", served.port)
        with socket.create_connection(where, DEADLINE) as reset:
            reset.setsockopt(socket.SOL_SOCKET, socket.SO_LINGER, b"\1\0\0\0\0\0\0\0")
            reset.sendall(b"GET /cl")
        with socket.create_connection(where, DEADLINE) as cut:
            cut.sendall(b"POST /custodians/1001/volumes/1 HTTP/1.1\r\nContent-Length: 53\r\n\r\n10,1,")
        with socket.create_connection(where, DEADLINE):
            pass
        client = served.client()
        told = replied(client, "GET", "/custodians/1001/volumes/1")
        client.close()
        return served.ended() if told == (404, NOT_THERE) else f"it replies {told}"


def next_answered(room: Room, store: Path, said: bytes, waits: float) -> str | None:
    """What is wrong with when the next peer is answered, behind one that says this, and then says nothing and takes nothing, and is waited for so long at least."""
    with room.serves(2, store) as served, socket.socket() as silent:
        silent.setsockopt(socket.SOL_SOCKET, socket.SO_RCVBUF, FEW_BYTES)
        silent.connect(("127.0.0.1", served.port))
        silent.sendall(said)
        begun, client = time.monotonic(), served.client()
        told = replied(client, "GET", "/custodians/1002/volumes/1")
        took = time.monotonic() - begun
        client.close()
        if told != (404, NOT_THERE):
            return f"it replies {told}"
        return served.ended() if waits - 1 < took < SOON else f"the next is answered after {took:.1f} s"


def who_is_silent_is_given_up(room: Room) -> str | None:
    """Peers that say nothing, or a front of a request, or ask for more than they take, each of a process of its own."""
    stores, file = [room.store() for _ in range(3)], room.folder / "chain.csv"
    file.write_bytes(chain(1, MOST_CHANGES))
    subprocess.run(room.words("submit", stores[2], "1001", "1", str(file)), check=True, stdout=subprocess.DEVNULL)
    cut = b"POST /custodians/1001/volumes/2 HTTP/1.1\r\nContent-Length: 53\r\n\r\n10,1,"
    peers = (b"", PATIENCE), (cut, PATIENCE), (get("/extract/1001/1") * 200, TAKING)
    with ThreadPoolExecutor(len(peers)) as workers:
        faults = list(workers.map(lambda store, peer: next_answered(room, store, *peer), stores, peers))
    return next((f"peer {number}: {fault}" for number, fault in enumerate(faults, 1) if fault), None)


def standing(room: Room, served: Served) -> bytes:
    """What a process behind it says of the county."""
    return subprocess.run(room.words("status", served.store, "1001"), capture_output=True, timeout=DEADLINE).stdout


def who_breaks_off_loses_nothing_received(room: Room) -> str | None:
    """A connection breaks off within the request behind a file, the next behind another file whose reply it doesn't wait for."""
    posts = [post(1001, volume, b"10,1,1001,%d,2024-01-02\n99,0\n" % volume) for volume in (1, 2, 3)]
    with room.serves(2) as served:
        with socket.create_connection(("127.0.0.1", served.port), DEADLINE) as cut:
            cut.sendall(posts[0] + posts[2][:-9])
        with socket.create_connection(("127.0.0.1", served.port), DEADLINE) as unheard:
            unheard.sendall(posts[1])
        fault, told = served.ended(), standing(room, served)
    return fault or (None if told == b"custodian 1001 judged 2 held 0 wants 1001/3\n" else f"it says {told!r}")


def only_loopback_is_bound(room: Room) -> str | None:
    """Nobody is answered at another address of the machine."""
    with room.serves(1) as served:
        with socket.socket() as peer:
            peer.settimeout(1)
            try:
                peer.connect(("127.0.0.2", served.port))
            except OSError:
                return None
        return "127.0.0.2 is answered too"


def a_taken_port_is_no_port(room: Room) -> str | None:
    with socket.socket() as holder:
        holder.bind(("127.0.0.1", 0))
        holder.listen()
        words = room.words("serve", room.store(), "--port", str(holder.getsockname()[1]), "--connections", "1")
        ran = subprocess.run(words, capture_output=True, timeout=DEADLINE)
    ended = (ran.returncode, ran.stdout, ran.stderr)
    return None if ended == (3, b"", b"gazhub: NoPort\n") else f"it ends with {ended}"


def curl_is_answered(room: Room) -> str | None:
    """`curl`, where it is: a file, two requests on one connection, a head alone, a body for which it asks first."""
    if not shutil.which("curl"):
        return None
    with room.serves(3) as served:
        top = f"http://127.0.0.1:{served.port}"
        volume = f"{top}/custodians/1001/volumes/1"
        (room.folder / "street.csv").write_bytes(STREET)
        large = room.folder / "large.csv"
        large.write_bytes(b"a" * 1_048_576)
        calls = (
            (["--data-binary", f"@{room.folder}/street.csv", volume, "--next", "-s", f"{top}/closed"], APPLIED + b'{"closed":[]}\n'),
            (["-I", f"{top}/closed"], b"HTTP/1.1 405 Method Not Allowed\r\n"),
            (["-H", "Expect: 100-continue", "--data-binary", f"@{large}", f"{top}/custodians/1002/volumes/1"], b'{"outcome":"rejected",'),
        )
        for words, begins in calls:
            ran = subprocess.run(["curl", "-s", "-m", str(DEADLINE), *words], capture_output=True, timeout=DEADLINE)
            if ran.returncode or not ran.stdout.startswith(begins):
                return f"curl {words}: status {ran.returncode}, {ran.stdout[:200]!r}"
        return served.ended()


CASES: tuple[Callable[[Room], str | None], ...] = (
    python_keeps_its_connection,
    a_connection_ends_behind_a_thousand_requests,
    a_large_file_is_refused_and_told,
    who_breaks_off_harms_nobody,
    who_breaks_off_loses_nothing_received,
    only_loopback_is_bound,
    a_taken_port_is_no_port,
    curl_is_answered,
)

WAITING = (who_is_silent_is_given_up,)  # half a minute


def run_all(program: Path, cases: tuple[Callable[[Room], str | None], ...] = CASES) -> list[tuple[str, str | None]]:
    """Each case, and what is wrong with it."""
    with tempfile.TemporaryDirectory(prefix="check-serving-") as made:
        room = Room(program, Path(made))
        (room.folder / "r.toml").write_text(SAMPLE)
        return [(case.__name__.replace("_", " "), fault_in(case, room)) for case in cases]


def fault_in(case: Callable[[Room], str | None], room: Room) -> str | None:
    try:
        return case(room)
    except (OSError, AssertionError, http.client.HTTPException, subprocess.SubprocessError) as why:
        return f"{type(why).__name__}: {why}"
