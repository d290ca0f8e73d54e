"""How a program of this repository is run and measured. They are those that `rt run` leaves in crates/*/out, built where missing."""
import fcntl
import os
import select
import statistics
import subprocess
import sys
import tempfile
import time

TOP = os.path.dirname(os.path.dirname(os.path.abspath(__file__)))
sys.path.insert(0, TOP)
from checks.stores import BLOCKS, SAMPLE, register_of  # noqa: E402, F401

ROUNDS = int(os.environ.get("ROUNDS", "7"))  # of which a median is taken; ROUNDS=1 before a part tries it


def program(name):
    path = f"{TOP}/crates/{name}/out/{name}"
    if not os.path.exists(path):
        subprocess.run(["rt", "run"], cwd=f"{TOP}/crates/{name}", check=True, stdout=subprocess.DEVNULL, stderr=subprocess.DEVNULL)
    return path


def output_of(name, *words):
    """What a program prints."""
    return subprocess.run([program(name), *map(str, words)], check=True, capture_output=True).stdout


def in_file(folder, name, data):
    path = os.path.join(folder, name)
    with open(path, "wb") as f:
        f.write(data)
    return path


def seconds(command, stdin_path, environment=None):
    """The time of a command over a file as its input, and its output. It finds these words in its environment too."""
    with open(stdin_path, "rb") as given, tempfile.TemporaryFile() as taken:
        start = time.perf_counter()
        subprocess.run(command, stdin=given, stdout=taken, check=True, env=os.environ | (environment or {}))
        spent = time.perf_counter() - start
        taken.seek(0)
        return spent, taken.read()


def seconds_behind(command, stdin_path, before, output):
    """The time of a command over a file as its input, once it has written so many bytes, until it has written all of this output. No pipe is in its way."""
    with open(stdin_path, "rb") as given, tempfile.TemporaryFile() as taken:
        child = subprocess.Popen(command, stdin=given, stdout=taken)
        begun, ended = (moment_of(child, taken, size) for size in (before, len(output)))
        assert child.wait() == 0
        taken.seek(0)
        assert taken.read() == output, "the hub replies otherwise"
    return ended - begun


def moment_of(child, taken, size):
    """When a child has written so many bytes to a file."""
    is_over = False
    while os.fstat(taken.fileno()).st_size < size:
        assert not is_over, "the hub ended"
        is_over = child.poll() is not None
        time.sleep(0.0001)
    return time.perf_counter()


def rows_of(parts, names, measured):
    """The rows of the parts that are named, as `files` names `files_rows`; of all where none is."""
    for part in parts:
        if not names or part.__name__.removesuffix("_rows") in names:
            yield from part(measured)


def print_rows(rows, *wanted):
    """Prints rows that are measured in a folder, each as soon as it is there."""
    with tempfile.TemporaryDirectory() as made:
        for row in rows(made, *wanted):
            print("  ".join(row), flush=True)


def medians(rounds):
    """The median of each column of rounds."""
    return [statistics.median(column) for column in zip(*rounds, strict=True)]


def run_in_turn(commands, stdin_path):
    """The median times of commands over a file as their input, each of which runs once a round; all have to print the same, which is told too."""
    rounds, told = [], set()
    for _ in range(ROUNDS):
        ran = [seconds(command, stdin_path) for command in commands]
        rounds.append([spent for spent, _ in ran])
        told.update(output for _, output in ran)
    assert len(told) == 1, "the programs print different things"
    return medians(rounds), told.pop()


def least_seconds(action, rounds):
    """The least time of an action, and what it answered last."""
    best, answer = None, None
    for _ in range(rounds):
        start = time.perf_counter()
        answer = action()
        spent = time.perf_counter() - start
        best = spent if best is None else min(best, spent)
    return best, answer


MIB = 1 << 20
PIPE = 4096  # bytes that a pipe of one page holds


def memory_of(pid, word):
    """The memory of a process in bytes: VmRSS what it has now, VmHWM the most that it had."""
    with open(f"/proc/{pid}/status") as status:
        return next(int(line.split()[1]) for line in status if line.startswith(word)) * 1024


def is_waiting(pid):
    """Whether a process waits, and goes on waiting."""
    states = []
    for _ in range(5):
        with open(f"/proc/{pid}/stat") as stat:
            states.append(stat.read().rsplit(")", 1)[1].split()[0])
        time.sleep(0.01)
    assert "Z" not in states, "it ended, and wrote nothing"
    return set(states) == {"S"}


def blocked_peak(command, stdin_path):
    """The most memory of a command over a file as its input, up to its first write, which waits for us; and its output."""
    reader, writer = os.pipe()
    fcntl.fcntl(writer, fcntl.F_SETPIPE_SZ, PIPE)
    os.write(writer, bytes(PIPE))
    with open(stdin_path, "rb") as given, open(reader, "rb") as taken:
        child = subprocess.Popen(command, stdin=given, stdout=writer)
        os.close(writer)
        while not is_waiting(child.pid):
            pass
        peak = memory_of(child.pid, "VmHWM")
        output = taken.read()[PIPE:]
    assert child.wait() == 0
    return peak, output


def piece_of(taken, most):
    """Some of the bytes that come, at most so many."""
    piece = os.read(taken, min(most, MIB))
    assert piece, "the hub ended"
    return piece


def exchanged(given, taken, requests, size):
    """Writes requests to one file and takes so many bytes of another, neither behind the other: how long it took, and the bytes."""
    left, pieces = memoryview(requests), []
    for file in (given, taken):
        os.set_blocking(file, False)
    start = time.perf_counter()
    while size:
        ready, free, _ = select.select([taken], [given] if left else [], [])
        if free:
            left = left[os.write(given, left[:MIB]) :]
        if ready:
            pieces.append(piece_of(taken, size))
            size -= len(pieces[-1])
    spent = time.perf_counter() - start
    for file in (given, taken):
        os.set_blocking(file, True)
    return spent, b"".join(pieces)


def one_by_one(given, taken, requests, replies):
    """Writes each request once the reply to the one before is there: how long it took."""
    start = time.perf_counter()
    for request, reply in zip(requests, replies, strict=True):
        left, told = memoryview(request), b""
        while left:
            left = left[os.write(given, left) :]
        while len(told) < len(reply):
            told += piece_of(taken, len(reply) - len(told))
        assert told == reply, "the hub replies otherwise"
    return time.perf_counter() - start


class Talk:
    """A conversation with a hub over its standard input and output, some requests at a time. So what comes before them isn't in their time."""

    def __init__(self, command, environment=None):
        self.command, self.environment = command, os.environ | (environment or {})

    def __enter__(self):
        self.child = subprocess.Popen(self.command, stdin=subprocess.PIPE, stdout=subprocess.PIPE, bufsize=0, env=self.environment)
        self.files = self.child.stdin.fileno(), self.child.stdout.fileno()
        for file in self.files:
            fcntl.fcntl(file, fcntl.F_SETPIPE_SZ, MIB)
        return self

    def __exit__(self, *_fault):
        self.child.stdin.close()
        self.child.stdout.read()
        self.child.stdout.close()
        assert self.child.wait() == 0

    def ask(self, requests, replies):
        """Sends these requests and awaits their replies, which are to be these bytes: how long it took."""
        spent, told = exchanged(*self.files, requests, len(replies))
        assert told == replies, "the hub replies otherwise"
        return spent

    def begin(self, load):
        """The hub takes what is loaded."""
        self.spent(load)

    def spent(self, asked):
        return self.ask(*asked.whole)

    def spent_one_by_one(self, asked):
        return one_by_one(*self.files, asked.requests, asked.replies)

    def memory(self, word):
        return memory_of(self.child.pid, word)
