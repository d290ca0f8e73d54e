"""What a command costs: processor seconds and memory, which a busy machine doesn't change."""

import os
import re
import resource
import signal
import subprocess
import threading
import time
from dataclasses import dataclass, field
from pathlib import Path

TICK = os.sysconf("SC_CLK_TCK")


@dataclass
class Ran:
    """How a command ended."""

    status: int
    text: str
    seconds: float  # of processors, its own and those of what it started
    peak: int  # bytes


class Running:
    """The commands that run now, so that all of them end with the gate."""

    def __init__(self) -> None:
        self.lock = threading.RLock()  # (a signal may come while it is held)
        self.groups: set[int] = set()
        self.over = False

    def start(self, words: list[str], cwd: Path, **how) -> subprocess.Popen:
        with self.lock:
            if self.over:
                raise KeyboardInterrupt
            started = subprocess.Popen(
                words, cwd=cwd, stdin=subprocess.DEVNULL, stderr=subprocess.STDOUT, start_new_session=True, **how
            )
            self.groups.add(started.pid)
        return started

    def ended(self, started: subprocess.Popen) -> None:
        with self.lock:
            self.groups.discard(started.pid)

    def stop(self) -> None:
        """Ends all of them, and lets none start any more."""
        with self.lock:
            self.over = True
            for group in self.groups:
                try:
                    os.killpg(group, signal.SIGKILL)
                except OSError:
                    pass


RUNNING = Running()


class Apart:
    """The processor seconds of commands that are counted by themselves."""

    def __init__(self) -> None:
        self.lock, self.seconds = threading.Lock(), 0.0

    def add(self, seconds: float) -> None:
        with self.lock:
            self.seconds += seconds


APART = Apart()


def spent() -> float:
    """The processor seconds of this process so far, and of what it started and has seen end, but for what is counted apart."""
    own, theirs = (resource.getrusage(whose) for whose in (resource.RUSAGE_SELF, resource.RUSAGE_CHILDREN))
    return own.ru_utime + own.ru_stime + theirs.ru_utime + theirs.ru_stime - APART.seconds


def run(words: list[str], cwd: Path, is_apart: bool = False) -> Ran:
    """Runs a command to its end, and tells what it said and what it cost."""
    started = RUNNING.start(words, cwd, stdout=subprocess.PIPE)
    try:
        with started.stdout as said:
            text = said.read().decode("utf-8", "replace")
        _, status, used = os.wait4(started.pid, 0)
        started.returncode = os.waitstatus_to_exitcode(status)
    finally:
        RUNNING.ended(started)
    seconds = used.ru_utime + used.ru_stime
    if is_apart:
        APART.add(seconds)
    return Ran(started.returncode, text, seconds, used.ru_maxrss * 1024)


@dataclass
class Costs:
    """What each check of a longer run cost, by its crate and whether it was of the tests, read from /proc while it runs."""

    seconds: dict[tuple[str, bool], float] = field(default_factory=dict)
    peak: int = 0

    def add(self, name: str, tests: bool, seconds: float) -> None:
        self.seconds[name, tests] = self.seconds.get((name, tests), 0.0) + seconds


def words_of(pid: int) -> list[str]:
    """The words of a process's command line."""
    return Path(f"/proc/{pid}/cmdline").read_bytes().decode("utf-8", "replace").split("\0")


def is_check(words: list[str]) -> bool:
    return os.path.basename(words[0]) == "rattle" and "--crate-name" in words


class Watch(threading.Thread):
    """Reads twice a second what each check in a session of processes has used."""

    def __init__(self, session: int) -> None:
        super().__init__(daemon=True)
        self.session = session
        self.is_over = threading.Event()
        self.last: dict[tuple[int, int], tuple[str, bool, float]] = {}  # by number and start (numbers come again)
        self.costs = Costs()

    def run(self) -> None:
        while not self.is_over.wait(0.5):
            self.look()

    def look(self) -> None:
        for entry in os.scandir("/proc"):
            if entry.name.isdigit():
                self.look_at(int(entry.name))

    def look_at(self, pid: int) -> None:
        try:
            stat = Path(f"/proc/{pid}/stat").read_text().rpartition(")")[2].split()
            if int(stat[3]) != self.session:
                return
            words = words_of(pid)
            is_fork = is_check(words) and is_check(words_of(int(stat[1])))
            status = Path(f"/proc/{pid}/status").read_text()
        except (OSError, ValueError):
            return
        peak = re.search(r"VmHWM:\s+(\d+) kB", status)
        self.costs.peak = max(self.costs.peak, int(peak[1]) * 1024 if peak else 0)
        if is_check(words) and not is_fork:
            name = words[words.index("--crate-name") + 1]
            used = sum(int(it) for it in stat[11:15]) / TICK
            self.last[pid, int(stat[19])] = name, "--test" in words, used

    def end(self) -> Costs:
        self.is_over.set()
        self.join()
        for name, tests, used in self.last.values():
            self.costs.add(name, tests, used)
        return self.costs


def watch(words: list[str], cwd: Path, say) -> tuple[Ran, Costs]:
    """Runs a longer command, says each of its lines as it comes, and tells what the checks in it cost."""
    started = RUNNING.start(words, cwd, stdout=subprocess.PIPE)
    looking = Watch(started.pid)
    looking.start()
    lines = []
    try:
        with started.stdout as said:
            for line in said:
                lines.append(line.decode("utf-8", "replace"))
                say(lines[-1].rstrip("\n"))
        _, status, used = os.wait4(started.pid, 0)
        started.returncode = os.waitstatus_to_exitcode(status)
    finally:
        RUNNING.ended(started)
        costs = looking.end()
    ran = Ran(started.returncode, "".join(lines), used.ru_utime + used.ru_stime, used.ru_maxrss * 1024)
    return ran, costs


class Clock:
    """How long something takes by the clock on the wall."""

    def __init__(self) -> None:
        self.began = time.monotonic()

    def minutes(self) -> float:
        return (time.monotonic() - self.began) / 60
