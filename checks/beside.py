"""Work that fills what other work leaves idle of a machine."""

import os
import threading
import time
from concurrent.futures import FIRST_COMPLETED, Future, ThreadPoolExecutor, wait
from pathlib import Path
from typing import Callable

TICK = os.sysconf("SC_CLK_TCK")


def free() -> int:
    """The bytes of memory that are free."""
    words = Path("/proc/meminfo").read_text().partition("MemAvailable:")[2].split()
    return int(words[0]) * 1024


def processors() -> int:
    """How many pieces of work there may be at a time: RT_JOBS, or one a processor."""
    number = os.environ.get("RT_JOBS", "")
    return int(number) if number.isdigit() and int(number) else len(os.sched_getaffinity(0))


def side_by_side(pieces: list, need: Callable, memory: int, work: Callable) -> None:
    """Does all these pieces of work, as many at a time as there are processors and as fit into nearly all of this memory."""
    left, running, most = [*pieces], {}, processors()
    with ThreadPoolExecutor(most) as pool:
        while left or running:
            for piece in [*left]:
                room = 0.85 * memory - sum(running.values())
                if len(running) < most and (not running or need(piece) <= room):
                    left.remove(piece)
                    running[pool.submit(work, piece)] = need(piece)
            for it in wait(running, return_when=FIRST_COMPLETED).done:
                del running[it]
                it.result()


class Idle:
    """How many processors nothing has used since it was last asked."""

    def __init__(self) -> None:
        self.before = self.now()

    @staticmethod
    def now() -> tuple[float, float]:
        """The seconds that all processors together were idle, waited for a disk or had only what gives way (`nice`), and the time."""
        words = Path("/proc/stat").read_text().split("\n", 1)[0].split()
        return (int(words[2]) + int(words[4]) + int(words[5])) / TICK, time.monotonic()

    def processors(self) -> float:
        (idle, at), before = self.now(), self.before
        self.before = idle, at
        return (idle - before[0]) / max(at - before[1], 0.001)


class Beside(threading.Thread):
    """Does one piece of work after the other, each as soon as it may begin and there is room for it: a processor that was idle for a
    while, and what `has_room` asks for. What isn't begun in the end is left to others."""

    def __init__(self, pieces: list, may_begin: Callable, has_room: Callable, work: Callable, every: float = 2.0) -> None:
        super().__init__(daemon=True)
        self.left, self.may_begin, self.has_room, self.work, self.every = [*pieces], may_begin, has_room, work, every
        self.idle = Idle()
        # (one processor is left to what it is beside)
        self.pool = ThreadPoolExecutor(max(len(os.sched_getaffinity(0)) - 1, 1))
        self.begun: list[Future] = []
        self.is_over = threading.Event()

    def run(self) -> None:
        while not self.is_over.wait(self.every):
            if self.idle.processors() >= 1:
                self.begin_one()

    def begin_one(self) -> None:
        piece = next((it for it in self.left if self.may_begin(it) and self.has_room(it)), None)
        if piece is not None:
            self.left.remove(piece)
            self.begun.append(self.pool.submit(self.work, piece))

    def end(self) -> list:
        """Begins no more, and gives what isn't begun."""
        self.is_over.set()
        self.join()
        return self.left

    def wait(self) -> None:
        """Waits for what was begun."""
        for it in self.begun:
            it.result()
        self.pool.shutdown()
