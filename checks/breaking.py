"""Streams that break: a reader or a writer that fails at a byte, gives or takes pieces of one byte, is interrupted, or takes nothing.

Whatever breaks, the input is read at most once for each byte, and once more.
"""

import errno
import os
import subprocess
import tempfile
from collections.abc import Iterator
from concurrent.futures import ThreadPoolExecutor
from dataclasses import dataclass, field
from pathlib import Path

from checks.conversations import DEADLINE, difference, replies_in, requests_in
from checks.preloading import library
from checks.runs import CUT_OFF, READ_FAULT, WRITE_FAULT
from checks.stored import fault_in
from checks.stores import Hubs, get, hubs_of

SOURCE = Path(__file__).resolve().parent / "breaking.c"

WHOLE = 1 << 20  # bytes: more than any stream here
EVER = 1 << 40  # calls: more than any program makes

TOGETHER = 100  # runs that are forked off one process
STRIDE = 11  # bytes: so far from each other is what isn't tried at each of them

STREAM = "conversations/a-volume-that-fills-a-gap-frees-what-waits"
BLANK = b"\r\n\r\n"  # no request, behind the last one

ASKED = ("/custodians/1001", *(f"/custodians/1001/volumes/{volume}" for volume in (1, 2, 3)), "/uprn/42")
QUESTIONS = b"".join(map(get, ASKED))


@dataclass(frozen=True)
class Side:
    """How the input or the output goes: so many bytes a call at most, and at a byte so many calls fail; by error 0 they take nothing."""

    most: int = WHOLE
    at: int = 0
    error: int = 0
    times: int = 0

    def text(self) -> str:
        return f"{self.most} {self.at} {self.error} {self.times}"


@dataclass(frozen=True)
class Broken:
    """A run over a stream that breaks, and how it has to end."""

    name: str
    given: bytes
    reads: Side
    writes: Side
    status: int
    said: bytes
    least: bytes  # what is written begins so
    most: bytes  # and is a front of this


@dataclass(frozen=True)
class Stream:
    """Requests, and the replies to them."""

    requests: bytes
    replies: bytes
    ends: list[int] = field(init=False)  # of the requests
    told: list[bytes] = field(init=False)  # the replies to none of them, to the first, and so on

    def __post_init__(self) -> None:
        requests, replies = requests_in(self.requests), replies_in(self.replies)
        assert len(requests) == len(replies), "each request has a reply"
        count = range(len(requests) + 1)
        object.__setattr__(self, "ends", [len(b"".join(requests[:k])) for k in count])
        object.__setattr__(self, "told", [b"".join(replies[:k]) for k in count])

    def whole(self, at: int) -> int:
        """How many requests stand whole in so many bytes."""
        return max(k for k, end in enumerate(self.ends) if end <= at)

    def answered(self, written: int) -> int:
        """How many requests are answered where each waits for the reply before, and the writer takes so many bytes."""
        return next((k for k, told in enumerate(self.told) if len(told) > written), len(self.told) - 1)


def worked(root: Path) -> Stream:
    """The conversation that is broken, as one stream."""
    return Stream(*((root / f"{STREAM}{suffix}").read_bytes() for suffix in (".http", ".replies")))


def some(at: int, first: tuple, *others: tuple) -> tuple:
    """The first at each byte, and the others at some."""
    return (first, *others) if at % STRIDE == 0 else (first,)


def pieces(at: int) -> tuple[tuple[str, int], ...]:
    return some(at, ("", WHOLE), (" in pieces of one byte", 1))


def readers(stream: Stream) -> Iterator[Broken]:
    """The reader fails from each byte on, or is interrupted there once: what came whole is answered."""
    for at in range(len(stream.requests) + 1):
        told = stream.told[stream.whole(at)]
        for how, error, times in some(at, ("fails from", errno.EIO, EVER), ("is interrupted at", errno.EINTR, 1)):
            for piece, most in pieces(at):
                reads = Side(most, at, error, times)
                yield Broken(f"the reader{piece} {how} byte {at}", stream.requests, reads, Side(), 3, READ_FAULT, told, told)


def prefixes(stream: Stream) -> Iterator[Broken]:
    """Each front of the requests and of an empty line behind them: one that cuts a request is refused behind the other replies."""
    whole = stream.requests + BLANK
    for at in range(len(whole) + 1):
        number = stream.whole(at)
        is_cut = whole[stream.ends[number] : at].strip(b"\r\n")
        told = stream.told[number] + (CUT_OFF if is_cut else b"")
        for piece, most in pieces(at):
            yield Broken(f"the first {at} bytes{piece}", whole[:at], Side(most), Side(), 0, b"", told, told)


def writers(stream: Stream) -> Iterator[Broken]:
    """The writer fails at each byte, for ever or once, or takes nothing; where it is only interrupted, it is asked again."""
    said = stream.replies
    for at in range(len(said)):
        for piece, most in pieces(at):
            for how, error in (("fails", errno.EIO), ("takes nothing", 0)):
                for often, times, last in some(at, ("from", EVER, said[:at]), ("once at", 1, said)):
                    name = f"the writer {how} {often} byte {at}, the reader goes on{piece}"
                    yield Broken(name, stream.requests, Side(most), Side(WHOLE, at, error, times), 3, WRITE_FAULT, said[:at], last)
            if at % STRIDE:
                continue
            name = f"the writer is interrupted at byte {at}, the reader goes on{piece}"
            yield Broken(name, stream.requests, Side(most), Side(WHOLE, at, errno.EINTR, 1), 0, b"", said, said)


def calm(stream: Stream) -> Iterator[Broken]:
    """Pieces of one byte, read and written."""
    for name, reads, writes in (("reads", 1, WHOLE), ("writes", WHOLE, 1), ("reads and writes", 1, 1)):
        yield Broken(f"{name} of one byte", stream.requests, Side(reads), Side(writes), 0, b"", stream.replies, stream.replies)


def breaks(program: list[str | Path], preloaded: Path, given: bytes, reads: Side, writes: Side) -> subprocess.CompletedProcess:
    """Runs a program whose input and output break."""
    words = {"LD_PRELOAD": str(preloaded), "READS": reads.text(), "WRITES": writes.text()}
    return subprocess.run(program, input=given, capture_output=True, timeout=DEADLINE, env=os.environ | words)


def fault_of(program: Path, preloaded: Path, run: Broken) -> str | None:
    """What is wrong with how a run ends."""
    try:
        ran = breaks([program], preloaded, run.given, run.reads, run.writes)
    except subprocess.TimeoutExpired:
        return f"didn't end within {DEADLINE:g} s"
    return end_fault(run, ran.returncode, ran.stdout, ran.stderr)


def end_fault(run: Broken, status: int, written: bytes, told: bytes) -> str | None:
    """What is wrong where a run ends so."""
    said = difference(run.said, told)
    faults = (
        f"exit status {status}, wanted {run.status}" if status != run.status else None,
        f"standard error {said}" if said else None,
        written_fault(run, written),
    )
    return "; ".join(fault for fault in faults if fault) or None


def faults_of(program: Path, preloaded: Path, runs: list[Broken]) -> list[str | None]:
    """What is wrong with each of these runs, which are forked off one process once it reads. All are given a front of the same."""
    with tempfile.TemporaryDirectory(prefix="check-forked-") as made:
        given, cases, ends, written, said = (Path(made, name) for name in ("given", "cases", "ends", "written", "said"))
        given.write_bytes(max((it.given for it in runs), key=len))
        cases.write_text("".join(f"{len(it.given)} {it.reads.text()} {it.writes.text()}\n" for it in runs))
        env = os.environ | {"LD_PRELOAD": str(preloaded), "BREAKING_CASES": str(cases), "BREAKING_TOLD": str(ends)}
        with given.open("rb") as source, written.open("wb") as sink, said.open("wb") as errors:
            ran = subprocess.run([program], stdin=source, stdout=sink, stderr=errors, env=env)
        told = [[*map(int, line.split())] for line in ends.read_text().splitlines()] if ends.exists() else []
        if ran.returncode or len(told) != len(runs):
            return [f"{len(told)} of {len(runs)} runs ended, and the process that forked them by {ran.returncode}"]
        pieces = [between(file.read_bytes(), [line[at] for line in told]) for at, file in ((1, written), (2, said))]
    return [end_fault(run, os.waitstatus_to_exitcode(status), *them) for run, (status, *_), *them in zip(runs, told, *pieces)]


def between(data: bytes, ends: list[int]) -> list[bytes]:
    """The pieces of bytes that end so."""
    return [data[first:end] for first, end in zip([0, *ends], ends)]


def written_fault(run: Broken, written: bytes) -> str | None:
    """What is wrong with what was written: it has a text for its front, and is itself a front of another."""
    fault = difference(run.least, written[: len(run.least)]) or difference(run.most[: len(written)], written)
    return f"standard output {fault}" if fault else None


KINDS = (
    ("the reader fails or is interrupted at each byte", readers),
    ("each front of the stream is all that comes", prefixes),
    ("the writer fails, takes nothing or is interrupted at each byte", writers),
    ("pieces of one byte", calm),
)


def first_fault(program: Path, preloaded: Path, runs: Iterator[Broken]) -> str | None:
    """What is wrong with the first run that ends otherwise."""
    them = list(runs)
    groups = [them[first : first + TOGETHER] for first in range(0, len(them), TOGETHER)]
    with ThreadPoolExecutor(len(os.sched_getaffinity(0))) as workers:
        ended = workers.map(lambda group: zip(group, faults_of(program, preloaded, group)), groups)
        return next((f"{run.name}: {fault}" for group in ended for run, fault in group if fault), None)


def run_all(program: Path, root: Path) -> Iterator[tuple[str, str | None]]:
    """Each kind of runs, and the first in which something is wrong."""
    stream = worked(root)
    with tempfile.TemporaryDirectory(prefix="check-breaking-") as made:
        preloaded = library(SOURCE, Path(made))
        for name, runs in KINDS:
            yield name, first_fault(program, preloaded, runs(stream))


def stays(hubs: Hubs, preloaded: Path, folder: Path, stream: Stream, at: int) -> str | None:
    """What is wrong with what a store has where the writer failed at this byte, and each request waited for the reply before."""
    words = [hubs.bench, "stored", folder / "broken.db", hubs.register]
    breaks(words, preloaded, stream.requests, Side(1), Side(WHOLE, at, errno.EIO, EVER))
    count = stream.answered(at)
    calm_hub = hubs.over(folder / "calm.db", stream.requests[: stream.ends[count]] + QUESTIONS)
    return fault_in(hubs.over(folder / "broken.db", QUESTIONS), calm_hub.replies[len(stream.told[count]) :])


def stay_all(root: Path, room: Path, stride: int = 29) -> Iterator[tuple[str, str | None]]:
    """What was received stays received where the writer fails at a byte, and where at none."""
    stream = worked(root)
    with hubs_of(room) as (hubs, folder), tempfile.TemporaryDirectory(prefix="check-breaking-") as made:
        preloaded = library(SOURCE, Path(made))
        for at in (*range(0, len(stream.replies), stride), len(stream.replies)):
            (folder / f"{at}").mkdir()
            yield f"a writer that fails at byte {at}", stays(hubs, preloaded, folder / f"{at}", stream, at)
