"""How the program ends: its exit status, and what it says on standard error, by its words, its input and its output."""

import contextlib
import os
import subprocess
from dataclasses import dataclass
from pathlib import Path

from checks.conversations import DEADLINE, difference

GET = b"GET /closed HTTP/1.1\r\n\r\n"
REPLY = b'HTTP/1.1 200 OK\r\nContent-Type: application/json\r\nContent-Length: 14\r\n\r\n{"closed":[]}\n'
LAST = REPLY.replace(b"\r\n\r\n", b"\r\nConnection: close\r\n\r\n")
CUT_OFF = b'HTTP/1.1 400 Bad Request\r\nContent-Type: application/json\r\nContent-Length: 15\r\nConnection: close\r\n\r\n{"refusal":40}\n'

USAGE = b"error: unrecognized subcommand 'nonsense'\n\nUsage: gazhub [COMMAND]\n\nFor more information, try '--help'.\n"
READ_FAULT = b"gazhub: ReadFault\n"
WRITE_FAULT = b"gazhub: WriteFault\n"


@dataclass(frozen=True)
class Run:
    """The words and the input of a run, and how it has to end."""

    name: str
    words: tuple[str | bytes, ...]
    given: bytes
    status: int
    said: bytes | None = b""  # on standard error; None: whatever `clap` says of usage
    written: bytes = b""  # on standard output
    source: str = ""  # what is read in place of the bytes given
    sink: str = ""  # what is written to in place of this program
    said_to: str = ""  # where the errors go in place of this program


RUNS = (
    Run("no word and no request", (), b"", 0),
    Run("a request", (), GET, 0, written=REPLY),
    Run("the word play", ("play",), GET, 0, written=REPLY),
    Run("the word --", ("--",), GET, 0, written=REPLY),
    Run("the word play behind --", ("--", "play"), GET, 2, said=None),
    Run("a request that is cut off", (), GET[:-2], 0, written=CUT_OFF),
    Run("another word", ("nonsense",), GET, 2, said=USAGE),
    Run("an empty word", ("",), GET, 2, said=None),
    Run("a word that begins with play", ("plays",), GET, 2, said=None),
    Run("a word behind play", ("play", "play"), GET, 2, said=None),
    Run("the version", ("--version",), GET, 0, written=b"gazhub 0.1.0\n"),
    Run("the version, and an output that takes nothing", ("--version",), GET, 3, said=WRITE_FAULT, sink="/dev/full"),
    Run("another word, and nobody to hear", ("nonsense",), GET, 2, said_to="/dev/full"),
    Run("a word that can't be read", (b"\xff",), GET, 3, said=READ_FAULT),
    Run("an input that can't be read", (), b"", 3, said=READ_FAULT, source="/"),
    Run("an output that takes nothing", (), GET, 3, said=WRITE_FAULT, sink="/dev/full"),
    Run("one request more than 100,000", (), GET * 100_001, 0, written=REPLY * 99_999 + LAST),
)


def fault_of(program: Path, run: Run, deadline: float = DEADLINE) -> str | None:
    """What is wrong with how a run ends."""
    with contextlib.ExitStack() as opened:
        given = {"stdin": opened.enter_context(_opened(run.source, os.O_RDONLY))} if run.source else {"input": run.given}
        taken = {
            name: opened.enter_context(_opened(path, os.O_WRONLY)) if path else subprocess.PIPE
            for name, path in (("stdout", run.sink), ("stderr", run.said_to))
        }
        try:
            ran = subprocess.run([program, *run.words], timeout=deadline, **given, **taken)
        except subprocess.TimeoutExpired:
            return f"didn't end within {deadline:g} s"
    heard = ran.stderr or b""
    said = difference(run.said if run.said is not None else heard or b"error", heard)
    written = difference(run.written, ran.stdout or b"")
    faults = (
        f"exit status {ran.returncode}, wanted {run.status}" if ran.returncode != run.status else None,
        f"standard error {said}" if said else None,
        f"standard output {written}" if written else None,
    )
    return "; ".join(fault for fault in faults if fault) or None


@contextlib.contextmanager
def _opened(path: str, how: int):
    """A file that is opened as it stands, a folder too."""
    number = os.open(path, how)
    try:
        yield number
    finally:
        os.close(number)


def run_all(program: Path) -> list[tuple[str, str | None]]:
    """Each run, and what is wrong with how it ends."""
    return [(run.name, fault_of(program, run)) for run in RUNS]
