"""A conversation while memory is wanting: each of the program's requests for memory is refused, one a run.

What can't be done for want of memory is answered 51, or 52 where the file was received; nothing else takes the place of what a hub says. The
stream asks all of it twice, so what was refused is sent again, and then for all that there is to read.
"""

import os
import subprocess
import sys
import tempfile
from collections.abc import Callable, Iterator
from concurrent.futures import ThreadPoolExecutor
from dataclasses import dataclass
from pathlib import Path

from checks.conversations import DEADLINE, replies_in
from checks.preloading import library
from checks.stores import SAMPLE, get, post

sys.path.insert(0, str(Path(__file__).resolve().parents[1] / "bench"))
import hub as plain  # noqa: E402

SOURCE = Path(__file__).resolve().parent / "wanting.c"

NONE = 1 << 62  # a number that no request for memory has

COUNTY_ROAD = b"10,1,1001,1,2024-01-02\n11,I,1,150,1,1990-01-01,\n15,I,2,150,ENG,County Road,,Arden,Arden\n99,2\n"
COUNTY_ROAD_CLOSED = b"10,1,1001,2,2024-05-01\n11,U,1,150,1,1990-01-01,2024-04-30\n99,1\n"
NUMBER_7 = (
    b"10,1,1002,1,2024-01-10\n90,1001,1\n21,I,1,100001,1,455000,255000,,,2020-01-01,\n"
    b"24,I,2,K1,100001,ENG,1,150,,,,,,7,,,,,2020-01-01,\n99,2\n"
)

ASKED = (
    post(1002, 1, NUMBER_7),
    post(1001, 2, COUNTY_ROAD_CLOSED),
    post(1001, 1, COUNTY_ROAD),
    post(1002, 1, NUMBER_7),
    get("/custodians/1002"),
    get("/closed"),
)
READ = tuple(
    map(
        get,
        (
            "/extract/1001/1",
            "/extract/1001/2",
            "/extract/1002/1",
            "/custodians/1001/volumes/1",
            "/custodians/1001/volumes/2",
            "/custodians/1002/volumes/1",
            "/uprn/100001",
            "/closed",
        ),
    )
)
REQUESTS = (*ASKED, *ASKED, *READ)

# A reply that tells want of memory, by the refusal that it names.
WANTS = {b'{"refusal":51}\n': 51, b'{"refusal":52}\n': 52}


def body_of(message: bytes) -> bytes:
    return message.partition(b"\r\n\r\n")[2]


@dataclass(frozen=True)
class Ran:
    """How a run ended: its exit status, the replies, what stands on standard error, and how many requests for memory there were."""

    status: int
    replies: list[bytes]
    said: bytes
    wanted: int


def run(words: list[str], preloaded: Path, told: Path, number: int) -> Ran:
    """Runs a program over the stream with the request for memory of this number refused."""
    env = os.environ | {"LD_PRELOAD": str(preloaded), "WANTING": str(number), "WANTED": str(told)}
    ran = subprocess.run(words, input=b"".join(REQUESTS), capture_output=True, timeout=DEADLINE, env=env)
    wanted = int(told.read_text()) if told.is_file() else 0
    return Ran(ran.returncode, replies_in(ran.stdout), ran.stderr, wanted)


class Plain:
    """A plain hub, asked request by request."""

    def __init__(self) -> None:
        self.hub = plain.Hub()

    def told(self, request: bytes) -> tuple[int, bytes]:
        """The status and the body of the reply to a request."""
        method, target = request.split(b" ", 2)[:2]
        status, text, _ = plain.answer_to(self.hub, method, target, body_of(request))
        return status, (b'{"refusal":%d}\n' % text) if isinstance(text, int) else (text + "\n").encode()


def reply_fault(hub: Plain, request: bytes, reply: bytes) -> str | None:
    """What is wrong with a reply. A hub that answers 51 to it is as before."""
    refusal = WANTS.get(body_of(reply))
    if refusal and not reply.startswith(b"HTTP/1.1 503 "):
        return "it tells want of memory and isn't 503"
    if refusal == 51:
        return None
    status, body = hub.told(request)
    if refusal == 52:
        return None if request.startswith(b"POST ") and status == 201 else "52, and no file was received by it"
    is_so = reply.startswith(b"HTTP/1.1 %d " % status) and body_of(reply) == body
    return None if is_so else f"{status} {body!r} is what a plain hub says"


def ends_early(replies: list[bytes]) -> bool:
    """Whether the last reply ended the conversation, as one does whose request's body found no memory."""
    return b"\r\nConnection: close\r\n" in replies[-1].partition(b"\r\n\r\n")[0] + b"\r\n" and WANTS.get(body_of(replies[-1])) == 51


def is_few(replies: list[bytes], may_shut: bool) -> bool:
    """Whether one reply at most tells want of memory, or where that may shut a store, all from one on that wrote: a question writes nothing."""
    wants = [body_of(it) in WANTS for it in replies]
    if sum(wants) <= 1:
        return True
    first = wants.index(True)
    return may_shut and REQUESTS[first].startswith(b"POST ") and all(wants[first:])


def goes_on(replies: list[bytes]) -> bool:
    """Whether a file was told want of memory, and what follows was answered all the same."""
    wants = [body_of(it) in WANTS for it in replies]
    return any(it and REQUESTS[at].startswith(b"POST ") and not all(wants[at:]) for at, it in enumerate(wants))


def fault_of(ran: Ran, may_shut: bool) -> str | None:
    """What is wrong with a run."""
    if ran.status and not ran.replies:
        return None if ran.said else f"exit status {ran.status}, and nothing is said"
    if ran.status or ran.said:
        return f"exit status {ran.status}, said {ran.said[:80]!r}"
    hub = Plain()
    for at, (request, reply) in enumerate(zip(REQUESTS, ran.replies)):
        fault = reply_fault(hub, request, reply)
        if fault:
            return f"reply {at + 1}, {reply[:300]!r}: {fault}"
    if len(ran.replies) != len(REQUESTS) and not ends_early(ran.replies):
        return f"{len(ran.replies)} replies to {len(REQUESTS)} requests"
    return None if is_few(ran.replies, may_shut) else "more than one reply tells want of memory"


def first_fault(once: Callable[[int], Ran], stride: int, may_shut: bool) -> str | None:
    """What is wrong with the first run that goes wrong: none refused, and each by this stride. That a refused file shuts a store is so of some runs, and not of all."""
    calm = once(NONE)
    if any(body_of(it) in WANTS for it in calm.replies) or fault_of(calm, False):
        return f"no memory is refused: {fault_of(calm, False) or 'a reply tells want of memory'}"
    with ThreadPoolExecutor(len(os.sched_getaffinity(0))) as workers:
        numbers, went_on = range(0, calm.wanted, stride), False
        for number, ran in zip(numbers, workers.map(once, numbers)):
            fault = fault_of(ran, may_shut)
            if fault:
                return f"request {number} for memory refused: {fault}"
            went_on = went_on or goes_on(ran.replies)
    return None if went_on else "in no run it goes on behind a file that was told want of memory"


def run_all(gazhub: Path, bench: Path, strides: tuple[int, int] = (1, 1)) -> Iterator[tuple[str, str | None]]:
    """Over a store in memory, and over the keeper in memory."""
    with tempfile.TemporaryDirectory(prefix="check-wanting-") as made:
        folder = Path(made)
        preloaded = library(SOURCE, folder)
        register = folder / "register.toml"
        register.write_text(SAMPLE)
        for name, words, may_shut, stride in (
            ("gazhub", [str(gazhub)], True, strides[0]),
            ("the keeper in memory", [str(bench), "play", str(register)], False, strides[1]),
        ):
            yield name, first_fault(lambda number: run(words, preloaded, folder / f"{number}", number), stride, may_shut)
