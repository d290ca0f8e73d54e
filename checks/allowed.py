"""What a hub in trouble may answer, and what is there afterwards: a plain hub in Python goes along with it."""

import functools
import hashlib
from dataclasses import dataclass, field

from checks.short_histories import QUESTIONS, outcome_of
from checks.wanting import WANTS, Plain, body_of, ends_early, reply_fault

STOPPED = 70  # the status of a process whose machine stops (failing.c)


@functools.cache
def told(received: tuple[bytes, ...], request: bytes) -> tuple[int, bytes]:
    """What a plain hub replies that received just these files."""
    hub = Plain()
    for file in received:
        hub.told(file)
    return hub.told(request)


class Received(Plain):
    """A plain hub that knows what it received."""

    def __init__(self) -> None:
        self.files: tuple[bytes, ...] = ()

    def told(self, request: bytes) -> tuple[int, bytes]:
        reply = told(self.files, request)
        if reply[0] == 201:
            self.files += (request,)
        return reply


@dataclass(frozen=True)
class Ended:
    """How a process ended: its exit status, the replies, what stands on standard error, how often something failed; and whether it
    opens the store for each request, so that it ends where that is refused."""

    status: int
    replies: list[bytes]
    said: bytes
    failed: int
    in_turn: bool = False

    def refusals(self) -> list[int | None]:
        return [WANTS.get(body_of(it)) for it in self.replies]


def is_few(refusals: list[int | None], failures: int) -> bool:
    """Whether no more replies are refused than something failed. Where that shut a store, all from one on are one."""
    calm = next((at for at, it in enumerate(reversed(refusals)) if it is None), len(refusals))
    before = refusals[: len(refusals) - calm]
    return sum(it is not None for it in before) + (calm > 0) <= failures


def end_fault(requests: tuple[bytes, ...], ended: Ended) -> str | None:
    """What is wrong with how a process ended, or with how many replies there are."""
    if ended.status == STOPPED:
        return None if ended.failed and not any(ended.refusals()) else "it stopped, and nothing failed or was refused before"
    if ended.status not in (0, 1, 3) or bool(ended.status) != bool(ended.said):
        return f"exit status {ended.status}, said {ended.said[:80]!r}"
    is_whole = len(ended.replies) == len(requests) or ended.replies and ends_early(ended.replies)
    if not is_whole and not (ended.status and (ended.in_turn or not ended.replies)):
        return f"{len(ended.replies)} replies to {len(requests)} requests"
    if not ended.failed and (ended.status or not is_whole):
        return "nothing failed, and it didn't end well"
    return None if is_few(ended.refusals(), ended.failed) else "more replies are refused than something failed"


@dataclass
class Along:
    """A plain hub that goes along: what was surely received, and what may be there besides."""

    hub: Received = field(default_factory=Received)
    doubtful: list[bytes] = field(default_factory=list)

    def fault(self, requests: tuple[bytes, ...], ended: Ended) -> str | None:
        """What is wrong with the replies to a stream."""
        fault = end_fault(requests, ended)
        if fault:
            return fault
        for at, (request, reply) in enumerate(zip(requests, ended.replies)):
            fault = reply_fault(self.hub, request, reply)
            if fault:
                return f"reply {at + 1}, {reply[:300]!r}: {fault}"
            if WANTS.get(body_of(reply)) == 51 and request.startswith(b"POST "):
                self.doubtful.append(request)
        in_hand = requests[len(ended.replies) :][:1]
        self.doubtful += [it for it in in_hand if it.startswith(b"POST ")]
        return None

    def is_found(self, file: bytes, replies: list[bytes]) -> bool:
        """Whether a file is there that wasn't surely received."""
        question = outcome_of(file)
        reply = replies[QUESTIONS.index(question)]
        is_its = hashlib.sha256(body_of(file)).hexdigest().encode() in reply
        return is_its and self.hub.told(question)[0] == 404

    def fault_opened(self, requests: tuple[bytes, ...], ended: Ended) -> str | None:
        """What is wrong with a store that is opened without trouble, of which all is asked first: one file more may be there."""
        if ended.status or ended.said or len(ended.replies) != len(requests):
            return f"opened again: exit status {ended.status}, said {ended.said[:80]!r}, {len(ended.replies)} replies"
        found = [it for it in dict.fromkeys(self.doubtful) if self.is_found(it, ended.replies)]
        if len(found) > 1:
            return f"opened again: {len(found)} files are there that weren't received"
        for file in found:
            self.hub.told(file)
        fault = Along(self.hub).fault(requests, ended)
        return fault and f"opened again: {fault}"
