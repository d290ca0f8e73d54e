"""Heads of requests, each in a small conversation of its own: which are no head, and end it by a refusal, and which are taken; and each byte at each place of one."""

import os
import string
from collections.abc import Iterable, Iterator
from concurrent.futures import ThreadPoolExecutor
from functools import partial
from pathlib import Path

from checks.conversations import Conversation, run_whole
from checks.runs import CUT_OFF, GET, REPLY

TARGET = b"GET /closed"
LINE = TARGET + b" HTTP/1.1\r\n"
NO_ROUTE = REPLY.replace(b"200 OK", b"404 Not Found").replace(b"14", b"15").replace(b'{"closed":[]}', b'{"refusal":41}')
BAD_METHOD = NO_ROUTE.replace(b"404 Not Found", b"405 Method Not Allowed").replace(b"41}", b"42}").replace(b"15\r\n", b"15\r\nAllow: GET\r\n")

# What no head begins with, nor becomes by more bytes.
REFUSED = {
    "a folded header": LINE + b"X: a\r\n b: c\r\n\r\n",
    "a header that is folded by a tab": LINE + b"X: a\r\n\tb\r\n\r\n",
    "a folded line with nothing": LINE + b"X: a\r\n \r\n\r\n",
    "a space before the first header": LINE + b" Host: hub\r\n\r\n",
    "an empty name": LINE + b": a\r\n\r\n",
    "a space before the colon": LINE + b"Host : hub\r\n\r\n",
    "a tab before the colon": LINE + b"Host\t: hub\r\n\r\n",
    "no colon": LINE + b"Host\r\n\r\n",
    "HTTP/1.2": TARGET + b" HTTP/1.2\r\n\r\n",
    "HTTP/1.10": TARGET + b" HTTP/1.10\r\n\r\n",
    "HTTP/2.0": TARGET + b" HTTP/2.0\r\n\r\n",
    "HTTP/2": TARGET + b" HTTP/2\r\n\r\n",
    "HTTP/0.9": TARGET + b" HTTP/0.9\r\n\r\n",
    "a version in small letters": TARGET + b" http/1.1\r\n\r\n",
    "no version": TARGET + b"\r\n\r\n",
    "a space behind the version": TARGET + b" HTTP/1.1 \r\n\r\n",
    "two spaces before the version": TARGET + b"  HTTP/1.1\r\n\r\n",
    "no target": b"GET HTTP/1.1\r\n\r\n",
    "no method": b" /closed HTTP/1.1\r\n\r\n",
    "CR within a value": LINE + b"X: a\rb\r\n\r\n",
    "CR behind a value": LINE + b"X: a\rY: b\r\n\r\n",
    "CR CR LF behind a value": LINE + b"X: a\r\r\n\r\n",
    "CR behind the request line": LINE[:-1] + b"Host: hub\r\n\r\n",
    "CR for the empty line": LINE + b"\r" + GET,
    "CR CR LF for the empty line": LINE + b"\r\r\n",
    "CR before the method": b"\r" + GET,
    "CR CR before the method": b"\r\r" + GET,
    "a target that isn't UTF-8": b"GET /clos\xe9 HTTP/1.1\r\n\r\n",
    "8,193 bytes of CR and LF": b"\r\n" * 4096 + b"\n",
    "8,193 bytes of CR": b"\r" * 8193,
    "8,192 bytes of CR and LF, and a request": b"\r\n" * 4096 + GET,
}
TAKEN = {
    "no header": LINE + b"\r\n",
    "LF alone at each end": b"GET /closed HTTP/1.1\nHost: hub\n\n",
    "CR LF and LF in turn": b"\n\r\nGET /closed HTTP/1.1\nHost: hub\r\n\n",
    "no space behind the colon": LINE + b"Host:hub\r\n\r\n",
    "a value of nothing, and one of spaces": LINE + b"X:\r\nY: \t \r\n\r\n",
    "bytes from 0x80 on in a value": LINE + b"X: \x80\xff\xc2\xa0\r\n\r\n",
    "32 headers": LINE + b"a:\r\n" * 32 + b"\r\n",
    "8,192 bytes": LINE + b"X:" + b"a" * (8192 - len(LINE) - 6) + b"\r\n\r\n",
    "8,192 bytes, most of them empty lines": b"\n" * (8192 - len(GET)) + GET,
}
# What nothing follows: no request, and no reply.
OVER = {"nothing": b"", "CR LF": b"\r\n", "CR": b"\r", "CR CR": b"\r\r", "8,192 bytes of CR and LF": b"\r\n" * 4096, "8,192 bytes of CR": b"\r" * 8192}

EACH = range(256)
TOKEN = {*string.ascii_letters.encode(), *string.digits.encode(), *b"!#$%&'*+-.^_`|~"}
VISIBLE = {*range(33, 127)}
VALUE = {*b"\t ", *VISIBLE, *range(128, 256)}


def refused(name: str, head: bytes) -> Conversation:
    """A request is answered, and then a head refused; the request behind it isn't read."""
    return Conversation(name, GET + head + GET, REPLY + CUT_OFF)


def taken(name: str, head: bytes, reply: bytes = REPLY) -> Conversation:
    return Conversation(name, GET + head + GET, REPLY + reply + REPLY)


def over(name: str, rest: bytes) -> Conversation:
    return Conversation(name, GET + rest, REPLY)


def held(place: str, byte: int, head: bytes, reply: bytes | None) -> Conversation:
    """A head with a byte at a place, and the reply to it; where there is none it is refused."""
    name = f"byte {byte:#04x} {place}"
    return taken(name, head, reply) if reply else refused(name, head)


def in_method(byte: int) -> Conversation:
    head = b"GE%c /closed HTTP/1.1\r\n\r\n" % byte
    return held("in a method", byte, head, REPLY if byte == ord("T") else BAD_METHOD if byte in TOKEN else None)


def in_target(byte: int) -> Conversation:
    head = b"GET /close%c HTTP/1.1\r\n\r\n" % byte
    return held("in a target", byte, head, REPLY if byte == ord("d") else NO_ROUTE if byte in VISIBLE else None)


def in_name(byte: int) -> Conversation:
    """A colon ends the name, so that the other is of its value."""
    return held("in a header's name", byte, LINE + b"X%c: a\r\n\r\n" % byte, REPLY if byte in {*TOKEN, ord(":")} else None)


def in_value(byte: int) -> Conversation:
    return held("in a header's value", byte, LINE + b"X: a%cb\r\n\r\n" % byte, REPLY if byte in VALUE else None)


def cases() -> dict[str, list[Conversation]]:
    """The conversations by what is tried: each head, and each byte at a place."""
    groups = ((refused, REFUSED), (taken, TAKEN), (over, OVER))
    each = {f"{name} is {how.__name__}": [how(name, head)] for how, heads in groups for name, head in heads.items()}
    places = {"a method": in_method, "a target": in_target, "a header's name": in_name, "a header's value": in_value}
    return each | {f"each byte in {place}": list(map(of, EACH)) for place, of in places.items()}


def first_fault(faults: Iterable[tuple[Conversation, str | None]]) -> str | None:
    return next((f"{it.name}: {fault}" for it, fault in faults if fault), None)


def run_all(program: Path) -> Iterator[tuple[str, str | None]]:
    """What is tried, and what is wrong with the first conversation of it that goes wrong."""
    with ThreadPoolExecutor(len(os.sched_getaffinity(0))) as workers:
        for name, them in cases().items():
            yield name, first_fault(zip(them, workers.map(partial(run_whole, program), them)))
