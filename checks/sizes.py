"""Requests of great size: a line of 16 MiB, a million headers, a body one byte over, and 100,000 requests that come in pieces of one byte.

Behind what is refused at once nothing is read.
"""

import errno
import tempfile
from collections.abc import Iterator
from pathlib import Path

from checks.breaking import EVER, SOURCE, WHOLE, Broken, Side, fault_of
from checks.conversations import LARGEST_BODY, Conversation, run_whole
from checks.large import reply
from checks.preloading import library

MIB = 1 << 20
MOST = 100_000  # requests of a conversation

SMALLEST = b"GET / HTTP/1.1\r\n\r\n"
NO_ROUTE = reply("404 Not Found", b'{"refusal":41}\n')


def last(text: bytes) -> bytes:
    """A reply behind which the conversation ends."""
    return text.replace(b"\r\n\r\n", b"\r\nConnection: close\r\n\r\n", 1)


def refused(status: str, refusal: int) -> bytes:
    return last(reply(status, f'{{"refusal":{refusal}}}\n'.encode()))


def long_line(size: int = 16 * MIB) -> Conversation:
    line = b"GET /" + b"a" * (size - 16) + b" HTTP/1.1\r\n"
    return Conversation("a request line of 16 MiB", line + b"\r\n" + SMALLEST, refused("400 Bad Request", 40))


def many_headers(count: int = 1_000_000) -> Conversation:
    return Conversation("a million headers", SMALLEST[:-2] + b"a: b\r\n" * count + b"\r\n" + SMALLEST, refused("400 Bad Request", 40))


OVER = f"POST /custodians/1001/volumes/1 HTTP/1.1\r\nContent-Length: {LARGEST_BODY + 1}\r\n\r\n".encode()
TOO_LARGE = refused("413 Content Too Large", 13)


def one_byte_over() -> Conversation:
    return Conversation("a body one byte over", OVER + b"a" * (LARGEST_BODY + 1) + SMALLEST, TOO_LARGE)


def cases() -> list[Conversation]:
    return [long_line(), many_headers(), one_byte_over()]


def most_in_pieces(count: int = MOST) -> Broken:
    """As many requests as a conversation may have, of which each read gives one byte."""
    replies = NO_ROUTE * (count - 1) + (last(NO_ROUTE) if count == MOST else NO_ROUTE)
    return Broken("100,000 requests in pieces of one byte", SMALLEST * count, Side(1), Side(), 0, b"", replies, replies)


def unread() -> Iterator[Broken]:
    """What is refused at once, behind which each read fails: none is tried."""
    for name, given, told in (("a head that tells a byte over", OVER, TOO_LARGE), ("a byte of no head", b"\0", refused("400 Bad Request", 40))):
        for piece, most in (("", WHOLE), (" in pieces of one byte", 1)):
            reads = Side(most, len(given), errno.EIO, EVER)
            yield Broken(f"{name}{piece}, with nothing read behind it", given, reads, Side(), 0, b"", told, told)


def run_all(program: Path) -> Iterator[tuple[str, str | None]]:
    """Each, and what is wrong with the answers or the end."""
    yield from ((one.name, run_whole(program, one)) for one in cases())
    with tempfile.TemporaryDirectory(prefix="check-sizes-") as made:
        preloaded = library(SOURCE, Path(made))
        yield from ((run.name, fault_of(program, preloaded, run)) for run in (most_in_pieces(), *unread()))
