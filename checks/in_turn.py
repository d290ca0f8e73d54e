"""Two conversations one after the other over one store: a file whose request breaks the framing of the first isn't received."""

from dataclasses import dataclass
from pathlib import Path

from checks.stored import fault_in
from checks.stores import Hubs, get, hubs_of

TARGET = "/custodians/1001/volumes/1"


@dataclass(frozen=True)
class Broken:
    """What stands behind the first line of a request, and the refusal that ends the conversation."""

    name: str
    rest: bytes
    status: str
    refusal: int

    def request(self) -> bytes:
        return f"POST {TARGET} HTTP/1.1\r\n".encode() + self.rest


BROKEN = (
    Broken("a body that is cut off", b"Content-Length: 53\r\n\r\n10,1,1001,", "400 Bad Request", 40),
    Broken("no length", b"\r\n", "411 Length Required", 43),
    Broken("a transfer coding", b"Transfer-Encoding: chunked\r\nContent-Length: 1\r\n\r\na", "411 Length Required", 43),
    Broken("two lengths", b"Content-Length: 1\r\ncontent-length: 1\r\n\r\na", "400 Bad Request", 40),
    Broken("a length with a sign", b"Content-Length: +1\r\n\r\na", "400 Bad Request", 40),
    Broken("a body over 1 MiB", b"Content-Length: 1048577\r\n\r\n", "413 Content Too Large", 13),
    Broken("a header name with a space", b"Bad Header: x\r\n\r\n", "400 Bad Request", 40),
    Broken("a head that is cut off", b"Host", "400 Bad Request", 40),
)


def refused(status: str, refusal: int, is_last: bool) -> bytes:
    body, close = f'{{"refusal":{refusal}}}\n', "Connection: close\r\n" if is_last else ""
    return f"HTTP/1.1 {status}\r\nContent-Type: application/json\r\nContent-Length: {len(body)}\r\n{close}\r\n{body}".encode()


def fault_of(hubs: Hubs, store: Path, broken: Broken) -> str | None:
    """What is wrong with the refusal, or with what the next conversation is told of the volume."""
    fault = fault_in(hubs.over(store, broken.request()), refused(broken.status, broken.refusal, True))
    if fault:
        return f"the first conversation: {fault}"
    fault = fault_in(hubs.over(store, get(TARGET)), refused("404 Not Found", 17, False))
    return f"the second conversation: {fault}" if fault else None


def run_all(root: Path, room: Path) -> list[tuple[str, str, str | None]]:
    """Each broken request, how it was sent to the programs that are built in a room, and what is wrong with the answers."""
    with hubs_of(room) as (hubs, folder):
        how = "and a conversation after it over the same store"
        return [(broken.name, how, fault_of(hubs, folder / f"{at}", broken)) for at, broken in enumerate(BROKEN)]
