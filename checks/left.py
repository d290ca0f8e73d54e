"""What thousands of addresses left, asked for again and again at a hub over the keeper in memory: that takes no longer than if none had come.

The keeper has an index of the approved addresses of a property and on a street. Were each that left passed over at each question, it would take many
times as long. Both are asked for each change of a street that is closed and of a BLPU that is historical (rules 39 and 37).
"""

import tempfile
from collections.abc import Iterator
from dataclasses import dataclass
from pathlib import Path

from checks import measure
from checks.conversations import DEADLINE, difference
from checks.stocks import sent
from checks.stores import Hubs, hubs_of

MANY = 2_500  # that come, and as many changes by which they leave: a file has room for both
FILES, CHANGES = 20, 5_000  # that ask, and how many questions each of them asks

TIMES, MARGIN = 3.0, 1.5  # how many times as long it may take, and processor seconds beside them

STREETS = ("11,I,101,1,2001-04-01,", "15,I,101,ENG,High Street,,Arden,Arden", "11,I,102,1,2001-04-01,", "15,I,102,ENG,Low Street,,Arden,Arden")
HOUSE = "21,I,99999,1,450000,250000,,,2001-04-01,"
CLOSED = "11,U,101,1,2001-04-01,2024-04-30"
HISTORIC = "21,U,99999,8,450000,250000,,,2001-04-01,"


def houses() -> tuple[str, ...]:
    return tuple(f"21,I,{n},1,450000,250000,,,2001-04-01," for n in range(1, MANY + 1))


def addresses(change: str, street: int, status: int = 1, uprn: int | None = None) -> tuple[str, ...]:
    """A change of an address of each house, or of as many addresses of one property."""
    return tuple(f"24,{change},L{n},{uprn or n},ENG,{status},{street},,,,,,7,,,,,2001-04-01," for n in range(1, MANY + 1))


@dataclass(frozen=True)
class Leaving:
    """Files in which many addresses come and leave, what asks for what they left, and what becomes of each file."""

    name: str
    asking: str
    files: tuple[tuple[str, ...], ...]
    outcomes: tuple[bytes, ...]

    def streams(self) -> tuple[bytes, bytes]:
        """The requests, and those with files in which nobody comes or leaves in place of these."""
        return self._stream(self.files), self._stream(((),) * len(self.files))

    def _stream(self, files: tuple[tuple[str, ...], ...]) -> bytes:
        asking = ((self.asking,) * CHANGES,) * FILES
        them = ((*STREETS, HOUSE), houses(), *files, *asking)
        return b"".join(sent(1001, volume, *rows) for volume, rows in enumerate(them, 1))

    def replies(self) -> tuple[bytes, bytes]:
        """What has to be replied to both."""
        applied = (b'{"outcome":"applied"}',)
        return reply_to(applied * 2 + self.outcomes + applied * FILES), reply_to(applied * (2 + len(self.files) + FILES))


def reply_to(outcomes: tuple[bytes, ...]) -> bytes:
    head = b"HTTP/1.1 201 Created\r\nContent-Type: application/json\r\nContent-Length: %d\r\n\r\n%s\n"
    return b"".join(head % (len(outcome) + 1, outcome) for outcome in outcomes)


APPLIED = b'{"outcome":"applied"}'
SECOND = b'{"outcome":"rejected","record":2,"rule":30}'
LACKING = b'{"outcome":"rejected","record":%d,"rule":31}' % (MANY + 2)
NO_HOUSE = (f"24,I,M1,{MANY + 1},ENG,1,101,,,,,,7,,,,,2001-04-01,",)

LEAVINGS = (
    Leaving("a street that addresses left", CLOSED, (addresses("I", 101), addresses("U", 102)), (APPLIED,) * 2),
    Leaving("a street that addresses left in the volume in which they came", CLOSED, (addresses("I", 101) + addresses("U", 102),), (APPLIED,)),
    Leaving("a street whose addresses are gone", CLOSED, (addresses("I", 101), addresses("D", 101)), (APPLIED,) * 2),
    Leaving("a street whose addresses aren't approved any more", CLOSED, (addresses("I", 101), addresses("U", 101, status=8)), (APPLIED,) * 2),
    Leaving("a street whose addresses were undone", CLOSED, (addresses("I", 101) + NO_HOUSE,), (LACKING,)),
    Leaving(
        "a property that addresses left in the volume in which they came",
        HISTORIC,
        (addresses("I", 101, uprn=99_999) + addresses("D", 101, uprn=99_999),),
        (APPLIED,),
    ),
    Leaving("a property whose addresses were undone", HISTORIC, (addresses("I", 101, uprn=99_999),), (SECOND,)),
)


def ran(hubs: Hubs, folder: Path, requests: bytes) -> measure.Ran:
    """What a hub over the keeper in memory says to these requests, and what it costs."""
    with tempfile.NamedTemporaryFile(dir=folder) as given:
        given.write(requests)
        given.flush()
        words = ["timeout", f"{DEADLINE:g}", hubs.bench, "play", hubs.register]
        return measure.run(["sh", "-c", 'exec "$@" < "$0"', given.name, *map(str, words)], folder)


def slower(calm: float, busy: float) -> str | None:
    """What is wrong with these processor seconds."""
    return None if busy <= TIMES * calm + MARGIN else f"takes {busy:.1f} processor seconds, and {calm:.1f} where none had come"


def fault_of(hubs: Hubs, folder: Path, leaving: Leaving) -> str | None:
    """What is wrong with the answers or the time."""
    spent = []
    for requests, replies in zip(leaving.streams(), leaving.replies(), strict=True):
        it = ran(hubs, folder, requests)
        fault = f"exit status {it.status}" if it.status else difference(replies, it.text.encode())
        if fault:
            return fault
        spent.append(it.seconds)
    busy, calm = spent
    return slower(calm, busy)


def run_all(room: Path) -> Iterator[tuple[str, str | None]]:
    """Each that was left, and what is wrong."""
    with hubs_of(room) as (hubs, folder):
        yield from ((it.name, fault_of(hubs, folder, it)) for it in LEAVINGS)
