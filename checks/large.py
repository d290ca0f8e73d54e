"""Conversations that are too large for files: as many changes and bytes as a file may have, long chains of parents, long lists, a property that passes as often as one may."""

import hashlib
from collections.abc import Iterator
from dataclasses import dataclass
from pathlib import Path

from checks.conversations import LARGEST_BODY, Conversation, run_whole
from checks.stores import get, post

MOST_CHANGES = 5000
LAST_HOP = 9999

APPLIED = '"outcome":"applied"'
BLPU = "1,450000,250000,,,2020-01-01,"  # of a property, what stands behind its number

# What stands behind 5,000 changes that each break rule 22, and the record and the rule at fault: the limit is asked before all else of a change.
BEHIND_THE_LAST = (
    ("11,X", 5002, 9),
    ("91,I,1,500,1002,1", 5002, 5),
    ("92,I,1,500,1002,1", 5002, 5),
    ("90,1002,1", 5002, 4),
    ("99,5000\n11,X", 5003, 8),
    ("99,4999", 5002, 8),
    ("99,5000", 2, 22),
)


@dataclass(frozen=True)
class Turn:
    """A request, and the reply to it."""

    request: bytes
    reply: bytes


def conversation(name: str, turns: list[Turn]) -> Conversation:
    return Conversation(name, b"".join(turn.request for turn in turns), b"".join(turn.reply for turn in turns))


def reply(status: str, body: bytes, kind: str = "application/json") -> bytes:
    return f"HTTP/1.1 {status}\r\nContent-Type: {kind}\r\nContent-Length: {len(body)}\r\n\r\n".encode() + body


def told(request: bytes, members: str, status: str = "201 Created") -> Turn:
    """A request that is answered by an object of these members."""
    return Turn(request, reply(status, f"{{{members}}}\n".encode()))


def rejected(record: int, rule: int) -> str:
    return f'"outcome":"rejected","record":{record},"rule":{rule}'


def extracted(code: int, volume: int, records: list[str]) -> Turn:
    """A request for the view after a volume, which has these records."""
    text = text_of([f"10,E,{code},{volume}", *records, f"99,{len(records)}"])
    return Turn(get(f"/extract/{code}/{volume}"), reply("200 OK", text, "text/csv"))


def text_of(lines: list[str]) -> bytes:
    return "".join(f"{line}\n" for line in lines).encode()


def file_of(code: int, volume: int, changes: list[str], bases: tuple[str, ...] = (), profile: int = 1) -> bytes:
    return text_of([f"10,{profile},{code},{volume},2024-01-02", *bases, *changes, f"99,{len(changes)}"])


def part(order: int, uprn: int) -> str:
    """A property that is a part of the one with the number before it, and 1 of none."""
    return f"21,I,{order},{uprn},1,1,1,{uprn - 1 or ''},,2020-01-01,"


def chain(volume: int, last: int, count: int = MOST_CHANGES) -> bytes:
    """A file of so many properties up to this one, the last first: each is a part of the next."""
    return file_of(1001, volume, [part(order, last + 1 - order) for order in range(1, count + 1)])


def largest_file() -> bytes:
    """A file of as many changes as there may be, which empty lines make as long as a file may be."""
    return chain(1, MOST_CHANGES).ljust(LARGEST_BODY, b"\n")


def most_changes() -> Conversation:
    """A file of as many changes as there may be, and one of one more."""
    longer = chain(2, 2 * MOST_CHANGES + 1, MOST_CHANGES + 1)
    turns = [told(post(1001, 1, chain(1, MOST_CHANGES)), APPLIED), told(post(1001, 2, longer), rejected(5002, 9))]
    return conversation("5,000 changes are taken, and 5,001 are not", turns)


def long_chain() -> Conversation:
    """The last file makes the first property of all a part of the last."""
    closing = file_of(1001, 3, [f"21,U,1,1,1,1,1,{2 * MOST_CHANGES},,2020-01-01,"])
    files = [chain(1, MOST_CHANGES), chain(2, 2 * MOST_CHANGES), closing]
    outcomes = [APPLIED, APPLIED, rejected(2, 36)]
    turns = [told(post(1001, volume, file), outcome) for volume, (file, outcome) in enumerate(zip(files, outcomes), 1)]
    return conversation("a chain of 10,000 parents is no ring until it closes", turns)


def limit_first() -> Conversation:
    taken = [f"15,D,{order},101,ENG,High Street,,Arden,Arden" for order in range(1, MOST_CHANGES + 1)]
    turns = [
        told(post(1001, volume, text_of([f"10,1,1001,{volume},2024-01-02", *taken, behind])), rejected(record, rule))
        for volume, (behind, record, rule) in enumerate(BEHIND_THE_LAST, 1)
    ]
    return conversation("the limit of changes is asked first of a change", turns)


def largest_good_file() -> Conversation:
    file, target = largest_file(), "/custodians/1001/volumes/1"
    digest = f'"digest":"{hashlib.sha256(file).hexdigest()}",'
    turns = [
        told(post(1001, 1, file), APPLIED),
        told(post(1001, 1, file), APPLIED, "200 OK"),
        told(post(1001, 1, b""), digest + '"outcome":"taken"', "409 Conflict"),
        told(get(target), digest + APPLIED, "200 OK"),
        extracted(1001, 1, [part(uprn, uprn) for uprn in range(1, MOST_CHANGES + 1)]),
    ]
    return conversation("a good file of 1,048,576 bytes is applied and told", turns)


def closed_street() -> Conversation:
    """All addresses of a district are on one street of its neighbour, which closes: a list and an extract of many pages."""
    numbers = range(1000, 1000 + MOST_CHANGES)
    houses = [f"10{n},1,1,1,,,2020-01-01," for n in numbers]
    addresses = [f"A{n},10{n},ENG,1,150,,,,,,7,,,,,2020-01-01," for n in numbers]
    road = ["11,I,1,150,1,1990-01-01,", "15,I,2,150,ENG,County Road,,Arden,Arden"]
    listed = ",".join(f'{{"custodian":1002,"lpi":"A{n}","usrn":150}}' for n in numbers)
    turns = [
        told(post(1001, 1, file_of(1001, 1, road)), APPLIED),
        told(post(1002, 1, file_of(1002, 1, inserted("21", houses))), APPLIED),
        told(post(1002, 2, file_of(1002, 2, inserted("24", addresses), ("90,1001,1",))), APPLIED),
        told(get("/closed"), '"closed":[]', "200 OK"),
        told(post(1001, 2, file_of(1001, 2, ["11,U,1,150,1,1990-01-01,2024-04-30"])), APPLIED),
        told(get("/closed"), f'"closed":[{listed}]', "200 OK"),
        extracted(1002, 2, [*inserted("21", houses), *inserted("24", addresses, MOST_CHANGES)]),
    ]
    return conversation("5,000 addresses on a street that closed are listed", turns)


def most_releases() -> Conversation:
    """A county hands over as many properties as a file may name, and a district takes them."""
    numbers = range(1, MOST_CHANGES + 1)
    releases = [f"91,I,{n},{n},1002,1" for n in numbers]
    adoptions = [f"92,I,{n},{n},1001,1,{BLPU}" for n in numbers]
    behind = ("91,I,5001,5001,1002,1", f"92,I,5001,5001,1002,1,{BLPU}")
    turns = [
        *(told(post(1001, k, file_of(1001, k, [*releases, one], profile=2)), rejected(5002, 9)) for k, one in enumerate(behind, 1)),
        told(post(1001, 3, file_of(1001, 3, releases, profile=2)), APPLIED),
        told(post(1002, 1, file_of(1002, 1, adoptions, ("90,1001,3",), 2)), APPLIED),
        told(post(1002, 2, file_of(1002, 2, adoptions, ("90,1001,3",), 2)), rejected(3, 42)),
        extracted(1001, 3, []),
        extracted(1002, 1, inserted("21", [f"{n},{BLPU}" for n in numbers])),
    ]
    return conversation("5,000 properties are handed over by a file each", turns)


def every_hop() -> Conversation:
    """A property goes to and fro between two custodians until its hop is the last that there is. Each file adopts it and releases it again."""

    def turn(k: int) -> Turn:
        code, other, volume = 1002 - k % 2, 1001 + k % 2, (k + 1) // 2
        bases = (f"90,{other},{k // 2}",) if k > 1 else ()
        adoptions = [f"92,I,1,500,{other},{k - 1},{BLPU}"] if k > 1 else []
        releases = [f"91,I,{len(adoptions) + 1},500,{other},{k}"] if k <= LAST_HOP else []
        return told(post(code, volume, file_of(code, volume, adoptions + releases, bases, 2)), APPLIED)

    further = ((LAST_HOP, 40), (LAST_HOP + 1, 6))
    files = [file_of(1002, volume, [f"91,I,1,500,1001,{hop}"], profile=2) for volume, (hop, _) in enumerate(further, 5001)]
    turns = [
        *map(turn, range(1, LAST_HOP + 2)),
        *(told(post(1002, volume, file), rejected(2, rule)) for volume, (file, (_, rule)) in enumerate(zip(files, further), 5001)),
        told(get("/uprn/500"), '"custodian":1002,"line":null,"status":1,"uprn":500', "200 OK"),
    ]
    return conversation("a property passes 9,999 times, and then no more", turns)


def inserted(kind: str, rows: list[str], before: int = 0) -> list[str]:
    """Insertions of these rows, behind so many other records."""
    return [f"{kind},I,{order},{row}" for order, row in enumerate(rows, before + 1)]


def cases() -> list[Conversation]:
    largest_bad = conversation("a record of 1,048,576 bytes is no header", [told(post(1001, 1, b"a" * LARGEST_BODY), rejected(1, 2))])
    return [most_changes(), long_chain(), limit_first(), largest_good_file(), largest_bad, closed_street(), most_releases(), every_hop()]


def run_all(program: Path) -> Iterator[tuple[str, str | None]]:
    """Each conversation, and what is wrong with the answers."""
    return ((one.name, run_whole(program, one)) for one in cases())
