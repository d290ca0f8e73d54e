"""How often a hub asks its keeper, which no reply tells: over a keeper in memory that counts.

What is asked for a request is what is asked for a stream that ends with it, less what is asked for the stream up to there.
"""

import re
from collections.abc import Iterator
from dataclasses import dataclass, replace
from functools import cache
from pathlib import Path

from checks.conversations import difference
from checks.large import APPLIED, BLPU, MOST_CHANGES, Turn, chain, file_of, inserted, part, rejected, reply, told
from checks.stores import Hubs, get, hubs_of, post, register_of

CALLS = ("current", "property_of", "reached", "received")  # in the order in which `gaz_bench counted` tells them
COUNTS = re.compile(r"(\d+) (\d+) (\d+) (\d+)\n")
ITEMS, PROPERTIES, STANDING = ("current",), ("property_of",), ("reached", "received")

CUSTODIANS = 400  # as many as a register may have
HOUSES = 100


@dataclass(frozen=True)
class Step:
    """A request with the reply to it, and how often the keeper may be asked for it, at least and at most; none where that isn't counted."""

    turn: Turn
    wanted: tuple[int, int] | None = None


@dataclass(frozen=True)
class Case:
    """Requests to a hub of the sample register, or of one of so many custodians, and which calls of its keeper are counted."""

    name: str
    calls: tuple[str, ...]
    steps: tuple[Step, ...]
    custodians: int | None = None


def first(code: int, lines: list[str], members: str = APPLIED, bases: tuple[str, ...] = ()) -> Turn:
    """The first file of a custodian."""
    return told(post(code, 1, file_of(code, 1, lines, bases)), members)


# Items, each a row behind the identifier of its kind.
STREET = "11,101,1,2001-04-01,"
CLOSED = "11,101,1,2001-04-01,2020-01-01"
NAME = "15,101,ENG,High Street,,,Arden"
BLOCK = "21,11,1,1,1,,,2001-04-01,"
FLAT = "21,12,1,1,1,11,,2001-04-01,"
XREF = "23,X1,11,CTAX,7,2001-04-01,"
PLANNED = "24,L1,11,ENG,6,101,,,,,,1,,,,,2001-04-01,"
ADDRESS = "24,L2,11,ENG,1,101,,,,,,2,,,,,2001-04-01,"
SECOND = "24,L3,11,ENG,1,101,,,,,,3,,,,,2001-04-01,"
NEXT = "24,L4,12,ENG,1,101,,,,,,4,,,,,2001-04-01,"
WELSH = "24,L5,12,CYM,1,101,,,,,,4,,,,,2001-04-01,"


def changes(action: str, items: tuple[str, ...]) -> list[str]:
    """One change of each of these items, all by one action."""
    parted = [it.partition(",") for it in items]
    return [f"{kind},{action},{order},{row}" for order, (kind, _, row) in enumerate(parted, 1)]


@dataclass(frozen=True)
class Judged:
    """What stands in a view, what a file does to each of its items, how often an item is looked up, and the record and the rule that the file is rejected for."""

    name: str
    view: tuple[str, ...]
    action: str
    items: tuple[str, ...]
    looked_up: int
    fault: tuple[int, int] | None = None

    def case(self) -> Case:
        outcome = rejected(*self.fault) if self.fault else APPLIED
        turn = told(post(1001, 2, file_of(1001, 2, changes(self.action, self.items))), outcome)
        steps = Step(first(1001, changes("I", self.view))), Step(turn, (self.looked_up, self.looked_up))
        return Case(f"a file of {self.name}", ITEMS, steps)


# An insertion by itself looks nothing up; an update and a deletion look up once what they change. Behind all changes each key
# is looked up once, for the end rules, and beside it what these ask for.
JUDGED = (
    Judged("a street", (), "I", (STREET,), 1),
    Judged("a street that shuts under an address", (STREET, NAME, BLOCK, ADDRESS), "U", (CLOSED,), 2, (2, 39)),
    # its street
    Judged("a name", (STREET,), "I", (NAME,), 2),
    Judged("a name of no street", (), "I", (NAME,), 2, (2, 38)),
    Judged("a property", (), "I", (BLOCK,), 1),
    # each change looks up what it changes, and the end rules the property once
    Judged("a property that changes a hundred times", (BLOCK,), "U", (BLOCK,) * 100, 100 + 1),
    # its parent, whether it is there and whether it has one
    Judged("a part", (BLOCK,), "I", (FLAT,), 3),
    Judged("a part of nothing", (), "I", (FLAT,), 3, (2, 35)),
    # its property
    Judged("a cross reference", (BLOCK,), "I", (XREF,), 2),
    Judged("a cross reference to nothing", (), "I", (XREF,), 2, (2, 31)),
    Judged("a planned address", (BLOCK,), "I", (PLANNED,), 2),
    # its property, its street, and the name of that where it is there
    Judged("an address", (STREET, NAME, BLOCK), "I", (ADDRESS,), 4),
    Judged("a second address", (STREET, NAME, BLOCK, SECOND), "I", (ADDRESS,), 4, (2, 30)),
    Judged("an address on no street", (BLOCK,), "I", (ADDRESS,), 3, (2, 32)),
    # its property alone, on the street of the one before and in its language; else all of it
    Judged("two addresses on a street", (STREET, NAME, BLOCK, FLAT), "I", (ADDRESS, NEXT), 4 + 2),
    Judged("addresses in two languages", (STREET, NAME, BLOCK, FLAT), "I", (ADDRESS, WELSH), 4 + 4, (3, 34)),
    # its street
    Judged("a name that goes from under an address", (STREET, NAME, BLOCK, ADDRESS), "D", (NAME,), 1 + 2, (2, 34)),
    Judged("an address that goes", (STREET, NAME, BLOCK, ADDRESS), "D", (ADDRESS,), 1 + 1),
)


def chained(name: str, file: bytes) -> Case:
    """A file of as many properties as there may be, each a part of the one with the number before it: each is looked up once, and its parent twice, as of one part."""
    return Case(f"a file of {name}", ITEMS, (Step(told(post(1001, 1, file), APPLIED), (MOST_CHANGES, 3 * MOST_CHANGES)),))


CHAINS = (
    chained("a chain forwards", file_of(1001, 1, [part(uprn, uprn) for uprn in range(1, MOST_CHANGES + 1)])),
    chained("a chain backwards", chain(1, MOST_CHANGES)),
)


ROADS = inserted("11", ["150,1,1990-01-01,", "151,1,1990-01-01,"])
ROADS += inserted("15", ["150,ENG,County Road,,Arden,Arden", "151,ENG,Town Road,,Arden,Arden"], len(ROADS))
SHUT = ["11,U,1,150,1,1990-01-01,2024-04-30"]


def houses(code: int, volume: int, uprn: int, street: int, bases: tuple[str, ...] = ()) -> Turn:
    """A hundred properties from a number on, each with an approved address on this street."""
    numbers = range(uprn, uprn + HOUSES)
    them = inserted("21", [f"{n},{BLPU}" for n in numbers])
    addresses = inserted("24", [f"A{n},{n},ENG,1,{street},,,,,,7,,,,,2020-01-01," for n in numbers], HOUSES)
    return told(post(code, volume, file_of(code, volume, them + addresses, bases)), APPLIED)


def listed(neighbours: dict[int, int], own: tuple[Turn, ...], asked: int) -> Case:
    """A street of 1001 shuts, behind files of its own, under a hundred addresses of each of these neighbours, from these numbers on.
    So often an item is looked up for the list."""
    shut = 2 + len(own)
    rows = ",".join(f'{{"custodian":{code},"lpi":"A{n}","usrn":150}}' for code, uprn in neighbours.items() for n in range(uprn, uprn + HOUSES))
    turns = (
        first(1001, ROADS),
        *own,
        *(houses(code, 1, uprn, 150, ("90,1001,1",)) for code, uprn in neighbours.items()),
        told(post(1001, shut, file_of(1001, shut, SHUT)), APPLIED),
    )
    closed = Step(told(get("/closed"), f'"closed":[{rows}]', "200 OK"), (asked, asked))
    name = f"a street that shut under addresses of {len(neighbours)}"
    return Case(f"{name}, beside its owner's" if own else name, ITEMS, (*map(Step, turns), closed))


# Each custodian asks once for a street of its addresses, in its own last view, and where it isn't there once in its owner's. Whose
# street it is finds it in its own.
LISTED = (
    listed({1002: 100_000}, (), 2),
    listed({1002: 100_000, 1003: 200_000}, (), 2 + 2),
    listed({1002: 100_000, 1003: 200_000}, (houses(1001, 2, 1_000, 151),), 2 + 2 + 1),
)

NOBODY = reply("404 Not Found", b'{"refusal":17}\n')
STANDS = reply("200 OK", b'{"custodian":1002,"line":null,"status":1,"uprn":100001}\n')

# Numbers, what is told of each, and how many custodians are asked for it: the one in whose block it is, and nobody where it is in none.
NUMBERS = ((42, NOBODY, 1), (100_001, STANDS, 1), (200_000, NOBODY, 1), (300_000, NOBODY, 0))


def look_ups() -> Iterator[Case]:
    there = Step(first(1002, inserted("21", [f"100001,{BLPU}"])))
    for uprn, found, asked in NUMBERS:
        yield Case(f"a look-up of {uprn}", PROPERTIES, (there, Step(Turn(get(f"/uprn/{uprn}"), found), (asked, asked))))


def wants(code: int, volume: int = 1) -> str:
    return f'"wants":{{"custodian":{code},"volume":{volume}}}'


def waiting(code: int, *others: int) -> Turn:
    """The first file of a custodian, which rests on the first of these and waits for that of the first."""
    return first(code, [], f'"outcome":"held",{wants(others[0])}', tuple(f"90,{other},1" for other in others))


def standing(code: int, judged: int, held: int, wanted: str) -> Turn:
    return told(get(f"/custodians/{code}"), f'"custodian":{code},"held":{held},"judged":{judged},{wanted}', "200 OK")


def judged(code: int) -> Turn:
    """One file of a custodian is judged, and none is held."""
    return standing(code, 1, 0, wants(code, 2))


def none_in_vain() -> Case:
    """The first question looks at everyone, how far it is judged and whether its next is there, and then how far the one is judged that is
    asked about. What each waits for is remembered, so that the second asks that alone. A file that is judged has at most twelve looks."""
    steps = (
        Step(standing(1, 0, 0, wants(1)), (CUSTODIANS, 2 * CUSTODIANS + 1)),
        Step(standing(2, 0, 0, wants(2)), (1, 1)),
        Step(first(7, []), (0, 12)),
    )
    return Case("nobody is looked at in vain", STANDING, steps, CUSTODIANS)


def who_waits_once() -> Case:
    """Three wait for one: at most twelve looks for each of the four. Then a custodian waits for two others, one behind the other."""
    three = (10, 200, 400)
    behind = (*map(judged, three), waiting(9, 11, 12), first(11, []), standing(9, 0, 1, wants(12)), first(12, []), judged(9))
    steps = (*(Step(waiting(code, 7)) for code in three), Step(first(7, []), (0, 48)), *map(Step, behind))
    return Case("who waits is looked at once", STANDING, steps, CUSTODIANS)


def all_wait_for_one() -> Case:
    """All but the last wait for the last: at most six looks for each."""
    others = range(1, CUSTODIANS)
    steps = (*(Step(waiting(code, CUSTODIANS)) for code in others), Step(first(CUSTODIANS, []), (CUSTODIANS, 6 * CUSTODIANS)), *map(Step, map(judged, others)))
    return Case("399 wait for one", STANDING, steps, CUSTODIANS)


def cases() -> list[Case]:
    return [*(it.case() for it in JUDGED), *CHAINS, *LISTED, *look_ups(), none_in_vain(), who_waits_once(), all_wait_for_one()]


def asked(hubs: Hubs, case: Case, length: int) -> tuple[int, str | None]:
    """How often the keeper is asked for the first so many requests, and what is wrong with how they are answered."""
    turns = [step.turn for step in case.steps[:length]]
    answered = hubs.counted(b"".join(it.request for it in turns))
    fault, numbers = difference(b"".join(it.reply for it in turns), answered.replies), COUNTS.fullmatch(answered.said)
    if fault or answered.status or numbers is None:
        return 0, fault or replace(answered, said=answered.said or "no counts").fault()
    counts = dict(zip(CALLS, map(int, numbers.groups())))
    return sum(counts[it] for it in case.calls), None


def fault_of(hubs: Hubs, case: Case) -> str | None:
    """What is wrong with how the requests are answered, or with how often the keeper is asked for one."""
    ran = cache(lambda length: asked(hubs, case, length))
    _, fault = ran(len(case.steps))
    for number, step in enumerate(case.steps, 1):
        if fault or step.wanted is None:
            continue
        (before, fault), (behind, other) = ran(number - 1), ran(number)
        fault, (least, most) = fault or other, step.wanted
        if not fault and not least <= behind - before <= most:
            fault = f"request {number} asks {behind - before} times {' and '.join(case.calls)}, wanted {least} to {most}"
    return fault


def run_all(room: Path) -> Iterator[tuple[str, str | None]]:
    """Each case, and what is wrong, by the program that is built in a room."""
    with hubs_of(room) as (hubs, folder):
        many = folder / "register400.toml"
        many.write_text(register_of(CUSTODIANS))
        for case in cases():
            yield case.name, fault_of(replace(hubs, register=many) if case.custodians else hubs, case)
