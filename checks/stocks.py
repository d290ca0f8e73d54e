"""Stores of few rows and of many that have the same items among others, and requests that touch few keys of them."""

from collections.abc import Iterator
from dataclasses import dataclass

from checks.history import file_of
from checks.stores import get, post

# More numbers than the sample register has.
REGISTER = "".join(
    f'[[custodian]]\ncode = {code}\nname = "{name}"\nuprn = [[{first}, {first + 99_998}]]\nusrn = [[{first}, {first + 99_998}]]\n\n'
    for code, name, first in ((1001, "Upper County", 1), (1002, "Lower District", 100_001), (1003, "Bay District", 200_001))
)

Asked = tuple[bytes, bytes]  # a request, and what stands in the reply to it

NEW = "2001-04-01,"
ADDRESS = ",,,,,,7,,,,,2001-04-01,"


@dataclass(frozen=True)
class Size:
    """How many addresses of others each custodian has, and in how many volumes the keys that are asked for were updated: an even number."""

    others: int
    past: int

    def last(self) -> int:
        """The last volume of custodian 1001, and of the two others."""
        return self.past + 2


FEW, MANY = Size(4, 4), Size(1000, 200)


def sent(code: int, volume: int, *rows: str, bases: tuple[str, ...] = ()) -> bytes:
    """The submission of these rows, which are written without their order, as 11,I,101,1,2001-04-01,"""
    changes = (f"{row[:5]}{order},{row[5:]}" for order, row in enumerate(rows, 1))
    return post(code, volume, file_of(code, volume, *bases, *changes))


def address(n: int) -> Iterator[str]:
    """The insertion of an address with a street of its own."""
    yield from (f"11,I,{n},1,{NEW}", f"15,I,{n},ENG,High Street,,Arden,Arden", f"21,I,{n},1,450000,250000,,AR1 2DN,{NEW}")
    yield from (f"23,I,X{n},{n},TAX01,A/17,{NEW}", f"24,I,L{n},{n},ENG,1,{n}{ADDRESS}")


def others(middle: int, count: int) -> list[str]:
    """So many addresses, whose keys are as many below those in the middle as above them."""
    numbers = (middle + side * 10 * k for k in range(1, count // 2 + 1) for side in (-1, 1))
    return [row for n in numbers for row in address(n)]


# What is asked for: an address with a part, and a street with a property that have no approved address. L50002 is approved in every second volume.
ASKED = (
    *address(50_000),
    "15,I,50000,CYM,Stryd Fawr,,Arden,Arden",
    f"21,I,50001,1,450000,250000,50000,,{NEW}",
    f"11,I,50002,1,{NEW}",
    "15,I,50002,ENG,Low Street,,Arden,Arden",
    f"21,I,50002,1,450000,250000,,,{NEW}",
    f"24,I,L50002,50002,ENG,3,50002{ADDRESS}",
)


def updated(row: str, turn: int) -> str:
    """The insertion of an item as an update, which alters nothing but whether L50002 is approved."""
    last = f"24,U,L50002,50002,ENG,{1 if turn % 2 else 3},50002{ADDRESS}"
    return last if row.startswith("24,I,L50002") else row.replace(",I,", ",U,", 1)


def history(size: Size) -> bytes:
    """What is received of a store: the asked items come first, and are updated last; a file of each custodian waits."""
    first, last = sent(1001, 1, *ASKED), size.last()
    there = [sent(code, 1, *address(middle)) for code, middle in ((1002, 150_000), (1003, 250_000))]
    more = [sent(code, 2, *others(middle, size.others)) for code, middle in ((1001, 50_000), (1002, 150_000), (1003, 250_000))]
    own = [sent(1001, volume, *(updated(row, volume) for row in ASKED)) for volume in range(3, last + 1)]
    theirs = [
        sent(code, volume, *(row.replace(",I,", ",U,", 1) for row in address(middle)))
        for volume in range(3, last + 1)
        for code, middle in ((1002, 150_000), (1003, 250_000))
    ]
    waiting = [sent(code, last + 9) for code in (1001, 1002, 1003)]
    return b"".join((first, *there, *more, *own, *theirs, *waiting))


APPLIED = b'{"outcome":"applied"}'
QUESTIONS = {
    "the outcome of an early volume": ("/custodians/1001/volumes/1", b"applied"),
    "the outcome of the last volume": ("/custodians/1001/volumes/{last}", b"applied"),
    "the outcome of a volume that waits": ("/custodians/1001/volumes/{waiting}", b"held"),
    "the outcome of a volume that isn't there": ("/custodians/1001/volumes/900000", b'{"refusal":17}'),
    "a standing": ("/custodians/1001", b'"held":1'),
    "another custodian's standing": ("/custodians/1003", b'"held":1'),
    "a property with an address": ("/uprn/50000", b"7 High Street"),
    "a property without one": ("/uprn/50002", b'"line":null'),
    "another custodian's property": ("/uprn/150000", b"7 High Street"),
    "a number of no property": ("/uprn/50009", b'{"refusal":17}'),
}
HISTORIC = f"21,U,50000,8,450000,250000,,AR1 2DN,{NEW}"
FILES = {
    "no change": ((), APPLIED),
    "a street inserted": ((f"11,I,50003,1,{NEW}",), APPLIED),
    "a street updated": ((f"11,U,50000,2,{NEW}",), APPLIED),
    "a street closed": (("11,U,50002,1,2001-04-01,2024-04-30",), APPLIED),
    "a street closed under an address": (("11,U,50000,1,2001-04-01,2024-04-30",), b'"rule":39}'),
    "a street deleted": ((f"11,D,50002,1,{NEW}",), b'"rule":23}'),
    "a descriptor inserted": (("15,I,50002,CYM,Stryd,,Arden,Arden",), APPLIED),
    "a descriptor updated": (("15,U,50000,ENG,Higher Street,,Arden,Arden",), APPLIED),
    "a descriptor deleted": (("15,D,50000,CYM,Stryd Fawr,,Arden,Arden",), APPLIED),
    "a descriptor deleted under an address": (("15,D,50000,ENG,High Street,,Arden,Arden",), b'"rule":34}'),
    "a BLPU inserted": ((f"21,I,50003,1,450000,250000,,,{NEW}",), APPLIED),
    "a part inserted": ((f"21,I,50003,1,450000,250000,50000,,{NEW}",), APPLIED),
    "a BLPU without parts updated": ((f"21,U,50002,6,450000,250000,,,{NEW}",), APPLIED),
    "a BLPU with a part updated": ((f"21,U,50000,6,450000,250000,,AR1 2DN,{NEW}",), APPLIED),
    "a part updated": ((f"21,U,50001,8,450000,250000,50002,,{NEW}",), APPLIED),
    "a BLPU made a part of its part": ((f"21,U,50000,1,450000,250000,50001,AR1 2DN,{NEW}",), b'"rule":36}'),
    "a BLPU made historical": ((f"21,U,50002,8,450000,250000,,,{NEW}",), APPLIED),
    "a BLPU made historical under an address": ((HISTORIC,), b'"rule":37}'),
    "a cross reference inserted": ((f"23,I,Y50000,50000,TAX01,A/18,{NEW}",), APPLIED),
    "a cross reference updated": ((f"23,U,X50000,50000,TAX01,A/18,{NEW}",), APPLIED),
    "a cross reference deleted": ((f"23,D,X50000,50000,TAX01,A/17,{NEW}",), APPLIED),
    "an LPI inserted": ((f"24,I,M50002,50002,ENG,1,50000{ADDRESS}",), APPLIED),
    "an LPI updated": ((f"24,U,L50000,50000,ENG,1,50002{ADDRESS}",), APPLIED),
    "an LPI deleted": ((f"24,D,L50000,50000,ENG,1,50000{ADDRESS}",), APPLIED),
    "a second LPI": ((f"24,I,M50000,50000,ENG,1,50000{ADDRESS}",), b'"rule":30}'),
    "an LPI that isn't there": ((f"24,U,M50000,50000,ENG,1,50000{ADDRESS}",), b'"rule":22}'),
    "a key that was used": ((f"11,I,50000,1,{NEW}",), b'"rule":21}'),
}


def cases(size: Size) -> dict[str, Asked]:
    """Requests that touch few keys, and what stands in the reply to each."""
    last, new = size.last(), size.last() + 1
    asked = {name: (get(target.format(last=last, waiting=last + 9)), told) for name, (target, told) in QUESTIONS.items()}
    files = {f"a file: {name}": (sent(1001, new, *rows), told) for name, (rows, told) in FILES.items()}
    beside = sent(1001, new, f"24,I,M50002,50002,ENG,1,250000{ADDRESS}", bases=("90,1003,1",))
    return asked | files | {
        "a file: an LPI on a neighbour's street": (beside, APPLIED),
        "a file that is none": (post(1001, new, b"x"), b'"rule":2}'),
        "a file that waits": (sent(1001, new + 1), b'"outcome":"held"'),
        "a repeat": (sent(1001, 1, *ASKED), APPLIED),
        "a volume that is taken": (sent(1001, 1), b'"outcome":"taken"'),
    }
