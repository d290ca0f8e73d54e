"""The statements that volumes of 1,000 changes need, alone: 300 properties come, each with an address and a cross reference, and 100 are changed that came with the volume before.

Each file is received, each key that it touches asked for once, and each address's property for its addresses; then rows are written.
"""
from statements import RECEIVEDS, VERSIONS, by_library, tables, within

PROPERTY, REFERENCE, ADDRESS = 21, 23, 24
NEW, CHANGED, NEVER = 300, 100, 1_000_000
BYTES = b"A" * 50_000
BODIES = {
    PROPERTY: "100042,1,450000,250000,,AR1 2DN,2001-04-01,",
    REFERENCE: "X100042,100042,TAX01,A/17,2001-04-01,",
    ADDRESS: "L100042,100042,ENG,1,200,,,,,Flat 2,12,A,14,,,2001-04-01,",
}


class Volume:
    """The one of this turn: three custodians send one each before the next."""

    def __init__(self, turn):
        place, round_ = turn % 3, turn // 3
        self.cust, self.number = 1001 + place, round_ + 1
        first = 100_000 * place + NEW * round_
        self.new = range(first, first + NEW)
        self.changed = range(first - NEW, first - NEW + CHANGED) if round_ else ()

    def receiving(self):
        return within([(RECEIVEDS["receive"], (self.cust, self.number, BYTES))])

    def newest(self, kind, key):
        return VERSIONS["newest"], (self.cust, kind, key)

    def asking(self):
        for n in self.new:
            yield self.newest(PROPERTY, key_of(PROPERTY, n))
            yield self.newest(REFERENCE, key_of(REFERENCE, n))
            yield self.newest(ADDRESS, key_of(ADDRESS, n))
            yield VERSIONS["approved_of"], (self.cust, n)
        for n in self.changed:
            yield self.newest(PROPERTY, key_of(PROPERTY, n))

    def added(self, kind, n):
        blpu, address = (0 if kind == PROPERTY else n), int(kind == ADDRESS)
        columns = blpu, 200 * address, address, address, self.number, NEVER
        return VERSIONS["insert"], (self.cust, kind, key_of(kind, n), *columns, BODIES[kind], 0)

    def written(self):
        """The rows, in the order of their keys."""
        for n in self.changed:
            yield VERSIONS["close"], (self.cust, PROPERTY, key_of(PROPERTY, n), self.number - 1, self.number)
            yield self.added(PROPERTY, n)
        for kind in (PROPERTY, REFERENCE, ADDRESS):
            yield from (self.added(kind, n) for n in self.new)
        yield RECEIVEDS["apply"], (self.cust, self.number)


def key_of(kind, n):
    return f"{n:012}" if kind == PROPERTY else f"{'X' if kind == REFERENCE else 'L'}{n}"


def groups_of(volumes):
    yield tables()
    for it in map(Volume, range(volumes)):
        yield "receive", it.receiving()
        yield "ask", it.asking()
        yield "write", within(it.written())


def seconds_alone(path, volumes, pages):
    """Seconds of the statements of so many volumes, by the library, over a new database in a file."""
    told = by_library(path, groups_of(volumes), pages)
    return sum(told[name][1] for name in ("receive", "ask", "write")) / 1e9
