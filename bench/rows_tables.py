"""What the statements of the tables cost alone, and beside them the same texts through Python's sqlite3: each on a file of its own."""
import os
import sqlite3
from functools import partial

from statements import CUST, FILES, RECEIVEDS, VERSIONS, by_library, by_python, each_alone, received, tables, within

ADDRESS, VOLUME, CALLS, PAGE = 24, 5_000, 20_000, 512
BODY = "42,ENG,1,101,,,,,Flat 2,12,A,14,,,2001-04-01,,and some more text"
PAGES = 16_000  # pages of 4,096 bytes that either side keeps in memory
TITLES = {
    "insert": "an insert",
    "newest": "the newest row of a key",
    "newest_until": "the same until a volume",
    "approved_of": "the approved address of a BLPU",
    "approved_on": "the first of 50 on a street",
    "holding": "a row of a page of 512",
    "close": "a close",
    "receive": "a file of 100 bytes received, with its commit",
    "reject": "its rejection, with its commit",
    "verdict": "its verdict",
}


def identifier(place):
    return f"{place:012}"


def scattered(turns, count):
    """One of so many rows for each turn. Each comes once where 7,919 doesn't divide their number, and those that follow each other lie apart."""
    return (turn * 7_919 % count for turn in turns)


def inserts(count):
    """So many rows, 5,000 a transaction."""
    for first in range(0, count, VOLUME):
        places = scattered(range(first, min(first + VOLUME, count)), count)
        yield from within((VERSIONS["insert"], (CUST, ADDRESS, identifier(k), k, k // 50, 1, 1, 1, 1_000_000, BODY, 0)) for k in places)


def pages(count):
    """A page after another, to the end."""
    for first in range(0, count, PAGE):
        yield VERSIONS["holding"], (CUST, ADDRESS, identifier(first - 1) if first else "", 1, PAGE)


def groups_of(count):
    """What is timed over so many rows."""
    asked = partial(scattered, range(CALLS), count)
    yield tables()
    yield "insert", inserts(count)
    yield "newest", ((VERSIONS["newest"], (CUST, ADDRESS, identifier(k))) for k in asked())
    yield "newest_until", ((VERSIONS["newest_until"], (CUST, ADDRESS, identifier(k), 1)) for k in asked())
    yield "approved_of", ((VERSIONS["approved_of"], (CUST, k)) for k in asked())
    yield "approved_on", ((VERSIONS["approved_on"], (CUST, k // 50, "", 1)) for k in asked())
    yield "holding", pages(count)
    yield "close", within((VERSIONS["close"], (CUST, ADDRESS, identifier(k), 1, 2)) for k in scattered(range(min(VOLUME, count)), count))
    yield "receive", received()
    yield "reject", each_alone("reject", ((CUST, volume, 3, 4) for volume in range(FILES)))
    yield "verdict", ((RECEIVEDS["verdict"], (CUST, volume)) for volume in range(FILES))


def per_row(told, count):
    """Nanoseconds by name: of each row that is found, and else of each that is written."""
    written = {"insert": count, "close": min(VOLUME, count), "receive": FILES, "reject": FILES}
    return {name: told[name][1] / max(written.get(name, told[name][0]), 1) for name in TITLES}


def same_rows(paths):
    """Whether two files have the same rows, as sqlite3 reads them."""
    ours, theirs = map(sqlite3.connect, paths)
    asked = ("version2 ORDER BY cust, kind, id, born", "received ORDER BY cust, volume")
    pairs = [(it.execute(f"SELECT * FROM {table}") for it in (ours, theirs)) for table in asked]
    return all(all(a == b for a, b in zip(*pair, strict=True)) for pair in pairs)


def count_rows(folder, count, rounds):
    best = {}
    for k in range(rounds):
        paths = [os.path.join(folder, f"{name}{count}-{k}") for name in ("ours", "theirs")]
        sides = [side(path, groups_of(count), PAGES) for side, path in zip((by_library, by_python), paths)]
        ours, theirs = ({name: rows for name, (rows, _) in it.items()} for it in sides)
        assert ours == theirs, "sqlite3 finds other rows"
        assert same_rows(paths), "sqlite3 reads other rows"
        ours, theirs = (per_row(it, count) for it in sides)
        for name in TITLES:
            before = best.get(name, (ours[name], theirs[name]))
            best[name] = min(before[0], ours[name]), min(before[1], theirs[name])
    for name, (ours, theirs) in best.items():
        yield f"{TITLES[name]}, {count:,} rows", f"{ours / 1e3:,.1f} µs, sqlite3 {theirs / 1e3:,.1f} µs", f"{ours / theirs:.1f} times sqlite3's time"


def rows(folder):
    for count, rounds in ((10_000, 3), (100_000, 3), (1_000_000, 1)):
        yield from count_rows(folder, count, rounds)
