"""Statements alone, on files of their own: by the library that the program has, and by Python's `sqlite3`.

A group is statements whose time is told together: its name, and each text with the values with which it runs.
"""
import re
import sqlite3
import time
from collections import defaultdict
from contextlib import closing

from measure import TOP, output_of

STATEMENT = re.compile(r'fn (\w+)<(?:(?!\nfn |\npub fn ).)*?"((?:SELECT|INSERT|UPDATE|CREATE) [^"]+)"', re.S)
BROKEN = re.compile(r"\\\n\s*")  # where a text goes on in the next line


def texts_of(module):
    """The texts of the statements as a module of `gaz_tables` has them, by its functions."""
    with open(f"{TOP}/crates/gaz_tables/src/{module}.rt", encoding="utf-8") as source:
        return {name: BROKEN.sub("", text) for name, text in STATEMENT.findall(source.read())}


VERSIONS, RECEIVEDS, CREATING = map(texts_of, ("versions", "receiveds", "creating"))
CUST, FILES = 1001, 200


def within(statements):
    """Statements in a transaction of their own."""
    yield "BEGIN", ()
    yield from statements
    yield "COMMIT", ()


def tables():
    """The group that makes the tables of a store."""
    return "tables", within((text, ()) for text in CREATING.values())


def each_alone(name, files):
    """The statement of this name about each of some files, in a transaction of its own."""
    for values in files:
        yield from within([(RECEIVEDS[name], values)])


def received(size=100):
    """200 files of so many bytes."""
    return each_alone("receive", ((CUST, volume, b"A" * size) for volume in range(FILES)))


def word_of(value):
    """A value as a line of a script has it."""
    if isinstance(value, int):
        return str(value)
    return f"'{value}" if isinstance(value, str) else f"x{value.decode()}"


def lines_of(groups):
    """The script of groups, as `gaz_bench floor` reads it."""
    now = None
    for name, statements in groups:
        for text, values in statements:
            if text != now:
                yield f"sql\t{text}\n"
                now = text
            yield "\t".join(("run", *map(word_of, values))) + "\n" if values else "run\t\n"
        yield f"tell\t{name}\n"


def added(before, more):
    return tuple(map(sum, zip(before, more, strict=True)))


def by_library(path, groups, pages):
    """How many rows each group found, and its nanoseconds, by `gaz_bench floor` over the database in a file with so many pages at hand."""
    with open(f"{path}.script", "w", encoding="utf-8") as script:
        script.writelines(lines_of(groups))
    told = defaultdict(lambda: (0, 0))
    for line in output_of("gaz_bench", "floor", path, script.name, pages).decode().splitlines():
        name, *more = line.split()
        told[name] = added(told[name], map(int, more))
    return told


def by_python(path, groups, pages):
    """How many rows each group found, and its nanoseconds, by Python's sqlite3 over the database in a file with so many pages at hand."""
    told = defaultdict(lambda: (0, 0))
    with closing(sqlite3.connect(path, isolation_level=None)) as conn:
        for pragma in ("journal_mode = WAL", "synchronous = FULL", f"cache_size = {pages}"):
            conn.execute(f"PRAGMA {pragma}")
        for name, statements in groups:
            for text, values in statements:
                start = time.perf_counter_ns()
                rows = len(conn.execute(text, values).fetchall())
                told[name] = added(told[name], (rows, time.perf_counter_ns() - start))
            if name == "insert":
                conn.execute("ANALYZE")  # without it sqlite3 walks all rows of a kind for the first on a street
    return told
