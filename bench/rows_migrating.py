"""What `gazhub migrate` takes over stores of schema 1 in files: its time beside the same statements by Python's `sqlite3`, the most memory that it had, and the log.

Sizes are of rows. A store of 1,000,000 rows takes long to make, so it is measured by a word of its own.

    bench/rows_migrating.py [ROWS..]   only stores of so many rows
"""
import os
import sqlite3
import subprocess
import sys
import threading
import time
from contextlib import closing

import streams
from measure import ROUNDS, TOP, medians, print_rows
from sides import Place

SIZES = (100_000,)
MILLION = (1_000_000,)
MOVED = "cust, kind, id, blpu, street, lang, live, born, gone, body"

# what was made before schema 2
BACK = f"""BEGIN;
INSERT INTO version SELECT {MOVED} FROM version2;
DROP TABLE version2;
UPDATE meta SET number = 1;
COMMIT;
VACUUM;"""

ONWARD = f"""INSERT INTO version2 SELECT {MOVED}, 0 FROM version;
DELETE FROM version;
UPDATE meta SET number = 2;
COMMIT;"""


def made_by(store, script):
    """Asks Python's sqlite3 for these statements, in a store that is closed then."""
    with closing(sqlite3.connect(store, isolation_level=None)) as conn:
        conn.executescript(script)


def second_schema():
    """What schema 2 has beside schema 1, as the checks have it."""
    with open(f"{TOP}/checks/schema2/tables.sql") as file:
        return "BEGIN;\n" + "".join(line for line in file if "version2" in line)


class Watched:
    """The most that a store's log grew to while something went on."""

    def __init__(self, store):
        self.log, self.most, self.over = f"{store}-wal", 0, threading.Event()
        self.thread = threading.Thread(target=self.watch)

    def watch(self):
        while not self.over.wait(0.005):
            if os.path.exists(self.log):
                self.most = max(self.most, os.path.getsize(self.log))

    def __enter__(self):
        self.thread.start()
        return self

    def __exit__(self, *_fault):
        self.over.set()
        self.thread.join()


def migrated(place, store):
    """Seconds that `migrate` takes over a copy of a store, the most memory that it had, and the log's size."""
    copy = place.fresh(store)
    with Watched(copy) as log:
        start = time.perf_counter()
        child = subprocess.Popen(place.words("migrate", copy), stdout=subprocess.PIPE)
        told = child.stdout.read()
        _, status, used = os.wait4(child.pid, 0)
        spent = time.perf_counter() - start
    assert (told, status) == (b"migrated\n", 0), told
    os.remove(copy)
    return spent, used.ru_maxrss * 1024, log.most


def by_python(place, store):
    """Seconds that Python's sqlite3 takes for the same statements over a copy."""
    copy = place.fresh(store)
    start = time.perf_counter()
    made_by(copy, second_schema() + ONWARD)
    spent = time.perf_counter() - start
    os.remove(copy)
    return spent


def migrating_rows(place, count):
    load, _ = place.asked(list(streams.growing_loads(count)), [streams.get("/custodians/1001")])
    store = place.loaded(load)
    made_by(store, BACK)
    size = os.path.getsize(store)
    rounds = [(*migrated(place, store), by_python(place, store)) for _ in range(ROUNDS)]
    spent, memory, log, theirs = medians(rounds)
    title = f"`migrate` over {count:,} rows"
    yield title, f"{spent:.2f} s, {spent / theirs:.1f} times Python's sqlite3", f"a file of {size / 1e6:.0f} MB; peak memory {memory / 1e6:.0f} MB"
    yield "its log", f"{log / size:.2f} times the file (at most 2)", f"{log / 1e6:.0f} MB"


def rows(folder, counts=SIZES):
    for count in counts:
        yield from migrating_rows(Place(folder), count)


def million_rows(folder):
    return rows(folder, MILLION)


if __name__ == "__main__":
    print_rows(rows, [int(word) for word in sys.argv[1:]] or SIZES)
