"""What a command waits for before it answers: `gazhub status` over stores in files, and the first answer of `gazhub serve` over the same.

Beside them the library's reading of the file alone (`gaz_bench floor` without a statement), a plain hub over Python's `sqlite3` that is asked the same, and the keeper in memory,
which takes the files anew. Sizes are of rows. A store of 1,000,000 rows takes long to make, so it is measured by a word of its own. And `status` under a register of 400 custodians.

    bench/rows_opening.py [ROWS..]   only stores of so many rows, and what filling takes where none is named
"""
import os
import sqlite3
import sys
import time
from contextlib import closing

import streams
from measure import ROUNDS, blocked_peak, in_file, least_seconds, medians, print_rows, program, register_of, seconds
from sides import IN_MEMORY, SAMPLE, Place, over_sqlite, pages_for

SIZES = (60_000, 600_000)
MILLION = (1_000_000,)
CODE = 1001  # whose standing is asked


def first_answer(hub, asked):
    """Seconds until a hub that begins now has answered, and the most memory that it had by then."""
    start = time.perf_counter()
    with hub:
        hub.spent(asked)
        return time.perf_counter() - start, hub.memory("VmHWM")


class Waits:
    """What the first answer over a store waits for, by each who is asked it."""

    def __init__(self, place, load):
        self.place = place
        load, self.asked = place.asked(load, [streams.get(f"/custodians/{CODE}")])
        self.store, self.loading = place.loaded(load), in_file(place.folder, "loading", load.whole[0])
        self.status = place.words("status", self.store, CODE)
        self.library = [program("gaz_bench"), "floor", self.store, os.devnull, str(pages_for(self.store))]

    def memory(self):
        """The most memory of `status`, and that of `serve`."""
        peak, _ = blocked_peak(self.status, os.devnull)
        return peak, first_answer(self.place.served(self.store), self.asked)[1]

    def round(self):
        """Seconds of `status`, of the first answer of `serve`, of the library alone, of Python, and of the keeper in memory."""
        question = in_file(self.place.folder, "question", self.asked.whole[0])
        commands = (self.library, os.devnull), (over_sqlite(self.store), question), (self.place.in_memory(), self.loading)
        answered, _ = first_answer(self.place.served(self.store), self.asked)
        return seconds(self.status, os.devnull)[0], answered, *(seconds(*it)[0] for it in commands)

    def medians(self):
        return medians([self.round() for _ in range(ROUNDS)])


def opening_rows(place, count):
    waits = Waits(place, list(streams.growing_loads(count)))
    (one, serve), size = (it / 1e6 for it in waits.memory()), os.path.getsize(waits.store) / 1e6
    status, answered, library, theirs, memory = waits.medians()
    told = f"the library {library:.2f} s for {size:.0f} MB, Python over sqlite3 {theirs:.3f} s"
    yield f"`status` over {count:,} rows", f"{status:.2f} s, {status / library:.2f} times the library's reading of the file", f"peak memory {one:.0f} MB; {told}"
    yield f"the first answer of `serve` over {count:,} rows", f"{answered:.2f} s, {answered / status:.2f} times that `status` (at most 1.15)", f"peak memory {serve:.0f} MB"
    yield IN_MEMORY, f"{memory:.2f} s, {memory / status:.2f} times that `status`", "it takes the files anew"


def scanned(store):
    """All rows of a store, by Python's sqlite3."""
    with closing(sqlite3.connect(store)) as conn:
        return [conn.execute(f"SELECT * FROM {table}").fetchall() for table in ("version2", "received")]


def filling_rows(place):
    """9,000 rows in 4,000 volumes: the first brought 5,000, and in one store rested on another custodian's."""
    for said, bases in (("none of which waited", ()), ("the first resting on another's", ((1002, 1),))):
        waits = Waits(place, list(streams.many_volumes(bases=bases)))
        scan, (rows, _) = least_seconds(lambda: scanned(waits.store), ROUNDS)
        status, answered, _, _, memory = waits.medians()
        filling = answered - status
        assert len(rows) == 9_000
        title = f"filling what is at hand, 9,000 rows in 4,000 volumes, {said}"
        yield title, f"{filling / scan:.1f} times a scan of the rows by sqlite3", f"{filling:.3f} s behind `status`, which took {status:.3f} s"
        yield IN_MEMORY, f"{memory / scan:.1f} times that scan", f"{memory:.3f} s, the files anew"


def sized_rows(folder, counts):
    for count in counts:
        yield from opening_rows(Place(folder), count)


def custodians_row(folder):
    """A command looks at each custodian of its register: at 400 of whom none sent a file, beside the few of the sample."""
    asked = [(place.words("status", place.new(), code), os.devnull) for place, code in ((Place(folder, register_of(400)), 400), (Place(folder), CODE))]
    many, few = medians([[seconds(*it)[0] for it in asked] for _ in range(ROUNDS)])
    return "`status` of one of 400 custodians without a file", f"{many:.2f} s", f"{few:.3f} s of one of the {SAMPLE.count('[[custodian]]')} of the sample"


def rows(folder):
    yield from sized_rows(folder, SIZES)
    yield from filling_rows(Place(folder))
    yield custodians_row(folder)


def million_rows(folder):
    yield from sized_rows(folder, MILLION)


if __name__ == "__main__":
    if sys.argv[1:]:
        print_rows(sized_rows, [int(word) for word in sys.argv[1:]])
    else:
        print_rows(rows)
