"""What an update and an insert cost as a gazetteer grows, and what an item takes of memory: by `gazhub play`, and by `gazhub serve` over a store in a file,
each beside the keeper in memory and a plain hub over Python's `sqlite3`.

Changes come in files of 1,000, updates all over the gazetteer, inserts behind what is there. Each hub takes a gazetteer once, and then a file a round.

    bench/rows_growth.py [PART..]   only these of play and serve; ITEMS=10000 before it sets the largest gazetteer
"""
import os
import sys

import streams
from measure import ROUNDS, Talk, print_rows, rows_of
from sides import Opened, Place, begun, in_turn, over_sqlite, played, with_memory

ITEMS = int(os.environ.get("ITEMS", "1000000"))  # of the largest gazetteer
IN_A_FILE = 100_000  # of the largest whose store is in a file
SIZES = (10_000, 100_000, 1_000_000)
CHANGES = (("an update", " (at most 2)"), ("an insert", ""))  # each with the limit of its growth


def sizes_to(most):
    return [items for items in SIZES if items <= most]


def by_play(place, _load):
    """The program and the two beside it, none of which has anything yet."""
    return Talk(played()), Talk(place.in_memory()), Talk(over_sqlite())


def by_serve(place, load):
    """The program and the two beside it, where the program and Python have stores in files, which took what is loaded."""
    store = place.loaded(load)
    return place.served(store), Talk(place.in_memory()), Opened(over_sqlite(place.fresh(store)))


def grown(place, items, hubs_of):
    """Of a gazetteer of so many items: what each hub has in memory, and seconds of an update and of an insert by each."""
    changes = list(streams.growing_changes(items, ROUNDS))
    load, *files = place.asked(list(streams.growing_loads(items)), *([it] for it in changes))
    assert sum(it.count(b'"applied"') for it in (load, *files)) == len(load.requests) + len(changes)
    with begun(hubs_of(place, load), load) as hubs:
        memory = [hub.memory("VmRSS") for hub in hubs]
        spent = [in_turn(hubs, part) for part in (files[:ROUNDS], files[ROUNDS:])]
    return memory, [[each / 1_000 for each in times] for times in spent]


def change_rows(title, limit, items, spent, first):
    """A change at so many items, beside the same change at the fewest: of the program, of the keeper in memory, of Python."""
    *both, theirs = zip(spent, first)

    def cells(times):
        took, before = times
        ratio = f"{took / before:.2f} times at {SIZES[0]:,}{limit}" if items > SIZES[0] else f"{took / theirs[0]:.2f} of Python over sqlite3"
        return ratio, f"{1e6 * took:.1f} µs, Python over sqlite3 {1e6 * theirs[0]:.1f} µs"

    yield from with_memory(f"{title} at {items:,} items", *both, cells)


def memory_rows(items, many, few):
    """What each item more takes."""
    *each, theirs = ((large - small) / (items - SIZES[0]) for large, small in zip(many, few))
    told = f"Python over sqlite3 {theirs:,.0f} bytes"
    yield from with_memory(f"memory at {items:,} items", *each, lambda it: (f"{it:,.0f} bytes an item, files and all (at most 450)", told))


def play_rows(folder):
    place, sizes = Place(folder), sizes_to(ITEMS)
    found = [grown(place, items, by_play) for items in sizes]
    for k, (title, limit) in enumerate(CHANGES):
        for items, (_, spent) in zip(sizes, found):
            yield from change_rows(f"{title} by `play`", limit, items, spent[k], found[0][1][k])
    for items, (memory, _) in list(zip(sizes, found))[1:]:
        yield from memory_rows(items, memory, found[0][0])


def serve_rows(folder):
    place, sizes = Place(folder), sizes_to(min(ITEMS, IN_A_FILE))
    found = [grown(place, items, by_serve)[1] for items in sizes]
    for k, (title, limit) in enumerate(CHANGES):
        for items, spent in zip(sizes, found):
            yield from change_rows(f"{title} by `serve`", limit, items, spent[k], found[0][k])


PARTS = (play_rows, serve_rows)


def rows(folder, names=()):
    return rows_of(PARTS, names, folder)


if __name__ == "__main__":
    print_rows(rows, sys.argv[1:])
