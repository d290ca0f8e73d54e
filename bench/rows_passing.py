"""What it costs that properties pass between custodians: files of 5,000 releases and of 5,000 adoptions beside as many updates, which write two rows as they do, and the adoptions
beside as many inserts too, which write one; a small file that gives up
one property of 50,000 with addresses; and a file of 5,000 cross references of one property that has ten times as many, of a custodian that has given up another; by `gazhub play` and by `gazhub serve` over a store in a file, each beside the keeper in memory and a plain hub over Python's `sqlite3`.

    bench/rows_passing.py [PART..]   only these of play and serve
"""
import sys

import streams
from measure import ROUNDS, print_rows
from rows_growth import by_play, by_serve
from sides import Place, begun, in_turn, with_memory

BESIDE = (("releases", "updates"), ("adoptions", "updates"), ("adoptions", "inserts"))
MANY = 5_000  # changes of a file


def spent_on(place, hubs_of, load, parts):
    """Seconds of a file of each part by the program, by the keeper in memory and by Python: each hub takes what is loaded once, and then a file a round."""
    load, *files = place.asked(load, *([it] for part in parts for it in part))
    assert all(it.count(b'"applied"') == len(it.requests) for it in (load, *files)), "a file isn't applied"
    with begun(hubs_of(place, load), load) as hubs:
        return [in_turn(hubs, files[first : first + ROUNDS]) for first in range(0, len(files), ROUNDS)]


def passing(title, base, spent, beside, count, unit):
    """What passes properties, beside what doesn't: of the program, of the keeper in memory, of Python."""
    *both, theirs = zip(spent, beside)

    def cells(times):
        took, before = times
        return f"{took / before:.2f} times {base}", f"{count / took:,.0f} {unit}, {theirs[0] / took:.1f} times Python over sqlite3"

    yield from with_memory(title, *both, cells)


def many_rows(place, way, hubs_of):
    """Files of 5,000 changes."""
    parts = dict(streams.handed_over(ROUNDS))
    spent = dict(zip(parts, spent_on(place, hubs_of, list(streams.county(ROUNDS)), parts.values())))
    for title, base in BESIDE:
        yield from passing(f"{MANY:,} {title} in a file by `{way}`", f"as many {base}", spent[title], spent[base], MANY, "changes/s")


def one_row(place, way, hubs_of, homes=50_000, each=2_500):
    """A file that gives up a property and takes its address, of a district with so many."""
    files = list(streams.given_up(ROUNDS, homes // each + 2, homes))
    changed, given = spent_on(place, hubs_of, list(streams.gazetteer(homes, each))[:-1], (files[:ROUNDS], files[ROUNDS:]))
    yield from passing(f"a release within {homes:,} addresses by `{way}`", "an update", given, changed, 1, "files/s")


def named_row(place, way, hubs_of, before=10):
    """A file of cross references of one property, which has many already, beside one of cross references of a property each."""
    files = streams.named(ROUNDS, before)
    load, each, one = files[: before + 2], files[before + 2 : before + 2 + ROUNDS], files[before + 2 + ROUNDS :]
    spread, heaped = spent_on(place, hubs_of, load, (each, one))
    yield from passing(f"{MANY:,} cross references of one property with {before * MANY:,} by `{way}`", "as many of 5,000 properties", heaped, spread, MANY, "changes/s")


WAYS = {"play": by_play, "serve": by_serve}


def rows(folder, names=()):
    for way, hubs_of in WAYS.items():
        if not names or way in names:
            yield from many_rows(Place(folder), way, hubs_of)
            yield from one_row(Place(folder), way, hubs_of)
            yield from named_row(Place(folder), way, hubs_of)


if __name__ == "__main__":
    print_rows(rows, sys.argv[1:])
