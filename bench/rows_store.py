"""What users wait for over a store in a file: `gazhub serve` over connections of 1,000 requests in turn, beside the keeper in memory, the same statements alone,
and a plain hub over Python's `sqlite3`.

Requests of a connection are sent without waiting for replies. In each round every side runs once, so that they see the same machine. Stores lie in the folder
that TMPDIR names.

    bench/rows_store.py [TITLE..]   only the rows whose functions have these names, as files or rejected
"""
import statistics
import sys

import hub
import hub_sqlite
import random_streams
import streams
import volumes
from measure import ROUNDS, Talk, medians, print_rows, rows_of, seconds
from sides import FEWEST, IN_MEMORY, PAGE, Opened, Place, anew, begun, behind, commit_alone, over_sqlite, pages_for, with_memory

LOOK_UPS, REPEATS, LISTS, EXTRACTS = 20_000, 20_000, 3, 3  # of a round
FILES, VOLUMES = 60, 2_000


def agree(streams_of=20):
    """The plain hub over sqlite3 replies as the plain hub does to random streams."""
    for seed in range(1, streams_of + 1):
        requests = random_streams.stream_of(seed)
        assert hub.replies_to(requests) == hub.replies_to(requests, hub_sqlite.StoredHub(":memory:")), f"over sqlite3 the replies to stream {seed} differ"


def sides_over(place, store):
    """The program over a store, the keeper in memory, and Python over a copy."""
    return place.served(store), Talk(place.in_memory()), Opened(over_sqlite(place.fresh(store)))


def reading(place, title, load, asked, count, unit, most):
    """Requests that change nothing."""
    load, *batches = place.asked(load, *asked)
    ours, memory, theirs = behind(sides_over(place, place.loaded(load)), load, batches)
    yield title, f"{ours / memory:.2f} times the keeper in memory (at most {most})", f"{count / ours:,.0f} {unit}, {ours / theirs:.2f} of sqlite3's time"
    yield IN_MEMORY, "", f"{count / memory:,.0f} {unit}, {memory / theirs:.2f} of sqlite3's time"


def reading_rows(place):
    asked = [streams.look_ups(turns, 7919, 30_000) for turns in streams.parts(LOOK_UPS, ROUNDS)]
    yield from reading(place, "look-ups over 60,000 records", list(streams.gazetteer(homes=30_000)), asked, LOOK_UPS, "look-ups/s", 1.5)
    asked = [[streams.get("/extract/1002/51")] * EXTRACTS] * ROUNDS
    yield from reading(place, "an extract of 50,000 items", list(streams.gazetteer(homes=25_000, each=500)), asked, 50_000 * EXTRACTS, "items/s", 2)
    asked = [[streams.get("/closed")] * LISTS] * ROUNDS
    yield from reading(place, "/closed over 50,000 addresses", list(streams.gazetteer()), asked, 50_000 * LISTS, "addresses/s", 2)
    one = [streams.post((1001, 1), streams.STREET)]
    yield from reading(place, "repeats of a small file", one, [one * REPEATS] * ROUNDS, REPEATS, "repeats/s", 2)


def call_rows(place):
    """What one-shot commands take beyond `status`, which opens the store just so. They read from its tables."""
    (load,) = place.asked(list(streams.gazetteer(homes=25_000, each=500)))
    store = place.loaded(load)
    words = [place.words(*it) for it in (("status", store, 1002), ("line", store, streams.FIRST), ("extract", store, 1002, 51))]
    rounds = [[seconds(it, "/dev/null")[0] for it in words] for _ in range(ROUNDS)]
    opening, line, extract = medians(rounds)
    yield "`line` over 50,000 items", f"{line / opening:.2f} times `status`", f"{line:.2f} s, `status` {opening:.2f} s"
    yield "`extract` of 50,000 items", f"{extract / opening:.2f} times `status`", f"{50_000 / (extract - opening):,.0f} items/s beyond that"


def files_rows(place):
    """60 files of three custodians in turn, each committed before it is answered."""
    load, asked = place.asked([], list(streams.files_in_turn(FILES // 3)))
    assert asked.count(b'"applied"') == FILES
    makers = (lambda: place.served(place.new())), (lambda: Talk(place.in_memory())), (lambda: Talk(over_sqlite(place.fresh())))
    ours, memory, theirs = anew(makers, load, asked)
    alone = statistics.median(volumes.seconds_alone(place.fresh(), FILES, FEWEST) for _ in range(ROUNDS))
    title, changes = f"{FILES} files of 1,000 changes, each committed", FILES * 1_000
    yield title, f"{ours / alone:.2f} times the statements alone (at most 1.6)", f"{changes / ours:,.0f} changes/s, alone {changes / alone:,.0f}"
    yield "the same", f"{ours / theirs:.2f} of Python over sqlite3 (at most 0.25)", f"sqlite3 {changes / theirs:,.0f} changes/s"
    yield IN_MEMORY, f"{memory / ours:.3f} of that time", f"{changes / memory:,.0f} changes/s"


def first_and_last(hubs, load, batches):
    """What each hub takes for the first of these batches, and for the last."""
    with begun(hubs, load):
        spent = [[hub.spent(it) for hub in hubs] for it in batches]
    return spent[0], spent[-1]


def one_by_one_rows(place, homes=2_500, each=100):
    """2,000 volumes, each of which changes one address."""
    load = list(streams.gazetteer(homes))
    first = 1 + b"".join(load).count(b"POST /custodians/1002/")
    requests = list(streams.address_changes(VOLUMES, homes, first))
    load, *hundreds = place.asked(load, *(requests[k : k + each] for k in range(0, VOLUMES, each)))
    assert sum(it.count(b'"applied"') for it in hundreds) == VOLUMES
    store = place.loaded(load)
    firsts, lasts = zip(*(first_and_last(sides_over(place, place.fresh(store)), load, hundreds) for _ in range(ROUNDS)))
    *both, (_, theirs) = zip(medians(firsts), medians(lasts))

    def cells(it):
        told = f"{1e6 * it[1] / each:,.0f} µs a volume, Python over sqlite3 {1e6 * theirs / each:,.0f} µs"
        return f"the last hundred {it[1] / it[0]:.2f} times the first (at most 1.3)", told

    yield from with_memory(f"one address changed in each of {VOLUMES:,} volumes", *both, cells)


def rejected_rows(place):
    """Files of 5,000 changes whose last record breaks a rule."""
    files = [[streams.post((1001, v), streams.late_fault(v))] for v in range(3, 3 + ROUNDS)]
    load, *files = place.asked(list(streams.gazetteer(homes=2_500)), *files)
    assert all(it.count(b'"rejected","record":5001') for it in files)
    ours, memory, theirs = behind(sides_over(place, place.loaded(load)), load, files)
    size = len(files[0].whole[0])  # (the head of its request with it)
    commit = statistics.median(commit_alone(place, size) for _ in range(ROUNDS))
    told = f"{1e3 * ours:.1f} ms, a commit of {size / 1e3:.0f} kB {1e3 * commit:.1f}, Python over sqlite3 {1e3 * theirs:.1f}"
    yield "a rejected file of 5,000 changes", f"{ours / (memory + commit):.2f} times its judging in memory and a commit of its bytes (at most 1.3)", told
    yield IN_MEMORY, f"{memory / ours:.2f} of that time", f"{1e3 * memory:.1f} ms"


def memory_of(hub, load, asked):
    """What a hub has in memory once it was asked, and the most that it had."""
    with begun([hub], load):
        hub.spent(asked)
        return hub.memory("VmRSS"), hub.memory("VmHWM")


def memory_rows(place):
    """What an item takes once each property was looked up, beside the pages of the store that are kept at hand."""
    ours, memory, pages = [], [], []
    for homes in (2_500, 50_000):
        load, asked = place.asked(list(streams.gazetteer(homes)), streams.look_ups(range(homes), 1, homes))
        store = place.loaded(load)
        ours.append(memory_of(place.served(store), load, asked))
        memory.append(memory_of(Talk(place.in_memory()), load, asked))
        pages.append(PAGE * pages_for(store))
    (low, _), (high, most) = ours
    told = f"{high / 1e6:.0f} MB, {pages[1] / 1e6:.0f} MB of them pages, at most {most / 1e6:.0f} MB"
    yield "memory beside the page cache", f"{((high - pages[1]) - (low - pages[0])) / 95_000:,.0f} bytes an item (at most 600)", told
    (low, _), (high, most) = memory
    yield IN_MEMORY, f"{(high - low) / 95_000:,.0f} bytes an item", f"{high / 1e6:.0f} MB, at most {most / 1e6:.0f} MB"


PARTS = (reading_rows, call_rows, files_rows, one_by_one_rows, rejected_rows, memory_rows)


def rows(folder, names=()):
    agree()
    return rows_of(PARTS, names, Place(folder))


if __name__ == "__main__":
    print_rows(rows, sys.argv[1:])
