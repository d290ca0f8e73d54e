"""What a hub costs over connections on loopback: `gazhub serve` over a store in a file, asked a request at a time, beside Python's `http.server` with plain hubs,
and beside the keeper in memory, which is asked so over its standard input and output."""
import statistics

import streams
from measure import ROUNDS, Talk, medians, print_rows
from sides import IN_MEMORY, MANY, Place, Taking, begun, commit_alone, http_server

LOOK_UPS, FILES, HOMES = 20_000, 2_000, 2_500
LARGE = 120  # files of 1,000 changes


def asked_of(place):
    """What a hub has and what it is asked: look-ups of a district, small files beside that, and files of 1,000 changes; with how many things these are."""
    look_ups, small = streams.look_ups(range(LOOK_UPS), 1, HOMES), list(streams.small_files(range(1, FILES + 1)))
    load, look_ups, small = place.asked(list(streams.gazetteer(HOMES)), look_ups, small)
    nothing, large = place.asked([], list(streams.files_in_turn(LARGE // 3)))
    assert small.count(b'"applied"') == FILES and large.count(b'"applied"') == LARGE
    yield f"{LOOK_UPS:,} look-ups over connections, one after the other", load, look_ups, LOOK_UPS, "look-ups/s"
    yield f"{FILES:,} files of one change over connections", load, small, FILES, "files/s"
    yield f"{LARGE} files of 1,000 changes over connections", nothing, large, LARGE * 1_000, "changes/s"


def sides_of(place):
    """The program, the keeper in memory, and Python's server before a hub in memory and before one over a store. None has anything yet."""
    yield Taking(place.words("serve", place.new(), "--port", 0, "--connections", MANY))
    yield Talk(place.in_memory())
    yield Taking(http_server())
    yield Taking(http_server(place.fresh()))


def spent(hub, load, asked):
    with begun([hub], load):
        return hub.spent_one_by_one(asked)


def rows(folder):
    place = Place(folder)
    for title, load, asked, count, unit in asked_of(place):
        ours, memory, theirs, stored = medians([[spent(hub, load, asked) for hub in sides_of(place)] for _ in range(ROUNDS)])
        yield title, f"{theirs / ours:.1f} times Python's http.server", f"{count / ours:,.0f} {unit}"
        yield "the same, Python over sqlite3 in a file", f"{theirs / stored:.1f} times Python's http.server", f"{count / stored:,.0f} {unit}"
        yield f"{IN_MEMORY}, over its standard input", f"{theirs / memory:.1f} times Python's http.server", f"{count / memory:,.0f} {unit}"
    commit = statistics.median(commit_alone(place) for _ in range(ROUNDS))
    yield "a small file's commit by the statement alone", "", f"{1 / commit:,.0f} files/s"


if __name__ == "__main__":
    print_rows(rows)
