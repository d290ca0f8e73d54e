"""`gazhub play`, and the keeper in memory, beside a floor: `replies.c`, which reads the requests, compares and writes the replies that it learned, over a hash table.

What a change costs is counted in instructions, by `valgrind --tool=callgrind` where that is installed: it doesn't depend on who else uses the machine.

    bench/rows_memory.py [PART..]   only these of repeats, look_ups and changes
"""
import os
import re
import shutil
import subprocess
import sys

import streams
from measure import ROUNDS, in_file, medians, print_rows, rows_of, seconds, seconds_behind
from sides import IN_MEMORY, Place, played, with_memory

REPEATS, LOOK_UPS, HOMES = 99_000, 99_000, 30_000


def floor(folder):
    """The floor, built by the C compiler of the machine where it isn't yet."""
    built = os.path.join(folder, "replies")
    if not os.path.exists(built):
        subprocess.run(["cc", "-O2", "-o", built, os.path.join(os.path.dirname(os.path.abspath(__file__)), "replies.c")], check=True)
    return built


def floor_of(place, learned, asked):
    """Seconds of the floor for requests, beyond learning the replies to those."""
    files = [in_file(place.folder, name, data) for name, data in zip(("learned", "told"), learned.whole)]
    words, nothing = [floor(place.folder), *files], in_file(place.folder, "nothing", b"")
    alone, _ = seconds(words, nothing)
    whole, replies = seconds(words, in_file(place.folder, "requests", asked.whole[0]))
    assert replies == asked.whole[1], "the floor replies otherwise"
    return whole - alone


def beside_floor(place, load, learned, asked):
    """What requests take the program and the keeper in memory behind what is loaded, and what they take the floor: medians of rounds in which all run."""
    load, learned, asked = place.asked(load, learned, asked)
    requests, replies = (one + other for one, other in zip(load.whole, asked.whole))
    path, before = in_file(place.folder, "loaded", requests), len(load.whole[1])
    words = played(), place.in_memory()
    return medians([[*(seconds_behind(it, path, before, replies) for it in words), floor_of(place, learned, asked)] for _ in range(ROUNDS)])


def floor_rows(title, count, unit, spent):
    ours, memory, floor = spent
    told = f"floor {count / floor:,.0f}"
    yield from with_memory(title, ours, memory, lambda took: (f"{took / floor:.2f} times the floor (at most 1.3)", f"{count / took:,.0f} {unit}, {told}"))


def repeats_rows(place):
    for changes, count in ((1, REPEATS), (100, REPEATS // 10)):
        file = [streams.post((1001, 1), streams.streets_file(changes))]
        yield from floor_rows(f"{count:,} repeats of a file of {changes}", count, "requests/s", beside_floor(place, file, file, file * count))


def look_ups_rows(place):
    load, every = list(streams.gazetteer(HOMES)), streams.look_ups(range(HOMES), 1, HOMES)
    for title, step in (("all over", 7919), ("in order", 1)):
        asked = streams.look_ups(range(LOOK_UPS), step, HOMES)
        yield from floor_rows(f"{LOOK_UPS:,} look-ups {title}", LOOK_UPS, "look-ups/s", beside_floor(place, load, every, asked))


def instructions(command, stdin_path):
    """How many instructions a command takes over a file as its input."""
    with open(stdin_path, "rb") as given:
        words = ["valgrind", "--tool=callgrind", "--callgrind-out-file=/dev/null", *command]
        ran = subprocess.run(words, stdin=given, stdout=subprocess.DEVNULL, stderr=subprocess.PIPE, check=True)
    return int(re.search(rb"Collected : (\d+)", ran.stderr)[1])


def instructions_of_a_change(place, words, volumes=4):
    """Those of the later half of some files."""
    files = (in_file(place.folder, "files", b"".join(streams.files_in_turn(count))) for count in (volumes // 2, volumes))
    some, more = (instructions(words, path) for path in files)
    return (more - some) / (3 * (volumes - volumes // 2) * 1_000)


def changes_rows(place):
    if not shutil.which("valgrind"):
        yield "a change", "not counted: there is no valgrind", ""
        return
    yield "a change", f"{instructions_of_a_change(place, played()):,.0f} instructions", ""
    yield IN_MEMORY, f"{instructions_of_a_change(place, place.in_memory()):,.0f} instructions (at most 4,500)", ""


PARTS = (repeats_rows, look_ups_rows, changes_rows)


def rows(folder, names=()):
    return rows_of(PARTS, names, Place(folder))


if __name__ == "__main__":
    print_rows(rows, sys.argv[1:])
