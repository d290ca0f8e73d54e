"""What it costs that others wait: what is asked by `gazhub play` while a file is held, and a hub of 400 custodians beside one of 3.

`play` has the register of three custodians alone. So 400 are asked by `gazhub serve` over a store in a file. Each is beside the keeper in memory.
"""
import streams
from measure import BLOCKS, ROUNDS, Talk, register_of
from sides import Place, anew, begun, behind, in_turn, plain, played, with_memory

LOOK_UPS, HOMES = 12_000, 2_500  # look-ups of a round
REQUESTS, SUBMISSIONS = 20_000, 1_000  # of a round over 400 custodians
LARGE = 5_000  # changes of a file that waits
SIZE = 300_000_000  # of a block of UPRNs; those of USRNs have 30,000


def first_number(code):
    """The first UPRN of a custodian's blocks, and its first USRN."""
    return 1 + (code - 1) * BLOCKS * SIZE, 1 + (code - 1) * BLOCKS * 30_000


def thousand_items(code):
    """A file of a street, its descriptor and 499 properties with their addresses."""
    uprn, usrn = first_number(code)
    rows = [f"11,I,{usrn},1,2001-04-01,", f"15,I,{usrn},ENG,High Street,,Arden,Arden"]
    rows += [f"21,I,{uprn + k},1,450000,250000,,AR1 2DN,2001-04-01," for k in range(499)]
    rows += [f"24,I,L{uprn + k},{uprn + k},ENG,1,{usrn},,,,,Flat 2,12,A,14,,,2001-04-01," for k in range(499)]
    return streams.file_with(code, 1, rows)


def while_waits(changes):
    """What is loaded: a district, and a file of so many changes that waits for a volume that doesn't come."""
    return [*streams.gazetteer(HOMES), *([streams.waiting_file(changes, ((1001, 999),))] if changes else [])]


def held_rows(place):
    """Look-ups while a file waits."""
    asked = [streams.look_ups(turns, 1, HOMES) for turns in streams.parts(LOOK_UPS, ROUNDS)]
    base = None
    for changes in (0, 100, 1_000, LARGE):
        load, *batches = place.asked(while_waits(changes), *asked)
        spent = behind((Talk(played()), Talk(place.in_memory())), load, batches)
        base = base or spent
        title = f"look-ups while {'a file of ' + format(changes, ',') + ' changes' if changes else 'nothing'} waits"
        yield from with_memory(title, *zip(spent, base), lambda it: (f"{it[0] / it[1]:.2f} times those while nothing waits", f"{LOOK_UPS / it[0]:,.0f} look-ups/s"))


def about_a_file(bases):
    """A custodian's first file is there, which waits where it rests on something: its standing, files behind it that wait in either case, and repeats of it."""
    first = streams.waiting_file(LARGE, bases)
    yield "its custodian's standing", [[streams.get("/custodians/1003")] * 2_000] * ROUNDS
    yield "a file of one change behind it", [list(streams.small_files(volumes)) for volumes in streams.parts(400, ROUNDS, 3)]
    yield "a repeat of it", [[first] * 30] * ROUNDS


def spent_about(place, bases):
    """Seconds of each of these requests, by the program, by the keeper in memory, and by Python."""
    titles, asked = zip(*about_a_file(bases))
    first = [streams.waiting_file(LARGE, bases)]
    load, *batches = place.asked(first, *(batch for batches in asked for batch in batches))
    with begun((Talk(played()), Talk(place.in_memory()), Talk(plain())), load) as hubs:
        for k, title in enumerate(titles):
            mine = batches[ROUNDS * k : ROUNDS * (k + 1)]
            yield title, [took / len(mine[0].requests) for took in in_turn(hubs, mine)]


def behind_rows(place):
    """What is asked about a custodian while its large file waits, and once that is judged."""
    for (title, waiting), (_, judged) in zip(spent_about(place, ((1001, 999),)), spent_about(place, ())):
        *both, (theirs, _) = zip(waiting, judged)

        def cells(it):
            told = f"{1e6 * it[0]:,.1f} µs, else {1e6 * it[1]:,.1f}; the plain hub {1e6 * theirs:,.1f}"
            return f"{it[0] / it[1]:.2f} times as when none waits (at most 1.5)", told

        yield from with_memory(f"while a file of {LARGE:,} changes waits: {title}", *both, cells)


def requests_of():
    """Of each round: look-ups, standings and repeats of three custodians, and small files of the first for which nobody waits."""
    def code(k):
        return 1 + k % 3

    asked = [streams.get(f"/uprn/{first_number(code(k))[0] + k % 499}") for k in range(REQUESTS)]
    yield "look-ups", 1.3, [asked] * ROUNDS
    yield "standings", 1.3, [[streams.get(f"/custodians/{code(k)}") for k in range(REQUESTS)]] * ROUNDS
    yield "repeats", 1.3, [[small(2)] * REQUESTS] * ROUNDS
    yield "files that nobody waits for", 1.2, [list(map(small, volumes)) for volumes in streams.parts(SUBMISSIONS, ROUNDS, 3)]


def small(volume):
    return streams.post((1, volume), streams.file_with(1, volume, [f"11,I,{2 + volume},1,2001-04-01,"]))


def times_of(folder, custodians):
    """What these requests take the program over a store, and the keeper in memory."""
    place, (titles, most, asked) = Place(folder, register_of(custodians)), zip(*requests_of())
    load = [*(streams.post((code, 1), thousand_items(code)) for code in range(1, custodians + 1)), small(2)]
    load, *batches = place.asked(load, *(batch for batches in asked for batch in batches))
    assert not any(it.count(b'"rejected"') or it.count(b'"refusal"') for it in (load, *batches))
    with begun((place.served(place.loaded(load)), Talk(place.in_memory())), load) as hubs:
        for k, title in enumerate(titles):
            mine = batches[ROUNDS * k : ROUNDS * (k + 1)]
            yield title, most[k], len(mine[0].requests), in_turn(hubs, mine)


def custodian_rows(folder):
    for (title, most, count, few), (_, _, _, many) in zip(times_of(folder, 3), times_of(folder, 400)):
        yield from with_memory(
            f"{title} by `serve` over 400 custodians",
            *zip(many, few),
            lambda it: (f"{it[0] / it[1]:.2f} times over 3 (at most {most})", f"{count / it[0]:,.0f} requests/s"),
        )


def freed_rows(folder):
    """399 custodians hold a file that waits for the 400th, whose file frees them all."""
    place = Place(folder, register_of(400))
    load = [streams.post((code, 1), streams.file_with(code, 1, [], ((400, 1),))) for code in range(1, 400)]
    load, frees = place.asked(load, [streams.post((400, 1), streams.file_with(400, 1, []))])
    store = place.loaded(load)
    spent = anew((lambda: place.served(place.fresh(store)), lambda: Talk(place.in_memory())), load, frees)
    yield from with_memory("one volume that frees 399 custodians, by `serve`", *spent, lambda took: (f"{took * 1e6 / 399:.1f} µs a custodian", ""))


def rows(folder):
    place = Place(folder)
    yield from held_rows(place)
    yield from behind_rows(place)
    yield from custodian_rows(folder)
    yield from freed_rows(folder)
