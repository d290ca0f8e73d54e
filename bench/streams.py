"""Change files and requests that are measured."""
from measure import MIB  # (finds checks)

from checks import stores
from checks.stores import get

STREET = b"10,1,1001,1,2024-01-02\n11,I,1,101,1,2001-04-01,\n99,1\n"


def post(pair, body):
    return stores.post(*pair, body)


def file_with(code, volume, rows, bases=(), profile=1):
    """A file of change records, each written without its order, as 11,I,101,1,2001-04-01,"""
    lines = [f"10,{profile},{code},{volume},2024-01-02", *(f"90,{d},{w}" for d, w in bases)]
    lines += (f"{row[:5]}{order},{row[5:]}" for order, row in enumerate(rows, 1))
    return "\n".join((*lines, f"99,{len(rows)}", "")).encode()


def streets_file(changes):
    return file_with(1001, 1, [f"11,I,{99_999_999 if k == 1 else k},1,2001-04-01," for k in range(1, changes + 1)])


MIXED = (
    "11,{a},{k},1,2001-04-01,2024-04-30",
    '15,{a},{k},CYM,"Mill Lane, rear of",,Bay,Bay Area',
    "21,{a},{k},1,450000,250000,{p},AR1 2DN,2001-04-01,",
    '23,{a},X{k},{k},TAX01,"A/17, ""b""",2010-05-01,',
    "24,{a},L{k},{k},ENG,1,{k},,,,,Flat 2,12,A,14,,,2001-04-01,",
    "24,{a},M{k},{k},CYM,8,{k},3,B,5,,,,,,,The Old Mill,2001-04-01,2024-04-01",
)


def mixed_file(changes=5000):
    """A file that rests on two others: items of all kinds inserted, updated and deleted, some with quotes."""
    rows = [MIXED[k % 6].format(a="IUD"[k // 6 % 3], k=k + 1, p=k if k % 4 else "") for k in range(changes)]
    return file_with(1001, 1, rows, ((1002, 3), (1003, 999_999)))


LONG = {
    "11": "11,I,{k},1,2001-04-01,2024-04-30",
    "15": f"15,I,{{k}},CYM,{'d' * 100},{'l' * 35},{'t' * 30},{'a' * 30}",
    "21": "21,I,{k},1,450000,250000,999999999999,AR1 2DN,2001-04-01,2024-04-30",
    "23": f"23,I,X{{k}},{{k}},TAX01,{'r' * 50},2010-05-01,2024-04-30",
    "24": f"24,I,L{{k:013}},{{k:012}},ENG,1,{{k:08}},3,B,5,,{{t}},12,A,14,,{'p' * 90},2001-04-01,2024-04-01",
}
KINDS_OF_LONG = ("15", "24", "24", "24", "15", "21", "24", "24", "24", "23", "24", "24", "11", "15")


def long_file():
    """A good file of 1 MiB: items of all kinds with long texts."""
    kinds = [KINDS_OF_LONG[k % len(KINDS_OF_LONG)] for k in range(5000)]

    def of(texts):
        return file_with(1001, 1, [LONG[kind].format(k=k, t=next(texts) if kind == "24" else "") for k, kind in enumerate(kinds, 1)])

    lpis = kinds.count("24")
    spare = MIB - len(of(iter(["s"] * lpis)))
    return of(iter(["s" * (1 + spare // lpis + (k < spare % lpis)) for k in range(lpis)]))


def hostile_files():
    """Files of 1 MiB that aren't good, by what they hold: each alone, and behind a header, so that reading goes on."""
    header = b"10,1,1001,1,2024-01-02\n"
    bodies = {"empty lines": b"\n", "one field": b"x", "half a million one-byte records": b"x\n"}
    for title, piece in bodies.items():
        alone = piece * (MIB // len(piece))
        yield title, (alone, (header + alone)[:MIB])


FIRST_UPRN = {1001: 1, 1002: 100_000, 1003: 200_000}  # of each custodian of the sample register
FIRST_USRN = {1001: 100, 1002: 200, 1003: 300}


def volume_of(code, volume):
    """A file of 1,000 mixed changes: new properties with addresses and cross references, and updates of those of the volume before."""
    first, usrn = FIRST_UPRN[code], FIRST_USRN[code]
    new, old = (range(first + 300 * (v - 1), first + 300 * v) for v in (volume, volume - 1))
    rows = [f"11,I,{usrn},1,2001-04-01,", f"15,I,{usrn},ENG,High Street,,Arden,Arden"] if volume == 1 else []
    rows += [f"21,I,{n},1,450000,250000,,AR1 2DN,2001-04-01," for n in new]
    rows += [f"24,I,L{n},{n},ENG,1,{usrn},,,,,Flat 2,12,A,14,,,2001-04-01," for n in new]
    rows += [f"23,I,X{n},{n},TAX01,A/17,2001-04-01," for n in new]
    rows += [f"21,U,{n},1,450001,250001,,AR1 2DN,2001-04-01," for n in old if volume > 1][: 1000 - len(rows)]
    return file_with(code, volume, rows)


def files_in_turn(volumes):
    """The posts of so many such volumes of each of three custodians, in turn."""
    for volume in range(1, volumes + 1):
        for code in FIRST_UPRN:
            yield post((code, volume), volume_of(code, volume))


FIRST = FIRST_UPRN[1002]
HOMES = 50_000


def gazetteer(homes=HOMES, each=2500):
    """The posts of a county's street, of a district with so many addresses, a tenth of them on that street, and of the street's closing.

    Each volume but the district's first adds so many BLPUs and their LPIs.
    """
    county = ["11,I,150,1,1990-01-01,", "15,I,150,ENG,County Road,,Arden,Arden"]
    yield post((1001, 1), file_with(1001, 1, county))
    own = [row for k in range(200, 300) for row in (f"11,I,{k},1,2001-04-01,", f"15,I,{k},ENG,High Street,,Bay,Bay Area")]
    yield post((1002, 1), file_with(1002, 1, own))
    for volume in range(2, homes // each + 2):
        numbers = range(FIRST + each * (volume - 2), FIRST + each * (volume - 1))
        rows = [f"21,I,{n},1,450000,250000,,AR1 2DN,2001-04-01," for n in numbers]
        rows += [f"24,I,L{n},{n},ENG,1,{150 if n % 10 == 0 else 200 + n % 100},,,,,Flat 2,12,A,14,,,2001-04-01," for n in numbers]
        yield post((1002, volume), file_with(1002, volume, rows, ((1001, 1),)))
    yield post((1001, 2), file_with(1001, 2, ["11,U,150,1,1990-01-01,2024-04-30"]))


def look_ups(turns, step, homes=HOMES):
    """Look-ups of that district's properties, each so many behind the one before, from the start again behind the last; these turns of them."""
    return [get(f"/uprn/{FIRST + k * step % homes}") for k in turns]


def parts(count, rounds, first=0):
    """As many ranges of so many numbers, one behind the other."""
    return [range(first + count * k, first + count * (k + 1)) for k in range(rounds)]


def address_changes(volumes, homes, first):
    """The posts of volumes of that district from the first on, each of which changes one of its addresses."""
    for k in range(volumes):
        n = FIRST + k * 7919 % homes
        row = f"24,U,L{n},{n},ENG,1,{200 + k % 100},,,,,Flat 2,{1 + k % 999},A,,,,2001-04-01,"
        yield post((1002, first + k), file_with(1002, first + k, [row]))


def late_fault(volume, changes=5000):
    """A file of new properties whose last record breaks a rule."""
    numbers = range(90_001, 90_000 + changes)
    rows = [f"21,I,{n},1,450000,250000,,AR1 2DN,2001-04-01," for n in numbers]
    return file_with(1001, volume, [*rows, "11,D,100,1,2001-04-01,"])


def waiting_file(changes, bases=()):
    """The post of a custodian's first file, of so many new properties, which waits where it rests on a volume that doesn't come."""
    rows = [f"21,I,{FIRST_UPRN[1003] + k},1,450000,250000,,AR1 2DN,2001-04-01," for k in range(changes)]
    return post((1003, 1), file_with(1003, 1, rows, bases))


def small_files(volumes):
    """The posts of these volumes of that custodian, each of which has one change."""
    for v in volumes:
        yield post((1003, v), file_with(1003, v, [f"11,{'I' if v == 1 else 'U'},300,1,2001-04-01,"]))


def many_volumes(volumes=4_000, bases=((1002, 1),)):
    """The posts of a district's street, of a county's file of 5,000 changes, which rests on that, and of its further volumes of one change."""
    yield post((1002, 1), file_with(1002, 1, ["11,I,200,1,2001-04-01,"]))
    rows = [f"21,I,{k},1,450000,250000,,AR1 2DN,2001-04-01," for k in range(1, 5_000 + volumes)]
    yield post((1001, 1), file_with(1001, 1, rows[:5_000], bases))
    for volume, row in enumerate(rows[5_000:], 2):
        yield post((1001, volume), file_with(1001, volume, [row]))


STREETS = 100  # of each custodian of a growing gazetteer
LOADED = 1_250  # properties of a volume that loads it
CHANGED = 250  # properties of a volume of 1,000 changes


def home_rows(code, numbers, action, turn=0):
    """The rows of properties with these numbers: of each a BLPU, an address, an address that was, and a cross reference."""
    for n in numbers:
        usrn = FIRST_USRN[code] + n % STREETS
        yield f"21,{action},{n},1,{450_000 + turn},250000,,AR1 2DN,2001-04-01,"
        yield f"24,{action},L{n},{n},ENG,1,{usrn},,,,,Flat 2,{12 + turn},A,{14 + turn},,,2001-04-01,"
        yield f"24,{action},M{n},{n},ENG,8,{usrn},,,,,,{12 + turn},,,,,2001-04-01,2004-04-01"
        yield f"23,{action},X{n},{n},TAX01,A/{17 + turn},2001-04-01,"


def homes_of(items):
    """The properties of each of three custodians that have so many items."""
    return (items // 3 - 2 * STREETS) // 4


def growing_loads(items):
    """The posts that load the gazetteers of three custodians with so many items: streets with a descriptor each, and properties."""
    for code, usrn in FIRST_USRN.items():
        rows = [row for k in range(usrn, usrn + STREETS) for row in (f"11,I,{k},1,2001-04-01,", f"15,I,{k},ENG,High Street,,Arden,Arden")]
        yield post((code, 1), file_with(code, 1, rows))
    homes = homes_of(items)
    for volume, first in enumerate(range(0, homes, LOADED), 2):
        for code, uprn in FIRST_UPRN.items():
            numbers = range(uprn + first, uprn + min(first + LOADED, homes))
            yield post((code, volume), file_with(code, volume, list(home_rows(code, numbers, "I"))))


def growing_changes(items, files):
    """The posts of so many files of 1,000 updates all over those gazetteers, one custodian's behind the other's, and then of as many of 1,000 inserts."""
    homes = homes_of(items)
    first = 2 - -homes // LOADED  # the volume behind those that were loaded
    for k in range(2 * files):
        code, volume = 1001 + k % 3, first + k // 3
        start = FIRST_UPRN[code]
        if k < files:
            rows = home_rows(code, (start + (CHANGED * k + j) * 7919 % homes for j in range(CHANGED)), "U", 1 + k)
        else:
            new = start + homes + CHANGED * (volume - first)
            rows = home_rows(code, range(new, new + CHANGED), "I")
        yield post((code, volume), file_with(code, volume, list(rows)))


PLACE = "1,450000,250000,,AR1 2DN,2001-04-01,"  # of a property that passes, what stands behind its number


def numbers_of(code, turn, count=5_000):
    """The numbers of a custodian's that are changed in one of some turns."""
    return range(FIRST_UPRN[code] + count * turn, FIRST_UPRN[code] + count * (turn + 1))


def county(turns):
    """The posts of a county's files of 5,000 properties, one for each turn."""
    for turn in range(turns):
        yield post((1001, turn + 1), file_with(1001, turn + 1, [f"21,I,{n},{PLACE}" for n in numbers_of(1001, turn)]))


def handed_over(turns):
    """What then comes, a file of 5,000 changes for each turn: updates of those properties, releases of them, a district's adoptions, and its inserts of as many others."""
    rows = {
        "updates": (1001, turns, lambda turn: [f"21,U,{n},{PLACE}" for n in numbers_of(1001, turn)]),
        "releases": (1001, 2 * turns, lambda turn: [f"91,I,{n},1002,1" for n in numbers_of(1001, turn)]),
        "inserts": (1002, 0, lambda turn: [f"21,I,{n},{PLACE}" for n in numbers_of(1002, turn)]),
        "adoptions": (1002, turns, lambda turn: [f"92,I,{n},1001,1,{PLACE}" for n in numbers_of(1001, turn)]),
    }
    for title, (code, before, rows_of) in rows.items():
        bases = ((1001, 3 * turns),) if title == "adoptions" else ()
        yield title, [post((code, before + k + 1), file_with(code, before + k + 1, rows_of(k), bases, 2)) for k in range(turns)]


def given_up(turns, first, homes=HOMES):
    """The posts of small files of that district of addresses, from a volume on: of each turn one that changes a property and its address, and then of each one that gives both up."""
    for k in range(2 * turns):
        n = FIRST + 7919 * k % homes
        lpi = f"L{n},{n},ENG,1,{150 if n % 10 == 0 else 200 + n % 100},,,,,Flat 2,12,A,14,,,2001-04-01,"
        rows = [f"24,U,{lpi}", f"21,U,{n},{PLACE}"] if k < turns else [f"24,D,{lpi}", f"91,I,{n},1003,1"]
        yield post((1002, first + k), file_with(1002, first + k, rows, ((1001, 1),), 2))


def named(turns, before):
    """The posts of a county's file of 5,000 properties, of one that gives up another number, and of so many of 5,000 cross references, all of the first property.
    Then of each turn a file of as many more, of each property one, and behind these of each turn one of the first property's alone."""
    whose = [lambda k: 1] * before + [lambda k: k + 1] * turns + [lambda k: 1] * turns
    files = [[f"21,I,{n},{PLACE}" for n in range(1, 5_001)], ["91,I,99999,1002,1"]]
    files += ([f"23,I,X{turn}A{k},{uprn_of(k)},CTAX,7,2001-04-01," for k in range(5_000)] for turn, uprn_of in enumerate(whose))
    return [post((1001, volume), file_with(1001, volume, rows, (), 2)) for volume, rows in enumerate(files, 1)]
