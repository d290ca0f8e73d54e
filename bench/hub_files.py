"""Change files of the plain hub: `csv`, both profiles."""
import csv
import io

from framing import number
from items import KINDS, PASSING, Fault, day

PROFILES = 1, 2
READERS = {kind: read for kind, (read, _) in KINDS.items()}
READERS_OF = {1: READERS, 2: READERS | PASSING}  # of the change records of a profile
ROWS = {kind: row for kind, (_, row) in KINDS.items()}
KEY_WIDTH = {"11": 1, "15": 2, "21": 1, "23": 1, "24": 1}


def is_day(text):
    try:
        return bool(day(text, 0))
    except Fault:
        return False


def header_fault(row, code, volume):
    """The rule that a file's first record breaks, or None."""
    if len(row) != 5 or row[0] != "10" or number(row[1], 4, 1, 9999) not in PROFILES or not is_day(row[4]):
        return 2
    named = number(row[2], 4, 1, 9999), number(row[3], 6, 1, 999_999)
    if None in named:
        return 2
    return None if named == (code, volume) else 3


def basis_fault(row, code, bases, changes):
    """The basis that a record says, or None where it breaks rule 4."""
    if len(row) != 3 or changes or len(bases) == 16:
        return None
    named, volume = number(row[1], 4, 1, 9999), number(row[2], 6, 1, 999_999)
    if named is None or volume is None or named == code or (bases and named <= bases[-1][0]):
        return None
    return named, volume


def change_of(read_fields, row, place, count, code):
    """A change, or the rule that its record breaks."""
    if count >= 5000:
        return 9
    try:
        item = read_fields(row[3:])
    except Fault as fault:
        return 6 if fault.args[0] else 5
    passes = row[0] in PASSING
    if row[1] not in ("I", "U", "D") or passes and (row[1] != "I" or item[1] == code):
        return 6
    if number(row[2], 4, 1, 5000) != count + 1:
        return 7
    return (place, row[0], ("21", item[0]), item) if passes else (place, row[1], (row[0], *item[: KEY_WIDTH[row[0]]]), item)


def rows_of(data):
    return (row for row in csv.reader(io.StringIO(data.removeprefix("\ufeff"), newline="")) if row)


def read(data, code, volume):
    """The basis lines and the changes, or the first record at fault with its rule."""
    try:
        rows = rows_of(data.decode("utf-8"))
    except UnicodeDecodeError:
        return 1, 1
    header = next(rows, None)
    rule = 1 if header is None else header_fault(header, code, volume)
    if rule:
        return 1, rule
    readers = READERS_OF[int(header[1])]
    bases, changes, ended, place = [], [], False, 1
    for place, row in enumerate(rows, 2):
        if ended:
            return place, 8
        if row[0] == "90":
            basis = basis_fault(row, code, bases, changes)
            if basis is None:
                return place, 4
            bases.append(basis)
        elif row[0] in readers:
            change = change_of(readers[row[0]], row, place, len(changes), code)
            if isinstance(change, int):
                return place, change
            changes.append(change)
        elif row[0] == "99":
            if len(row) != 2 or number(row[1], 4, 0, 5000) != len(changes):
                return place, 8
            ended = True
        else:
            return place, 5
    return (bases, changes) if ended else (place + 1, 8)


def names_unknown_profile(data):
    row = next(rows_of(data.decode("utf-8", "surrogateescape")), [])
    profile = number(row[1], 4, 1, 9999) if len(row) > 1 and row[0] == "10" else None
    return profile is not None and profile not in PROFILES
