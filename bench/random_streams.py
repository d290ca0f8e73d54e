"""Random streams: files of all kinds for three custodians, good and faulty, with basis lines; they come late, twice, changed or never.

In some the register grows half way, by a fourth custodian. What was refused of that one before comes again, and the files of others may rest on it.
"""
import random
from dataclasses import dataclass, field

import hub
from hub_files import KEY_WIDTH, READERS, read
from hub_rules import judge, record_rule
from hub_views import View, apply

DAYS = ["2001-04-01", "2020-01-01", "2024-04-30"]

GROWN = hub.REGISTER | {1004: ([(300_000, 399_999)], [(400, 499)])}
GROWTH = b""  # stands between the requests before a growth and those behind it


@dataclass(frozen=True)
class Cast:
    """Custodians with the streets and properties of which their files speak, and their register."""

    own: dict
    register: dict
    streets: list = field(init=False)
    blpus: list = field(init=False)

    def __post_init__(self):
        object.__setattr__(self, "streets", [usrn for usrns, _ in self.own.values() for usrn in usrns])
        object.__setattr__(self, "blpus", [uprn for _, uprns in self.own.values() for uprn in uprns])


OWN = {1001: ((101, 102, 150), (11, 12, 13, 42)), 1002: ((201, 202), (100001, 100002)), 1003: ((301,), (200001, 200002))}
THREE = Cast(OWN, hub.REGISTER)
FOUR = Cast(OWN | {1004: ((401, 402), (300001, 300002))}, GROWN)


def mostly(rng, own, all_of):
    return rng.choice(own if rng.random() < 0.9 else all_of)


def fields_of(cast, rng, usrns, uprns):
    """The kind and the fields of a random item, mostly of these streets and properties."""
    kind = rng.choice(["11", "15", "15", "21", "21", "23", "24", "24", "24", "24"])
    end = rng.choice(["", "", "", "2024-04-30"])
    lang = rng.choice(["ENG", "ENG", "ENG", "CYM"])
    if kind == "11":
        return kind, [mostly(rng, usrns, cast.streets), rng.randint(1, 4), "2001-04-01", end]
    if kind == "15":
        return kind, [mostly(rng, usrns, cast.streets), lang, rng.choice(["High Street", '"Mill Lane, rear of"', "Ffordd y Bryn"]), "", "Arden", "Arden"]
    if kind == "21":
        parent = rng.choice(["", "", "", mostly(rng, uprns, cast.blpus)])
        return kind, [mostly(rng, uprns, cast.blpus), rng.choice("1168"), 450000, 250000, parent, "", "2001-04-01", end]
    if kind == "23":
        return kind, [rng.choice(["L1", "X1", "X2"]), mostly(rng, uprns, cast.blpus), "TAX01", "A/17", "2001-04-01", end]
    usrn = rng.choice(usrns if rng.random() < 0.6 else cast.streets)
    key = rng.choice(["L1", "L2", "L3", "L10"])
    primary = rng.choice([["12", "A", "14", "", ""], ["", "", "", "", "The Old Mill"], ["7", "", "", "", ""]])
    return kind, [key, mostly(rng, uprns, cast.blpus), lang, rng.choice("111368"), usrn, "", "", "", "", "", *primary, "2001-04-01", end]


def draft(cast, rng, code, volume, boards):
    """The lines of a file on the planned boards, before it is spoilt."""
    others = [d for d in cast.own if d != code]
    bases = [(d, max(1, len(boards[d]) - rng.randint(1, 3))) for d in others if rng.random() < 0.4]
    if rng.random() < 0.04:
        bases = [(d, w + rng.randint(0, 2)) for d, w in bases]
    lines = [f"90,{d},{w}" for d, w in bases]
    view = boards[code][-1].copy()
    for order in range(1, rng.randint(0, 7) + 1):
        for _ in range(rng.choice([1, 20, 20, 20, 20])):
            kind, fields = fields_of(cast, rng, *cast.own[code])
            action = rng.choice("IIIUUD")
            item = READERS[kind]([str(f).strip('"') for f in fields])
            key = (kind, *item[: KEY_WIDTH[kind]])
            if record_rule(code, cast.register[code], view, {}, action, key, item) is None:
                break
        apply(view, action, key, item)
        lines.append(",".join([kind, action, str(order), *map(str, fields)]))
    changes = sum(1 for line in lines if not line.startswith("90"))
    return [f"10,1,{code},{volume},2024-01-02", *lines, f"99,{changes}"]


def spoilt(rng, lines):
    """The lines with one of them changed, lost or doubled."""
    lines, k = list(lines), rng.randrange(len(lines))
    how = rng.randrange(5)
    if how == 0:
        del lines[k]
    elif how == 1:
        lines.insert(k, lines[k])
    elif how == 2:
        cells = lines[k].split(",")
        cells[rng.randrange(len(cells))] = rng.choice(["", "0", "1", "x", "9999", "1001", '"', "8"])
        lines[k] = ",".join(cells)
    elif how == 3:
        lines[k] += ","
    else:
        lines.insert(k, rng.choice(["90,1003,1", "10,1,1001,1,2024-01-02", "99,0", "12,x", '""', "90,1001,0", "90,9998,1"]))
    return lines


def judged(cast, code, volume, data, boards):
    """The verdict on a file on the planned boards, where its bases are there."""
    bases, changes = read(data, code, volume)
    if not isinstance(bases, list):
        return (bases, changes), boards[code][-1]
    if any(d not in boards or w >= len(boards[d]) for d, w in bases):
        return "held", boards[code][-1]
    return judge(code, cast.register[code], boards[code][-1], {d: boards[d][w] for d, w in bases}, changes)


def next_file(cast, rng, code, boards, drafted=draft):
    """A file that is mostly applied, and the view after it."""
    volume = len(boards[code])
    for _ in range(rng.choice([1, 1, 30, 30])):
        lines = drafted(cast, rng, code, volume, boards)
        data = ("\n".join(lines) + "\n").encode()
        verdict, view = judged(cast, code, volume, data, boards)
        if verdict == "applied":
            break
    if rng.random() < 0.1:
        data = ("\n".join(spoilt(rng, lines)) + "\n").encode()
        _, view = judged(cast, code, volume, data, boards)
    return data, view


def opening(cast, code):
    """A first file with all the custodian's streets, their names in English, and its properties."""
    usrns, uprns = cast.own[code]
    rows = [f"11,I,{{}},{n},1,2001-04-01," for n in usrns]
    rows += [f"15,I,{{}},{n},ENG,Road {n},,Arden,{'Arden' if n % 2 else 'Bay Area'}" for n in usrns]
    rows += [f"21,I,{{}},{n},1,450000,250000,,{'AR1 2DN' if n % 2 else ''},2001-04-01," for n in uprns]
    lines = [row.format(order) for order, row in enumerate(rows, 1)]
    return "\n".join((f"10,1,{code},1,2024-01-02", *lines, f"99,{len(rows)}", "")).encode()


def files_of(cast, rng, count, drafted=draft):
    boards = {code: [View()] for code in cast.own}
    files = []
    for code in rng.sample(list(cast.own), rng.randint(0, len(cast.own))):
        files.append((code, 1, opening(cast, code)))
        boards[code].append(judged(cast, code, 1, files[-1][2], boards)[1])
    for _ in range(count):
        code = rng.choice(list(cast.own))
        data, view = next_file(cast, rng, code, boards, drafted)
        files.append((code, len(boards[code]), data))
        boards[code].append(view)
    return files


def request(method, path, body=None):
    length = "" if body is None else f"Content-Length: {len(body)}\r\n"
    return f"{method} {path} HTTP/1.1\r\nHost: hub\r\n{length}\r\n".encode() + (body or b"")


def requests_of(cast, rng, files):
    """The files late, twice, changed or never, and questions between them."""
    sent = [f for f in files if rng.random() < 0.995]
    for k in range(len(sent) - 1):
        if rng.random() < 0.4:
            other = rng.randrange(max(0, k - 6), min(len(sent), k + 6))
            sent[k], sent[other] = sent[other], sent[k]
    for code, volume, data in sent:
        path = f"/custodians/{code}/volumes/{volume}"
        yield request("POST", path, data)
        if rng.random() < 0.2:
            yield request("POST", path, data if rng.random() < 0.7 else data + b" ")
        if rng.random() < 0.3:
            code, volume, _ = rng.choice(sent)
            yield request("GET", rng.choice([f"/custodians/{code}", f"/custodians/{code}/volumes/{volume}", f"/extract/{code}/{volume}", f"/uprn/{rng.choice(cast.blpus)}", "/closed"]))
    yield from asked_of(cast, files)


def asked_of(cast, files):
    """Questions for all that there is to read of these files."""
    for code, volume, _ in files:
        yield request("GET", f"/custodians/{code}/volumes/{volume}")
        yield request("GET", f"/extract/{code}/{volume}")
    for code in cast.own:
        yield request("GET", f"/custodians/{code}")
    for uprn in cast.blpus:
        yield request("GET", f"/uprn/{uprn}")
    yield request("GET", "/closed")


def stream_of(seed):
    """The requests of a seed."""
    rng = random.Random(seed)
    return list(requests_of(THREE, rng, files_of(THREE, rng, 40)))


def grown_stream_of(seed):
    """The requests of a seed by which the register grows half way. Most of what was refused until then comes again, somewhere among the others."""
    rng = random.Random(f"grown {seed}")
    files = files_of(FOUR, rng, 40)
    questions = list(asked_of(FOUR, files))
    requests = list(requests_of(FOUR, rng, files))
    posts = len(requests) - len(questions)
    half = rng.randint(posts // 4, 3 * posts // 4)
    before, behind = requests[:half], requests[half:]
    for sent in before:
        if sent.startswith(b"POST /custodians/1004/") and rng.random() < 0.95:
            behind.insert(rng.randint(0, posts - half), sent)
    some = rng.sample(questions, len(questions) // 2)
    return [*before, *some, GROWTH, *some, *behind]
