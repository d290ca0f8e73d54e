"""Random histories of profile 2: properties pass between six custodians, on and on and back, in files that come late, twice, changed or never.

Most of what a file adopts was released to its custodian in a view on which it rests, and most of what it releases it holds; what names a property is mostly taken before.
Now and then a release goes to the wrong custodian or to nobody, a hop is another, and an adoption rests on a volume that is too old, or comes twice.
"""
import csv
import io
import random

from hub_files import READERS_OF, ROWS, change_of
from hub_rules import record_rule
from hub_views import RELEASE, apply, needed_by
from random_streams import GROWN, OWN, Cast, fields_of, files_of, requests_of

SIX = GROWN | {1005: ([(400_000, 499_999)], [(500, 599)]), 1006: ([(500_000, 599_999)], [(600, 699)])}
CAST = Cast(OWN | {1004: ((401,), (300001,)), 1005: ((501,), (400001,)), 1006: ((601,), (500001,))}, SIX)
NOBODY = 9998  # whom the register lacks


def register_text(register):
    """A register as its file has it."""
    return "\n".join(f'[[custodian]]\ncode = {code}\nname = "Custodian {code}"\nuprn = {pairs(uprn)}\nusrn = {pairs(usrn)}\n' for code, (uprn, usrn) in register.items())


def pairs(blocks):
    return [list(block) for block in blocks]


def offers(view, code):
    """What a view shows as released to a custodian: the number and the hop of each."""
    return [(n, hop) for n, (action, to, hop) in view.custody.known.items() if (action, to) == (RELEASE, code)]


def bases_of(rng, code, boards):
    """The volumes of others on which a file rests, by rising code: mostly the last ones, and mostly of those who offer something."""
    there = {d: len(boards[d]) - 1 for d in boards if d != code and (len(boards[d]) > 1 or rng.random() < 0.01)}
    volumes = {d: max(1, w - rng.choice([0, 0, 0, 0, 1, 3])) for d, w in there.items()}
    return {d: w for d, w in volumes.items() if rng.random() < (0.9 if offers(boards[d][-1], code) else 0.2)}


def text_of(fields):
    sink = io.StringIO()
    csv.writer(sink, lineterminator="").writerow(fields)
    return sink.getvalue()


def freed(view, uprn):
    """The changes by which nothing in a view names a property any more."""
    for key, item in sorted(view.items.items()):
        needed = needed_by(key, item)
        if needed == (31, uprn):
            yield key[0], "D", ROWS[key[0]](item)
        elif needed == (35, uprn):
            yield key[0], "U", ROWS[key[0]]((*item[:4], "", *item[5:]))


def release(rng, cast, code, view, held):
    """A release of a number, mostly of one that is held and soonest of one that was adopted, with what has to go before it."""
    adopted = [n for n in held if view.custody.hop(n)]
    uprn = rng.choice((adopted if rng.random() < 0.7 else held) or held) if held and rng.random() < 0.95 else rng.choice(cast.blpus)
    to = NOBODY if rng.random() < 0.01 else rng.choice([d for d in cast.own if d != code])
    hop = view.custody.hop(uprn) + 1 if rng.random() < 0.8 else rng.randint(1, 6)
    return [*(freed(view, uprn) if rng.random() < 0.9 else ()), ("91", "I", (uprn, to, hop))]


def adoption(rng, cast, code, view, held, out):
    """An adoption of what a basis view offers and the own view isn't past, or now and then of anything."""
    shown = [(n, d, hop) for d, w in out.items() for n, hop in offers(w, code)]
    offered = [it for it in shown if it[2] > view.custody.hop(it[0])]
    if rng.random() < 0.1:
        offered = shown or [(rng.choice(cast.blpus), rng.choice([d for d in cast.own if d != code]), rng.randint(1, 3))]
    if not offered:
        return []
    uprn, *passed = rng.choice(offered)
    parent = rng.choice(["", "", "", rng.choice(held or [uprn])])
    return [("92", "I", (uprn, *passed, rng.choice("1168"), 450000, 250000, parent, rng.choice(["", "AR1 2DN"]), "2020-01-01", ""))]


def held_by(cast, code, view):
    """The numbers that a custodian with this view holds."""
    return [n for n in cast.blpus if view.custody.holds(cast.register[code], n)]


def changes_of(rng, cast, code, view, held, out):
    """One change, or a release with what has to go before it; none where there is nothing to adopt."""
    kind = rng.random()
    if kind < 0.35:
        return adoption(rng, cast, code, view, held, out)
    if kind < 0.55:
        return release(rng, cast, code, view, held)
    there = [n for n in held if ("21", n) in view.items]
    if held and rng.random() < (0.1 if there else 0.8):
        return [("21", "I", (rng.choice(held), "1", 450000, 250000, "", "", "2001-04-01", ""))]
    kind, fields = fields_of(cast, rng, cast.own[code][0], there or held or cast.own[code][1])
    return [(kind, rng.choice("IIIUUD"), [str(f).strip('"') for f in fields])]


def change_in(code, change):
    """A change as a file's reading has it: its action, key and item."""
    kind, action, fields = change
    row = [kind, action, "1", *map(str, fields)]
    return change_of(READERS_OF[2][kind], row, 1, 0, code)[1:]


def is_fit(cast, code, view, out, changes):
    """Whether each of these changes, behind those before it, breaks no record rule."""
    *before, last = (change_in(code, it) for it in changes)
    view = view.copy() if before else view
    for it in before:
        if record_rule(code, cast.register[code], view, out, *it):
            return False
        apply(view, *it)
    return record_rule(code, cast.register[code], view, out, *last) is None


def draft(cast, rng, code, volume, boards):
    """The lines of a file on the planned boards, before it is spoilt."""
    bases = bases_of(rng, code, boards)
    out = {d: boards[d][w] for d, w in bases.items() if w < len(boards[d])}
    view, rows = boards[code][-1].copy(), []
    for _ in range(rng.randint(1, 6)):
        held = held_by(cast, code, view)
        for _ in range(rng.choice([1, 20, 20, 20])):
            changes = changes_of(rng, cast, code, view, held, out)
            if changes and is_fit(cast, code, view, out, changes):
                break
        for change in changes:
            apply(view, *change_in(code, change))
        rows += changes
    lines = [f"{kind},{action},{order},{text_of(fields)}" for order, (kind, action, fields) in enumerate(rows, 1)]
    return [f"10,2,{code},{volume},2025-01-02", *(f"90,{d},{w}" for d, w in bases.items()), *lines, f"99,{len(rows)}"]


def passing_files(seed):
    """The files of a seed, in the order in which they were planned."""
    rng = random.Random(f"passing {seed}")
    return rng, files_of(CAST, rng, 90, draft)


def passing_stream_of(seed):
    """The requests of a seed."""
    rng, files = passing_files(seed)
    return list(requests_of(CAST, rng, files))
