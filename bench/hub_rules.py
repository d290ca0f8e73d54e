"""The rules of the plain hub: what a change breaks in a view, and what a file breaks at its end."""
from hub_views import ADOPTION, RELEASE, apply, within


def adoption_rule(code, view, out, item):
    uprn, released_by, hop, _ = item
    basis = out.get(released_by)
    if basis is None or basis.custody.get(uprn) != (RELEASE, code, hop):
        return 41
    return None if view.custody.hop(uprn) < hop else 42


def record_rule(code, own, view, out, action, key, item):
    if action == ADOPTION:
        return adoption_rule(code, view, out, item)
    if key[0] == "11" and not within(own[1], item[0]) or key[0] == "21" and not view.custody.holds(own, item[0]):
        return 20
    if action == RELEASE:
        return None if item[2] == view.custody.hop(item[0]) + 1 else 40
    if action == "I":
        return 21 if key in view.used else None
    old = view.items.get(key)
    if old is None:
        return 22
    if action == "D":
        return 23 if key[0] in ("11", "21") else None
    if key[0] == "24" and old[1:3] != item[1:3] or key[0] == "23" and old[1] != item[1]:
        return 24
    return None


def found(view, out, usrn):
    for w in (view, *out.values()):
        if ("11", usrn) in w.items:
            return w
    return None


def lpi_rule(view, out, key, lpi):
    if view.homes[lpi[1]] != {key}:
        return 30
    blpu = view.items.get(("21", lpi[1]))
    if blpu is None:
        return 31
    w = found(view, out, lpi[4])
    if w is None:
        return 32
    if w.items["11", lpi[4]][3] is not None:
        return 33
    if ("15", lpi[4], lpi[2]) not in w.items:
        return 34
    return 37 if blpu[1] == "8" else None


def is_own_ancestor(view, uprn):
    seen, at = set(), uprn
    while at not in seen:
        seen.add(at)
        blpu = view.items.get(("21", at))
        if blpu is None or blpu[4] == "":
            return False
        at = blpu[4]
        if at == uprn:
            return True
    return False


def blpu_rule(view, blpu):
    if blpu[4] != "" and ("21", blpu[4]) not in view.items:
        return 35
    if is_own_ancestor(view, blpu[0]):
        return 36
    return 37 if blpu[1] == "8" and view.homes.get(blpu[0]) else None


def released_rule(view, key):
    """The rule that a BLPU breaks which isn't there: it was released, and something still names it."""
    return next((rule for rule in (31, 35) if view.is_needed(rule, key[1])), None)


def descriptor_rule(view, key, item):
    street = ("11", key[1]) in view.items
    if item is not None:
        return None if street else 38
    return 34 if street and view.approved_on(key[1], key[2]) else None


def end_rule(view, out, key):
    item = view.items.get(key)
    if key[0] == "15":
        return descriptor_rule(view, key, item)
    if item is None:
        return released_rule(view, key) if key[0] == "21" else None
    if key[0] == "11":
        return 39 if item[3] is not None and view.approved_on(key[1]) else None
    if key[0] == "21":
        return blpu_rule(view, item)
    if key[0] == "24" and item[3] == "1":
        return lpi_rule(view, out, key, item)
    return None if ("21", item[1]) in view.items else 31


def judge(code, own, view, out, changes):
    """The verdict on a custodian's file, and the view afterwards; `out` has the view of each custodian on which the file rests, in its order."""
    after = view.copy()
    for place, action, key, item in changes:
        rule = record_rule(code, own, after, out, action, key, item)
        if rule:
            return (place, rule), view
        apply(after, action, key, item)
    for place, _, key, _ in changes:
        rule = end_rule(after, out, key)
        if rule:
            return (place, rule), view
    return "applied", after
