"""Views of the plain hub, and what changes make of them: dictionaries."""
from items import PASSING

RELEASE, ADOPTION = PASSING  # the records, and the actions that they are


def needed_by(key, item):
    """The BLPU that has to stand beside an item, behind the rule that asks for it: of an LPI or a cross reference its own, of a BLPU its parent."""
    if key[0] in ("23", "24"):
        return 31, item[1]
    return (35, item[4]) if key[0] == "21" and item[4] != "" else None


class Custody:
    """What last became of numbers: of each the action, the other custodian and the hop."""

    def __init__(self, known=()):
        self.known = dict(known)

    def get(self, uprn):
        return self.known.get(uprn)

    def put(self, uprn, passed):
        self.known[uprn] = passed

    def hop(self, uprn):
        passed = self.get(uprn)
        return passed[2] if passed else 0

    def holds(self, own, uprn):
        """Whether a custodian with these blocks holds a number."""
        passed = self.get(uprn)
        return passed[0] == ADOPTION if passed else within(own[0], uprn)


class View:
    def __init__(self, items=(), used=(), homes=(), streets=(), needs=(), custody=()):
        self.items, self.used, self.custody = dict(items), set(used), Custody(custody)
        # the approved LPIs of a BLPU, how many are on a street in a language, and how many items need a BLPU: nothing in them changes in place
        self.homes, self.streets, self.needs = dict(homes), dict(streets), dict(needs)

    def copy(self):
        return View(self.items, self.used, self.homes, self.streets, self.needs, self.custody.known)

    def count(self, key, item, change):
        homes, street = self.homes.get(item[1], frozenset()), (item[4], item[2])
        self.homes[item[1]] = homes | {key} if change == 1 else homes - {key}
        self.streets[street] = self.streets.get(street, 0) + change

    def count_need(self, key, item, change):
        needed = needed_by(key, item)
        if needed:
            self.needs[needed] = self.needs.get(needed, 0) + change

    def drop(self, key):
        item = self.items.pop(key, None)
        if item:
            self.count_need(key, item, -1)
        if item and key[0] == "24" and item[3] == "1":
            self.count(key, item, -1)

    def put(self, key, item):
        self.drop(key)
        self.items[key] = item
        self.used.add(key)
        self.count_need(key, item, 1)
        if key[0] == "24" and item[3] == "1":
            self.count(key, item, 1)

    def give_up(self, key):
        """Takes a BLPU, if it is there; its key is used from then on."""
        self.drop(key)
        self.used.add(key)

    def is_needed(self, rule, uprn):
        """Whether items in the view need a BLPU by this rule."""
        return self.needs.get((rule, uprn), 0) > 0

    def approved_on(self, usrn, lang=None):
        return any(self.streets.get((usrn, of)) for of in ("CYM", "ENG") if lang in (None, of))


def within(blocks, n):
    return any(low <= n <= high for low, high in blocks)


def apply(view, action, key, item):
    """Makes of a view what a change does."""
    if action in PASSING:
        view.custody.put(item[0], (action, *item[1:3]))
    if action == RELEASE:
        view.give_up(key)
    elif action == "D":
        view.drop(key)
    else:
        view.put(key, item[3] if action == ADOPTION else item)
