#!/usr/bin/env python3
"""The plain hub with everything in Python's `sqlite3`, by schema 2: the replies of `hub.py`, over the store in a file, which is made where there is none.

    bench/hub_sqlite.py STORE < REQUESTS

What a request changes is committed once, before it is answered. Only which files wait, and how far each custodian is judged, is at hand beside the database.
"""
import contextlib
import csv
import hashlib
import io
import json
import os
import sqlite3
import sys

from hub import REGISTER, Hub, answer
from hub_files import READERS, ROWS, names_unknown_profile, read
from hub_lines import line_of
from hub_rules import judge
from hub_views import ADOPTION, RELEASE, Custody, needed_by

TOP = os.path.dirname(os.path.dirname(os.path.abspath(__file__)))
sys.path.append(TOP)
from checks.sample import TEXT  # noqa: E402

MOST = 1_000_000  # requests of a run
NEVER = 1_000_000  # `gone` of a row that is current
LANGS = {"ENG": 1, "CYM": 2}
NEWEST = "SELECT born, gone, body FROM version2 WHERE cust = ? AND kind = ? AND id = ? ORDER BY born DESC LIMIT 1"
NEWEST_UNTIL = "SELECT gone, body FROM version2 WHERE cust = ? AND kind = ? AND id = ? AND born <= ? ORDER BY born DESC LIMIT 1"
APPROVED_OF = "SELECT id, body FROM version2 WHERE cust = ? AND kind = 24 AND blpu = ? AND gone = 1000000 AND live = 1"
APPROVED_ON = "SELECT id, lang FROM version2 WHERE cust = ? AND kind = 24 AND street = ? AND gone = 1000000 AND live = 1"
NAMING = "SELECT kind, id FROM version2 WHERE cust = ? AND kind IN ({}) AND blpu = ? AND gone = 1000000"
NEEDING = {31: NAMING.format("23, 24"), 35: NAMING.format("21")}
HOLDING = "SELECT kind, body FROM version2 WHERE cust = ? AND kind <= 24 AND born <= ? AND gone > ? ORDER BY kind, id"
PASSED = "SELECT born, live, street, hop FROM version2 WHERE cust = ? AND kind = 92 AND id = ? AND born <= ? ORDER BY born DESC LIMIT 1"
STREETS = "SELECT DISTINCT street FROM version2 WHERE cust = ? AND kind = 24 AND gone = 1000000 AND live = 1"
INSERT = "INSERT INTO version2 VALUES (?, ?, ?, ?, ?, ?, ?, ?, ?, ?, ?)"
CLOSE = "UPDATE version2 SET gone = ? WHERE cust = ? AND kind = ? AND id = ? AND born = ?"


# ---- cells


def id_of(key):
    kind, name = key[0], key[1]
    if kind == "11":
        return f"{name:08}"
    if kind == "15":
        return f"{name:08}{key[2]}"
    return f"{name:012}" if kind == "21" else name


def links_of(kind, item):
    """blpu, street, lang and live."""
    if kind == "11":
        return 0, item[0], 0, 0
    if kind == "15":
        return 0, item[0], LANGS[item[1]], 0
    if kind == "21":
        return item[4] or 0, 0, 0, 0
    if kind == "23":
        return item[1], 0, 0, 0
    return item[1], item[4], LANGS[item[2]], int(item[3] == "1")


def body_of(kind, item):
    sink = io.StringIO()
    csv.writer(sink, lineterminator="").writerow(ROWS[kind](item))
    return sink.getvalue()


def item_of(kind, body):
    return READERS[kind](next(csv.reader((body,))))


# ---- views


class Items:
    """The items of a view, each read once."""

    def __init__(self, row):
        self.row, self.known = row, {}

    def life(self, key):
        """The volume in which an item was born and the item, which is None where it is gone; None where the key was never used."""
        if key not in self.known:
            self.known[key] = self.row(key)
        return self.known[key]

    def get(self, key, other=None):
        life = self.life(key)
        return life[1] if life and life[1] else other

    def __contains__(self, key):
        return self.get(key) is not None

    def __getitem__(self, key):
        return self.get(key)


class StoredCustody(Custody):
    """What became of numbers up to a volume, each read once. What becomes of them in a judgement stands in `now`."""

    def __init__(self, conn, code, volume=NEVER):
        super().__init__()
        self.asked = conn, code, volume
        self.born, self.now = {}, {}

    def get(self, uprn):
        if uprn not in self.known:
            conn, code, volume = self.asked
            row = conn.execute(PASSED, (code, f"{uprn:012}", volume)).fetchone()
            self.born[uprn] = row and row[0]
            self.known[uprn] = row and (ADOPTION if row[1] else RELEASE, *row[2:])
        return self.known[uprn]

    def put(self, uprn, passed):
        self.get(uprn)  # which row is to be closed
        self.known[uprn] = self.now[uprn] = passed


class Past:
    """A custodian's view after a volume."""

    def __init__(self, conn, code, volume):
        self.items = Items(lambda key: self.row(conn, code, volume, key))
        self.custody = StoredCustody(conn, code, volume)

    @staticmethod
    def row(conn, code, volume, key):
        found = conn.execute(NEWEST_UNTIL, (code, int(key[0]), id_of(key), volume)).fetchone()
        return found and (0, item_of(key[0], found[1]) if found[0] > volume else None)


class Working:
    """A custodian's last view with the changes of a judgement, which are beside the database until they are written."""

    def __init__(self, conn, code):
        self.conn, self.code = conn, code
        self.stood, self.last, self.approved = {}, {}, {}  # what a changed key had, what was put last, the approved LPIs among the changes
        self.needs = {}  # the changed items by the BLPU that each needs, with the rule that asks for it
        self.items, self.custody = Items(self.row), StoredCustody(conn, code)
        self.used, self.homes = Used(self), Homes(self)

    def copy(self):
        return self

    def row(self, key):
        found = self.conn.execute(NEWEST, (self.code, int(key[0]), id_of(key))).fetchone()
        return found and (found[0], item_of(key[0], found[2]) if found[1] == NEVER else None)

    def change(self, key, item):
        life = self.items.life(key)
        self.stood.setdefault(key, life[0] if life and life[1] else None)
        self.items.known[key] = 0, item
        self.approved.pop(key, None)

    def drop(self, key):
        self.change(key, None)

    def give_up(self, key):
        if self.items.life(key):
            self.drop(key)

    def put(self, key, item):
        self.change(key, item)
        self.last[key] = item
        self.needs.setdefault(needed_by(key, item), set()).add(key)
        if key[0] == "24" and item[3] == "1":
            self.approved[key] = item
            self.homes.of.setdefault(item[1], set()).add(key)

    def untouched(self, text, number):
        """The approved LPIs that a statement finds, but those whose keys were changed."""
        return (row for row in self.conn.execute(text, (self.code, number)) if ("24", row[0]) not in self.stood)

    def approved_on(self, usrn, lang=None):
        langs = (1, 2) if lang is None else (LANGS[lang],)
        if any(item[4] == usrn and LANGS[item[2]] in langs for item in self.approved.values()):
            return True
        return any(row[1] in langs for row in self.untouched(APPROVED_ON, usrn))

    def is_needed(self, rule, uprn):
        """Whether items in the view need a BLPU by this rule: changed ones, or such as a statement finds."""
        if any(key in self.items and needed_by(key, self.items[key]) == (rule, uprn) for key in self.needs.get((rule, uprn), ())):
            return True
        found = self.conn.execute(NEEDING[rule], (self.code, uprn))
        return any((str(kind), int(name) if kind == 21 else name) not in self.stood for kind, name in found)

    def write(self, volume):
        """Writes the changes as this volume. An item that came and went in it leaves a row, which says that its key was used."""
        closed = [(volume, self.code, int(key[0]), id_of(key), born) for key, born in sorted(self.stood.items()) if born]
        custody = sorted(self.custody.now.items())
        closed += ((volume, self.code, 92, f"{uprn:012}", self.custody.born[uprn]) for uprn, _ in custody if self.custody.born[uprn])
        self.conn.executemany(CLOSE, closed)
        self.conn.executemany(INSERT, (self.cells(volume, *put) for put in sorted(self.last.items(), key=lambda put: put[0])))
        self.conn.executemany(INSERT, (self.custody_cells(volume, *passed) for passed in custody))

    def cells(self, volume, key, item):
        gone = NEVER if key in self.items else volume
        return self.code, int(key[0]), id_of(key), *links_of(key[0], item), volume, gone, body_of(key[0], item), 0

    def custody_cells(self, volume, uprn, passed):
        action, other, hop = passed
        return self.code, 92, f"{uprn:012}", uprn, other, 0, int(action == ADOPTION), volume, NEVER, "", hop


class Used:
    """The keys that were ever used. That of a property is, too, where something became of its number."""

    def __init__(self, view):
        self.view = view

    def __contains__(self, key):
        return self.view.items.life(key) is not None or key[0] == "21" and self.view.custody.get(key[1]) is not None


class Homes:
    """The approved LPIs of each BLPU."""

    def __init__(self, view):
        self.view, self.of = view, {}

    def get(self, uprn, _other=None):
        mine = {key for key in self.of.get(uprn, ()) if self.view.approved.get(key, (0, 0))[1] == uprn}
        return mine | {("24", row[0]) for row in self.view.untouched(APPROVED_OF, uprn)}

    __getitem__ = get


# ---- the hub


class StoredHub(Hub):
    def __init__(self, path, register=REGISTER, text=TEXT):
        self.register = register
        self.conn = sqlite3.connect(path, isolation_level=None)
        for pragma in ("journal_mode = WAL", "synchronous = FULL", "cache_size = 64000"):
            self.conn.execute(f"PRAGMA {pragma}")
        if not self.conn.execute("SELECT 1 FROM sqlite_schema WHERE name = 'meta'").fetchone():
            self.make(text)
        counted = "SELECT cust, count(*) FROM received WHERE state > 0 GROUP BY cust"
        self.judged = dict.fromkeys(self.register, 0) | dict(self.conn.execute(counted))
        self.held = set(self.conn.execute("SELECT cust, volume FROM received WHERE state = 0"))
        self.read = {}

    def make(self, text):
        with open(f"{TOP}/checks/schema2/tables.sql") as file:
            self.conn.executescript("BEGIN;" + file.read())
        self.conn.execute("INSERT INTO meta VALUES (1, 2, ?)", (text,))
        self.conn.execute("COMMIT")

    @contextlib.contextmanager
    def commit(self):
        """One transaction, which begins where something is written."""
        yield
        if self.conn.in_transaction:
            self.conn.execute("COMMIT")

    def begin(self):
        if not self.conn.in_transaction:
            self.conn.execute("BEGIN IMMEDIATE")

    def file(self, code, volume):
        """The bytes of a file, its state, place and rule; None where it isn't there."""
        return self.conn.execute("SELECT bytes, state, place, rule FROM received WHERE cust = ? AND volume = ?", (code, volume)).fetchone()

    def reached(self, code):
        return self.judged.get(code, 0)

    def wants(self, code):
        volume = self.reached(code) + 1
        if volume > 999_999:
            return None
        if (code, volume) not in self.held:
            return code, volume
        bases, _ = self.reading(code, volume)
        return next(((d, w) for d, w in bases if self.reached(d) < w), None)

    def reading(self, code, volume):
        if (code, volume) not in self.read:
            bases, changes = read(self.file(code, volume)[0], code, volume)
            self.read[code, volume] = (bases, changes) if isinstance(bases, list) else ([], (bases, changes))
        return self.read[code, volume]

    def settle(self):
        judged = bool(self.held)
        while judged:
            judged = False
            for code in self.register:
                volume = self.reached(code) + 1
                if (code, volume) in self.held and self.wants(code) is None:
                    self.judge_next(code, volume)
                    judged = True

    def judge_next(self, code, volume):
        bases, changes = self.reading(code, volume)
        view = Working(self.conn, code)
        if isinstance(changes, tuple):
            verdict = changes
        else:
            verdict, _ = judge(code, self.register[code], view, {d: Past(self.conn, d, w) for d, w in bases}, changes)
        self.begin()
        state = (1, 0, 0) if verdict == "applied" else (2, *verdict)
        if verdict == "applied":
            view.write(volume)
        self.conn.execute("UPDATE received SET state = ?, place = ?, rule = ? WHERE cust = ? AND volume = ?", (*state, code, volume))
        del self.read[code, volume]
        self.judged[code] = volume
        self.held.discard((code, volume))

    def told(self, code, volume, state, place, rule):
        """The outcome of a received file as JSON, without the braces."""
        if state:
            return '"outcome":"applied"' if state == 1 else '"outcome":"rejected","record":%d,"rule":%d' % (place, rule)
        return '"outcome":"held","wants":{"custodian":%d,"volume":%d}' % self.wants(code)

    def submit(self, code, volume, data):
        fault = self.door(code, volume) or (names_unknown_profile(data) and (415, 16))
        if fault:
            return fault
        there = self.file(code, volume)
        if there is None:
            return self.receive(code, volume, data)
        if there[0] != data:
            return 409, '{"digest":"%s","outcome":"taken"}' % hashlib.sha256(there[0]).hexdigest()
        return 200, "{%s}" % self.told(code, volume, *there[1:])

    def receive(self, code, volume, data):
        with self.commit():
            self.begin()
            self.conn.execute("INSERT INTO received VALUES (?, ?, ?, 0, 0, 0)", (code, volume, data))
            self.held.add((code, volume))
            self.settle()
        return 201, "{%s}" % self.told(code, volume, *self.file(code, volume)[1:])

    def ask(self, code, volume):
        fault = self.door(code, volume)
        if fault:
            return fault
        there = self.file(code, volume)
        if there is None:
            return 404, 17
        return 200, '{"digest":"%s",%s}' % (hashlib.sha256(there[0]).hexdigest(), self.told(code, volume, *there[1:]))

    def status(self, code):
        if code not in self.register:
            return 404, 11
        held = sum(1 for d, _ in self.held if d == code)
        wants = self.wants(code)
        want = "null" if wants is None else '{"custodian":%d,"volume":%d}' % wants
        return 200, '{"custodian":%d,"held":%d,"judged":%d,"wants":%s}' % (code, held, self.reached(code), want)

    def current(self, code, key):
        """The item at a key in a custodian's last view."""
        row = self.conn.execute(NEWEST, (code, int(key[0]), id_of(key))).fetchone()
        return item_of(key[0], row[2]) if row and row[1] == NEVER else None

    def line_at(self, code, blpu):
        """The line of a custodian's property, or None without an approved address or its descriptor now."""
        lpis = self.conn.execute(APPROVED_OF, (code, blpu[0])).fetchall()
        if not lpis:
            return None
        lpi = item_of("24", min(lpis)[1])
        at = code if self.current(code, ("11", lpi[4])) else self.owner_of_usrn(lpi[4])
        descriptor = self.current(at, ("15", lpi[4], lpi[2]))
        return line_of(lpi, descriptor, blpu) if descriptor else None

    def passed(self, code, uprn):
        return StoredCustody(self.conn, code).get(uprn) if code else None

    def look_up(self, uprn):
        code = self.owner_of_uprn(uprn)
        blpu = code and self.current(code, ("21", uprn))
        if code and not blpu:
            code = self.holder(uprn)
            blpu = code and self.current(code, ("21", uprn))
        if not blpu:
            return 404, 17
        line = json.dumps(self.line_at(code, blpu), ensure_ascii=False)
        return 200, '{"custodian":%d,"line":%s,"status":%s,"uprn":%d}' % (code, line, blpu[1], uprn)

    def extract(self, code, volume):
        fault = self.door(code, volume)
        if fault:
            return fault
        if volume > self.reached(code):
            return 404, 17
        rows = self.conn.execute(HOLDING, (code, volume, volume)).fetchall()
        lines = ["%d,I,%d,%s" % (kind, order, body) for order, (kind, body) in enumerate(rows, 1)]
        return 200, "\n".join((f"10,E,{code},{volume}", *lines, f"99,{len(rows)}"))

    def is_closed(self, code, usrn):
        """Whether a street that isn't the custodian's own is closed."""
        if self.current(code, ("11", usrn)):
            return False
        street = self.current(self.owner_of_usrn(usrn), ("11", usrn))
        return street is not None and street[3] is not None

    def closed(self):
        found = []
        for code in self.register:
            for (usrn,) in self.conn.execute(STREETS, (code,)).fetchall():
                if self.is_closed(code, usrn):
                    found += ((code, row[0], usrn) for row in self.conn.execute(APPROVED_ON, (code, usrn)))
        return 200, '{"closed":[%s]}' % ",".join('{"custodian":%d,"lpi":"%s","usrn":%d}' % told for told in sorted(found))


if __name__ == "__main__":
    stored = StoredHub(sys.argv[1])
    answer(sys.stdin.buffer, sys.stdout.buffer, MOST, stored)
    stored.conn.close()
