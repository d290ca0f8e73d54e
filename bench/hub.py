"""A plain hub in Python's standard library: dictionaries and `csv`, both profiles, every rule; it answers a stream of requests."""
import csv
import hashlib
import io
import json
import sys

from framing import MOST, head_of, is_closing, length_of, number
from hub_files import ROWS, names_unknown_profile, read
from hub_lines import line_of
from hub_rules import judge
from hub_views import ADOPTION, RELEASE, View, within

REGISTER = {
    1001: ([(1, 99_999), (999_999_999_000, 999_999_999_999)], [(100, 199), (99_999_999, 99_999_999)]),
    1002: ([(100_000, 199_999)], [(200, 299)]),
    1003: ([(200_000, 299_999)], [(300, 399)]),
}


class Hub:
    def __init__(self, register=REGISTER):
        self.register = register
        self.files = {}
        self.read = {}
        self.verdicts = {code: [] for code in register}
        self.views = {code: [View()] for code in register}

    def grow(self, register):
        """Another register takes the place of the hub's: it may have more custodians, and each has its blocks as before."""
        self.register = register
        self.verdicts = {code: self.verdicts.get(code, []) for code in register}
        self.views = {code: self.views.get(code, [View()]) for code in register}

    def owner_of_uprn(self, uprn):
        return next((code for code, (blocks, _) in self.register.items() if within(blocks, uprn)), None)

    def passed(self, code, uprn):
        """What last became of a number in a custodian's last view."""
        return self.last(code).custody.get(uprn)

    def holder(self, uprn):
        """The custodian that holds a number: the one in whose block it is, then along its releases; None where the last of them isn't adopted, or nobody has the block."""
        code, hop = self.owner_of_uprn(uprn), 0
        passed = self.passed(code, uprn)
        while passed and passed[0] == RELEASE and passed[2] > hop:
            _, code, hop = passed
            passed = self.passed(code, uprn)
        reached = passed and passed[0] == ADOPTION and passed[2] >= hop
        return code if reached or passed is None and hop == 0 else None

    def owner_of_usrn(self, usrn):
        return next((code for code, (_, blocks) in self.register.items() if within(blocks, usrn)), None)

    def door(self, code, volume):
        if code not in self.register:
            return 404, 11
        return (404, 12) if volume is None else None

    def reached(self, code):
        return len(self.verdicts.get(code, ()))

    def wants(self, code):
        volume = self.reached(code) + 1
        if volume > 999_999:
            return None
        if (code, volume) not in self.files:
            return code, volume
        bases, _ = self.reading(code, volume)
        return next(((d, w) for d, w in bases if self.reached(d) < w), None)

    def reading(self, code, volume):
        """The basis lines of a file, none where it is at fault, and its changes or its fault."""
        if (code, volume) not in self.read:
            bases, changes = read(self.files[code, volume], code, volume)
            self.read[code, volume] = (bases, changes) if isinstance(bases, list) else ([], (bases, changes))
        return self.read[code, volume]

    def settle(self):
        judged = True
        while judged:
            judged = False
            for code in self.register:
                volume = self.reached(code) + 1
                if (code, volume) in self.files and self.wants(code) is None:
                    self.judge_next(code, volume)
                    judged = True

    def judge_next(self, code, volume):
        bases, changes = self.reading(code, volume)
        view = self.views[code][-1]
        if isinstance(changes, tuple):
            verdict, after = changes, view
        else:
            verdict, after = judge(code, self.register[code], view, {d: self.views[d][w] for d, w in bases}, changes)
        del self.read[code, volume]
        self.verdicts[code].append(verdict)
        self.views[code].append(after)

    def outcome(self, code, volume):
        """The outcome of a received file as JSON, without the braces."""
        if volume <= self.reached(code):
            verdict = self.verdicts[code][volume - 1]
            return '"outcome":"applied"' if verdict == "applied" else '"outcome":"rejected","record":%d,"rule":%d' % verdict
        return '"outcome":"held","wants":{"custodian":%d,"volume":%d}' % self.wants(code)

    def submit(self, code, volume, data):
        fault = self.door(code, volume) or (names_unknown_profile(data) and (415, 16))
        if fault:
            return fault
        self.settle()
        there = self.files.get((code, volume))
        if there is not None and there != data:
            return 409, '{"digest":"%s","outcome":"taken"}' % hashlib.sha256(there).hexdigest()
        self.files[code, volume] = data
        self.settle()
        return 201 if there is None else 200, "{%s}" % self.outcome(code, volume)

    def ask(self, code, volume):
        fault = self.door(code, volume)
        if fault:
            return fault
        self.settle()
        there = self.files.get((code, volume))
        if there is None:
            return 404, 17
        return 200, '{"digest":"%s",%s}' % (hashlib.sha256(there).hexdigest(), self.outcome(code, volume))

    def status(self, code):
        if code not in self.register:
            return 404, 11
        self.settle()
        held = sum(1 for d, v in self.files if d == code and v > self.reached(code))
        wants = self.wants(code)
        want = "null" if wants is None else '{"custodian":%d,"volume":%d}' % wants
        return 200, '{"custodian":%d,"held":%d,"judged":%d,"wants":%s}' % (code, held, self.reached(code), want)


    def last(self, code):
        return self.views[code][-1] if code in self.views else View()

    def line(self, code, uprn):
        """The line of a custodian's property, or None without an approved address or its descriptor now."""
        view = self.last(code)
        keys = sorted(view.homes.get(uprn, ()))
        if not keys:
            return None
        lpi = view.items[keys[0]]
        at = view if ("11", lpi[4]) in view.items else self.last(self.owner_of_usrn(lpi[4]))
        descriptor = at.items.get(("15", lpi[4], lpi[2]))
        return line_of(lpi, descriptor, view.items["21", uprn]) if descriptor else None

    def look_up(self, uprn):
        self.settle()
        code = self.holder(uprn)
        if code is None or ("21", uprn) not in self.last(code).items:
            return 404, 17
        status = int(self.last(code).items["21", uprn][1])
        line = json.dumps(self.line(code, uprn), ensure_ascii=False)
        return 200, '{"custodian":%d,"line":%s,"status":%d,"uprn":%d}' % (code, line, status, uprn)

    def extract(self, code, volume):
        fault = self.door(code, volume)
        if fault:
            return fault
        self.settle()
        if volume > self.reached(code):
            return 404, 17
        items = sorted(self.views[code][volume].items.items())
        sink = io.StringIO()
        write = csv.writer(sink, lineterminator="\n").writerow
        write(("10", "E", code, volume))
        for order, (key, item) in enumerate(items, 1):
            write((key[0], "I", order, *ROWS[key[0]](item)))
        write(("99", len(items)))
        return 200, sink.getvalue()[:-1]

    def is_closed_elsewhere(self, code, usrn):
        if ("11", usrn) in self.last(code).items:
            return False
        street = self.last(self.owner_of_usrn(usrn)).items.get(("11", usrn))
        return street is not None and street[3] is not None

    def closed(self):
        self.settle()
        lpis = ((code, *item) for code in self.register for key, item in self.last(code).items.items() if key[0] == "24" and item[3] == "1")
        found = sorted((code, lpi[0], lpi[4]) for code, *lpi in lpis if self.is_closed_elsewhere(code, lpi[4]))
        return 200, '{"closed":[%s]}' % ",".join('{"custodian":%d,"lpi":"%s","usrn":%d}' % told for told in found)


# ---- requests

REASONS = {200: "OK", 201: "Created", 404: "Not Found", 405: "Method Not Allowed", 409: "Conflict", 415: "Unsupported Media Type"}


def answer_to(hub, method, target, body):
    """The status, the body and the allowed methods of a reply."""
    first, *segments = target.decode("latin-1").split("/")
    if first or not segments:
        return 404, 41, None
    if len(segments) == 4 and segments[0] == "custodians" and segments[2] == "volumes" and segments[1] and segments[3]:
        if method not in (b"POST", b"GET"):
            return 405, 42, "GET, POST"
        code, volume = number(segments[1], 4, 1, 9999), number(segments[3], 6, 1, 999_999)
        return *(hub.submit(code, volume, body) if method == b"POST" else hub.ask(code, volume)), None
    if len(segments) == 2 and segments[0] == "custodians" and segments[1]:
        if method != b"GET":
            return 405, 42, "GET"
        return *hub.status(number(segments[1], 4, 1, 9999)), None
    return reading_of(hub, method, segments)


def reading_of(hub, method, segments):
    """The reply of a route that only reads."""
    lengths = {"uprn": 2, "extract": 3, "closed": 1}
    if lengths.get(segments[0]) != len(segments) or "" in segments:
        return 404, 41, None
    if method != b"GET":
        return 405, 42, "GET"
    if segments[0] == "closed":
        return *hub.closed(), None
    if segments[0] == "extract":
        return *hub.extract(number(segments[1], 4, 1, 9999), number(segments[2], 6, 1, 999_999)), None
    uprn = number(segments[1], 12, 1, 999_999_999_999)
    return *((404, 17) if uprn is None else hub.look_up(uprn)), None


def write_reply(sink, status, text, allow, closes):
    kind = "text/csv" if isinstance(text, str) and text.startswith("10,E,") else "application/json"
    body = ('{"refusal":%d}\n' % text if isinstance(text, int) else text + "\n").encode()
    allow = "Allow: %s\r\n" % allow if allow else ""
    close = "Connection: close\r\n" if closes else ""
    head = "HTTP/1.1 %d %s\r\nContent-Type: %s\r\nContent-Length: %d\r\n%s%s\r\n" % (status, REASONS[status], kind, len(body), allow, close)
    sink.write(head.encode() + body)


def refuse(sink, status, refusal):
    body = b'{"refusal":%d}\n' % refusal
    sink.write(b"HTTP/1.1 %s\r\nContent-Type: application/json\r\nContent-Length: %d\r\nConnection: close\r\n\r\n%s" % (status, len(body), body))


def answer(source, sink, most=MOST, hub=None):
    """Answers the requests of a stream at a hub, which is a new one where none is given."""
    hub = hub or Hub()
    for count in range(1, most + 1):
        head = head_of(source)
        if head is None:
            return
        if not head:
            return refuse(sink, b"400 Bad Request", 40)
        method, target, minor, headers = head
        size, refusal = length_of(method, headers)
        if refusal:
            return refuse(sink, *refusal)
        body = source.read(size)
        if len(body) < size:
            return refuse(sink, b"400 Bad Request", 40)
        closes = count == most or is_closing(minor, headers)
        write_reply(sink, *answer_to(hub, method, target, body), closes)
        if closes:
            return


def replies_to(requests, hub=None):
    """What a hub replies to requests, one after another; a new one where none is given."""
    sink = io.BytesIO()
    answer(io.BytesIO(b"".join(requests)), sink, hub=hub)
    return sink.getvalue()


if __name__ == "__main__":
    answer(sys.stdin.buffer, sys.stdout.buffer)
