"""Tests of `breaking`, over small programs in a temporary folder."""

import errno
import sys
import unittest
from pathlib import Path

from checks.breaking import EVER, SOURCE, Broken, Side, Stream, breaks, calm, fault_of, faults_of, prefixes, readers, stays, worked, writers
from checks.in_folder import InAFolder
from checks.preloading import library
from checks.runs import CUT_OFF, GET, READ_FAULT, REPLY, WRITE_FAULT
from checks.stores import Hubs

TOP = Path(__file__).resolve().parent.parent
TWO = Stream(GET * 2, REPLY * 2)

# Reads pieces of at most 100 bytes to the end, and writes each as it comes: how often it read and wrote, and the error that ended it.
COPYING = """
import os, sys
reads, writes, why = 0, 0, 0
try:
    while piece := os.read(0, 100):
        reads += 1
        while piece:
            piece = piece[os.write(1, piece):]
            writes += 1
except OSError as error:
    why = error.errno
sys.stderr.write(f"{reads} {writes} {why}")
"""

# Answers two requests at most, in one write, as `gazhub` would, and says where it broke.
RIGHT = f"""
import ctypes, os, sys
libc = ctypes.CDLL(None, use_errno=True)
GET, REPLY, CUT_OFF = {GET!r}, {REPLY!r}, {CUT_OFF!r}
room = ctypes.create_string_buffer(4096)

def ends(line):
    sys.stderr.write(line)
    os._exit(3 if line else 0)

def put(text):
    while text:
        n = libc.write(1, text, len(text))
        if n == 0 or n < 0 and ctypes.get_errno() != {errno.EINTR}:
            ends("gazhub: WriteFault\\n")
        text = text[max(n, 0):]

had = b""
while True:
    n = libc.read(0, room, 4096)
    if n < 0:
        ends("gazhub: ReadFault\\n")
    if n == 0:
        break
    had += room.raw[:n]
    while had.startswith(GET):
        put(REPLY)
        had = had[len(GET):]
if had.strip(b"\\r\\n"):
    put(CUT_OFF)
ends("")
"""


class WithTheLibrary(InAFolder):
    def setUp(self) -> None:
        super().setUp()
        self.preloaded = library(SOURCE, self.folder)

    def in_python(self, text: str) -> Path:
        return self.program(f"#!{sys.executable} -IS\n{text}")


class Breaking(WithTheLibrary):
    def copied(self, reads: Side, writes: Side) -> tuple[bytes, bytes]:
        ran = breaks([sys.executable, "-c", COPYING], self.preloaded, b"a" * 150, reads, writes)
        return ran.stdout, ran.stderr

    def test_nothing_breaks_where_nothing_is_said(self) -> None:
        self.assertEqual(self.copied(Side(), Side()), (b"a" * 150, b"2 2 0"))

    def test_pieces_are_small(self) -> None:
        self.assertEqual(self.copied(Side(1), Side()), (b"a" * 150, b"150 150 0"))
        self.assertEqual(self.copied(Side(), Side(1)), (b"a" * 150, b"2 150 0"))

    def test_a_side_fails_at_its_byte(self) -> None:
        self.assertEqual(self.copied(Side(at=120, error=errno.EIO, times=EVER), Side()), (b"a" * 120, b"2 2 5"))
        self.assertEqual(self.copied(Side(), Side(at=30, error=errno.EIO, times=EVER)), (b"a" * 30, b"1 1 5"))

    def test_a_side_fails_as_often_as_it_is_told(self) -> None:
        # Python asks again where it was interrupted.
        interrupted = Side(at=30, error=errno.EINTR, times=3)
        self.assertEqual(self.copied(interrupted, interrupted), (b"a" * 150, b"3 3 0"))

    def test_a_side_takes_nothing(self) -> None:
        self.assertEqual(self.copied(Side(at=120, times=EVER), Side()), (b"a" * 120, b"2 2 0"))
        self.assertEqual(self.copied(Side(), Side(at=30, times=2)), (b"a" * 150, b"2 5 0"))


class Running(WithTheLibrary):
    def faults(self, text: str, runs: list[Broken]) -> list[str | None]:
        return faults_of(self.in_python(text), self.preloaded, runs)

    def some(self) -> list[Broken]:
        runs = [*readers(TWO), *prefixes(TWO), *writers(TWO), *calm(TWO)]
        return runs[::29] + runs[-3:]

    def test_a_right_program_passes(self) -> None:
        runs = self.some()
        self.assertEqual(self.faults(RIGHT, runs), [None] * len(runs))

    def test_a_run_by_itself_ends_alike(self) -> None:
        fails = Broken("", GET, Side(at=len(GET), error=errno.EIO, times=EVER), Side(), 3, READ_FAULT, REPLY, REPLY)
        for text, runs in ((RIGHT, self.some()[::5]), (RIGHT.replace("3 if", "1 if"), [fails]), (RIGHT.replace("put(REPLY)", "put(REPLY * 2)"), [fails])):
            program = self.in_python(text)
            self.assertEqual(faults_of(program, self.preloaded, runs), [fault_of(program, self.preloaded, run) for run in runs])

    def test_what_is_wrong_is_told(self) -> None:
        fails = Broken("", GET, Side(at=len(GET), error=errno.EIO, times=EVER), Side(), 3, READ_FAULT, REPLY, REPLY)
        for text, words in (
            (RIGHT.replace("3 if", "1 if"), "exit status 1, wanted 3"),
            (RIGHT.replace("ReadFault", "Fault"), "standard error differs"),
            (RIGHT.replace("put(REPLY)", "put(REPLY[:9])"), "standard output differs at byte 9"),
            (RIGHT.replace("put(REPLY)", "put(REPLY * 2)"), "standard output differs at byte"),
        ):
            self.assertIn(words, self.faults(text, [fails])[0])

    def test_an_interrupted_write_is_not_the_end(self) -> None:
        interrupted = Broken("", GET, Side(), Side(at=9, error=errno.EINTR, times=1), 0, b"", REPLY, REPLY)
        self.assertIn("exit status 3, wanted 0", self.faults(RIGHT.replace(f"!= {errno.EINTR}", "!= 0"), [interrupted])[0])

    def test_a_program_that_polls_its_input_is_reported(self) -> None:
        once = "    n = libc.read(0, room, 4096)\n"
        polls = RIGHT.replace(once, f"{once}    n = n or libc.read(0, room, 4096)\n")
        run = Broken("", GET, Side(1), Side(), 0, b"", REPLY, REPLY)
        self.assertEqual(self.faults(RIGHT, [run]), [None])
        self.assertIn("exit status 97, wanted 0", self.faults(polls, [run])[0])

    def test_a_front_is_enough_where_the_writer_goes_on(self) -> None:
        once = Broken("", GET, Side(), Side(at=9, times=1), 3, WRITE_FAULT, REPLY[:9], REPLY)
        self.assertEqual(self.faults(RIGHT, [once]), [None])

    def test_a_program_that_never_reads_is_reported(self) -> None:
        program = self.program("#!/bin/sh\nexit 3\n")
        self.assertEqual(["0 of 2 runs ended, and the process that forked them by 3"], faults_of(program, self.preloaded, self.some()[:2]))


# Keeps what it is asked in a file, and tells how many requests it has.
KEEPING = f"""
import os, pathlib, sys
GET, REPLY = {GET!r}, {REPLY!r}
path, had = pathlib.Path(sys.argv[2]), b""

def kept():
    return path.read_bytes() if path.exists() else b""

def keep(request):
    path.write_bytes(kept() + request)

def put(reply):
    while reply:
        reply = reply[os.write(1, reply):]

while piece := os.read(0, 1):
    had += piece
    if had.endswith(b"\\r\\n\\r\\n"):
        keep(had)
        put(REPLY if had == GET else b"%d" % kept().count(GET))
        had = b""
"""
# Keeps it only once the reply is out.
FORGETTING = KEEPING.replace("        keep(had)\n", "").replace('        had = b""', '        keep(had)\n        had = b""')


class Staying(WithTheLibrary):
    def fault(self, text: str, at: int) -> str | None:
        hubs = Hubs(self.in_python(text), self.folder / "register.toml")
        return stays(hubs, self.preloaded, self.new_folder(), TWO, at)

    def test_a_right_program_passes(self) -> None:
        for at in (0, len(REPLY), 2 * len(REPLY)):
            self.assertIsNone(self.fault(KEEPING, at), at)

    def test_one_that_forgets_is_reported(self) -> None:
        self.assertIn("differs at byte 0", self.fault(FORGETTING, len(REPLY)))


class Expecting(unittest.TestCase):
    def test_a_reply_waits_for_its_whole_request(self) -> None:
        size = len(GET)
        self.assertEqual([TWO.whole(at) for at in (0, size - 1, size, 2 * size - 1, 2 * size)], [0, 0, 1, 1, 2])

    def test_a_request_is_answered_once_the_reply_before_is_out(self) -> None:
        size = len(REPLY)
        self.assertEqual([TWO.answered(at) for at in (0, size - 1, size, 2 * size - 1, 2 * size)], [1, 1, 2, 2, 2])

    def test_only_a_cut_request_is_refused(self) -> None:
        fronts = {len(run.given): run.most for run in prefixes(TWO)}
        size = len(GET)
        wanted = {0: b"", 1: CUT_OFF, size: REPLY, size + 1: REPLY + CUT_OFF, 2 * size: REPLY * 2, 2 * size + 4: REPLY * 2}
        self.assertEqual({at: fronts[at] for at in wanted}, wanted)

    def test_each_byte_of_the_stream_breaks(self) -> None:
        stream = worked(TOP)
        self.assertEqual({run.reads.at for run in readers(stream)}, set(range(len(stream.requests) + 1)))
        self.assertEqual({run.writes.at for run in writers(stream)}, set(range(len(stream.replies))))


if __name__ == "__main__":
    unittest.main()
