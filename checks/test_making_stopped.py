"""Tests of `making_stopped`, over small programs that make a store of a file that is given."""

import sys
import unittest

from checks.in_folder import InAFolder
from checks.making_stopped import PARTS, run_all
from checks.tables import opened

# Writes the file beside it as a store, the first page last, and looks at it; what was received is a file of its own.
RIGHT = f"""#!{sys.executable} -IS
import os, sys
def ends(status, line):
    print(line, file=sys.stderr if status else sys.stdout, flush=True)
    sys.exit(status)
def read(path):
    try:
        with open(path, "rb") as file:
            return file.read()
    except FileNotFoundError:
        return b""
there, whole = read("s.db"), read(sys.argv[0] + ".store")
command, received = sys.argv[1], os.path.exists("received")
is_there = there == whole
try:
    if command == "init":
        if is_there:
            ends(3, "gazhub: BadSchema")
        file = os.open("s.db", os.O_RDWR | os.O_CREAT)
        for page in (1, 0):
            os.pwrite(file, whole[page * 4096 :][:4096], page * 4096)
            os.fsync(file)
        os.pread(file, 1, 0)
        ends(0, "ready")
    if not is_there:
        ends(3, "gazhub: BadSchema")
    if command == "submit":
        open("received", "w").close()
        ends(0, "repeat applied" if received else "new applied")
    ends(0, f"custodian 1001 judged {{received:d}} held 0 wants 1001/{{received + 1}}")
except OSError:
    ends(3, "gazhub: Fault")
"""
EARLY = RIGHT.replace("        for page", '        print("ready", flush=True)\n        for page').replace('ends(0, "ready")', "sys.exit(0)")
FIRST_PAGE_FIRST = RIGHT.replace("(1, 0)", "(0, 1)").replace("there == whole", "there[:4096] == whole[:4096]")
STUBBORN = RIGHT.replace("        if is_there:", "        if there:")
OTHER = RIGHT.replace("there == whole", 'there in (whole, whole.replace(b"note", b"noto"))').replace(
    "        file = ", '        whole = whole.replace(b"note", b"noto") if there else whole\n        file = '
)
TWICE = RIGHT.replace("        if is_there:", "        if False:")
DEAF = RIGHT.replace('"repeat applied" if received else "new applied"', '"new held wants 1001/1"')
NAMELESS = RIGHT.replace("gazhub: Fault", "gazhub: NoPort")

NAMED = {part.name: part for part in PARTS}
SOME = ("calls of the file", "the machine stops", "the process is killed", "the machine stops, and the file is there in part")
MORE = ("one call", "the machine stops, and a file that wasn't synced isn't there")


class Stopping(InAFolder):
    def setUp(self) -> None:
        super().setUp()
        with opened(self.folder / "program.store") as conn:
            conn.executescript("CREATE TABLE note (n); INSERT INTO note VALUES (7)")

    def faults(self, text: str, *parts: str) -> list[str | None]:
        return [fault for _, fault in run_all(self.program(text), parts=tuple(NAMED[name] for name in parts))]

    def test_a_right_program_passes(self) -> None:
        self.assertEqual([None] * 7, self.faults(RIGHT, *SOME, *MORE))

    def test_what_isnt_done_mustnt_be_told(self) -> None:
        self.assertIn("it says that it is done, and it isn't", self.faults(EARLY, "calls of the file")[1])

    def test_a_store_that_is_taken_before_it_is_whole_is_found(self) -> None:
        faults = self.faults(FIRST_PAGE_FIRST, *SOME)
        self.assertIsNone(faults[0])
        self.assertTrue(any(faults), faults)

    def test_what_is_left_and_isnt_made_again_is_found(self) -> None:
        calm, *faults = self.faults(STUBBORN, "calls of the file", "the machine stops")
        self.assertIsNone(calm)
        for fault in faults:
            self.assertIn("given again it says (3, b'', b'gazhub: BadSchema", fault)

    def test_another_store_than_without_trouble_is_found(self) -> None:
        calm, *faults = self.faults(OTHER, "the machine stops")
        self.assertIsNone(calm)
        self.assertIn("given again it leaves another store", faults[0])

    def test_a_store_that_is_made_over_is_found(self) -> None:
        self.assertIn("given again", self.faults(TWICE)[0])

    def test_a_store_that_takes_no_file_is_found(self) -> None:
        self.assertIn("then submit says", self.faults(DEAF)[0])

    def test_another_word_is_found(self) -> None:
        self.assertIn("NoPort", self.faults(NAMELESS, "calls of the file")[1])


if __name__ == "__main__":
    unittest.main()
