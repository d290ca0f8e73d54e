"""Tests of `changing` and `stopped`, over small programs that change a store by Python's own SQLite."""

import sys
import unittest
from pathlib import Path

from checks.allowed import STOPPED
from checks.changing import AFTER, BEFORE, Change, told_fault, tried_of
from checks.in_folder import InAFolder
from checks.sessions import fails
from checks.stopped import PARTS, part_fault, room_of, run_all
from checks.tables import opened

# Adds 100 to each number of a store at once, and says so; says the least of them.
RIGHT = f"""#!{sys.executable} -IS
import sqlite3, sys
def ends(status, word, file=sys.stdout):
    print(word, file=file, flush=True)
    conn.close()
    sys.exit(status)
try:
    conn = sqlite3.connect("s.db", isolation_level=None)
    conn.execute("PRAGMA synchronous = FULL")
    least, = conn.execute("SELECT min(n) FROM note").fetchone()
    if sys.argv[1] == "least":
        ends(0, least)
    if least > 100:
        ends(1, "changed")
    conn.execute("BEGIN")
    conn.execute("UPDATE note SET n = n + 100 WHERE n % 2")
    conn.execute("UPDATE note SET n = n + 100 WHERE n % 2 = 0")
    conn.execute("COMMIT")
    ends(0, "done")
except sqlite3.Error:
    print("gazhub: Fault", file=sys.stderr)
    sys.exit(3)
"""
IN_TWO = RIGHT.replace('conn.execute("BEGIN")', "").replace('conn.execute("COMMIT")', "")
EARLY = RIGHT.replace('    conn.execute("BEGIN")', '    print("done", flush=True)\n    conn.execute("BEGIN")').replace('ends(0, "done")', "conn.close()")
SILENT = RIGHT.replace('print("gazhub: Fault", file=sys.stderr)', 'print("done")').replace("sys.exit(3)", "sys.exit(0)")
NAMELESS = RIGHT.replace("gazhub: Fault", "gazhub: NoPort")
NEVER = RIGHT.replace("COMMIT", "ROLLBACK")
TWICE = RIGHT.replace("least > 100", "least > 1000")

NAMED = {part.name: part for part in PARTS}
SOME = ("calls of the log", "the machine stops", "the process is killed")


class Stopping(InAFolder):
    def setUp(self) -> None:
        super().setUp()
        with opened(self.folder / "ready") as conn:
            conn.executescript("PRAGMA journal_mode = WAL; CREATE TABLE note (n)")
            conn.executemany("INSERT INTO note VALUES (?)", [(n,) for n in range(1, 21)])

    def change(self) -> Change:
        asked = ((("least",), (0, b"1\n", b""), (0, b"101\n", b"")),)
        return Change("add", self.folder / "ready", ("add",), (0, b"done\n", b""), (1, b"changed\n", b""), asked)

    def faults(self, text: str, *parts: str, every: int = 3) -> list[str | None]:
        with room_of(self.program(text), {}) as room:
            return [fault for _, fault in run_all(room, self.change(), every, tuple(NAMED[name] for name in parts))]

    def test_a_right_program_passes(self) -> None:
        self.assertEqual([None] * 4, self.faults(RIGHT, *SOME))
        self.assertEqual([None] * 2, self.faults(RIGHT, "the machine stops twice", every=1))

    def test_a_change_in_two_pieces_is_found(self) -> None:
        calm, *faults = self.faults(IN_TWO, *SOME)
        self.assertIsNone(calm)
        for fault in faults:
            self.assertIn("leaves neither", fault)

    def test_what_isnt_done_mustnt_be_told(self) -> None:
        for text in (EARLY, SILENT):
            self.assertIn("it says that it is done, and it isn't", self.faults(text, "calls of the log")[1])

    def test_another_word_is_found(self) -> None:
        self.assertIn("NoPort", self.faults(NAMELESS, "calls of the log")[1])

    def test_a_change_without_trouble_has_to_be_one(self) -> None:
        self.assertIn("without trouble", self.faults(NEVER)[0])
        self.assertIn("given again", self.faults(TWICE)[0])

    def test_what_nothing_met_is_told(self) -> None:
        with room_of(self.program(RIGHT), {}) as room:
            tried, fault = tried_of(room, self.change())
            self.assertIsNone(fault)
            self.assertEqual("no store is as it was after the change", part_fault(tried, NAMED["calls of the log"], 10_000))

    def test_both_states_are_known_and_no_other(self) -> None:
        with room_of(self.program(RIGHT), {}) as room:
            tried, _ = tried_of(room, self.change())
            for sql, state in (("", BEFORE), ("UPDATE note SET n = n + 100", AFTER), ("UPDATE note SET n = 7", None), ("CREATE TABLE it (x)", None)):
                store = tried.place()
                with opened(store) as conn:
                    conn.executescript(sql)
                self.assertEqual(state, tried.state(store), sql)


class Telling(unittest.TestCase):
    def fault(self, found: tuple, failed: int, state: str) -> str | None:
        return told_fault(Change("", Path(), (), (0, b"done\n", b""), (1, b"", b""), ()), found, failed, state)

    def test_what_a_command_in_trouble_may_say(self) -> None:
        for state in (BEFORE, AFTER):
            self.assertIsNone(self.fault((3, b"", fails("Fault")), 1, state))
            self.assertIsNone(self.fault((STOPPED, b"", b""), 1, state))
        self.assertIsNone(self.fault((STOPPED, b"done\n", b""), 1, AFTER))
        self.assertIsNone(self.fault((0, b"done\n", b""), 1, AFTER))
        self.assertIsNone(self.fault((0, b"done\n", b""), 0, AFTER))

    def test_what_it_may_not(self) -> None:
        for found, failed, state in (
            ((0, b"done\n", b""), 1, BEFORE),
            ((3, b"", fails("Fault")), 0, BEFORE),
            ((3, b"done\n", fails("Fault")), 1, AFTER),
            ((3, b"", fails("BadSchema")), 1, BEFORE),
            ((-11, b"", b""), 1, BEFORE),
            ((STOPPED, b"", b""), 0, BEFORE),
        ):
            self.assertIsNotNone(self.fault(found, failed, state), (found, failed, state))


if __name__ == "__main__":
    unittest.main()
