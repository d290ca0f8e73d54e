"""Tests of `making`, over small programs in a temporary folder."""

import sys

from checks.in_folder import InAFolder
from checks.making import GROUPS, Group, lacking, run_all

# A hub whose store has one table, `meta`.
RIGHT = f"""#!{sys.executable} -IS
import sqlite3, sys
conn = sqlite3.connect("s.db", isolation_level=None)
there = conn.execute("SELECT count(*) FROM sqlite_schema WHERE name = 'meta'").fetchone()[0]
if there == (sys.argv[1] == "init"):
    print("gazhub: BadSchema", file=sys.stderr)
    sys.exit(3)
if sys.argv[1] == "init":
    conn.execute("CREATE TABLE meta (id)")
print("ready" if sys.argv[1] == "init" else "custodian 1001 judged 0 held 0 wants 1001/1")
"""
MADE = Group("init", False, "", ("",))
NOT_MADE = Group("init", False, "BadSchema", ("CREATE TABLE meta (x)",))
TAKEN = Group("status", True, "", ("",))
NOT_TAKEN = Group("status", True, "BadSchema", ("DROP TABLE meta",))


class Making(InAFolder):
    def faults(self, text: str, *groups: Group) -> list[str | None]:
        return [fault for _, fault in run_all(self.program(text), groups)]

    def test_a_right_program_passes(self) -> None:
        self.assertEqual([None] * 4, self.faults(RIGHT, MADE, NOT_MADE, TAKEN, NOT_TAKEN))

    def test_another_refusal_is_reported(self) -> None:
        self.assertIn("wanted (3", self.faults(RIGHT.replace("BadSchema", "Fault"), NOT_MADE)[0])

    def test_a_store_that_should_be_taken_is_reported(self) -> None:
        self.assertIn("wanted (0", self.faults(RIGHT, Group("status", True, "", NOT_TAKEN.statements))[0])

    def test_a_refused_database_that_changes_is_reported(self) -> None:
        writing = RIGHT.replace("    print(", "    conn.execute('CREATE TABLE more (x)')\n    print(", 1)
        self.assertEqual(["it doesn't hold what it held"], self.faults(writing, NOT_MADE))

    def test_a_store_that_is_not_made_is_reported(self) -> None:
        idle = RIGHT.replace('conn.execute("CREATE TABLE meta (id)")', "pass")
        self.assertEqual(["no table was made"], self.faults(idle, MADE))

    def test_a_question_that_writes_is_reported(self) -> None:
        writing = RIGHT.replace('print("ready"', 'if sys.argv[1] == "status": conn.execute("CREATE TABLE more (x)")\nprint("ready"')
        self.assertEqual(["it doesn't hold what it held"], self.faults(writing, TAKEN))

    def test_each_column_is_left_out_once(self) -> None:
        self.assertEqual(30, len(set(lacking())))

    def test_each_kind_of_refusal_is_there(self) -> None:
        self.assertEqual({"", "BadSchema", "Fault", "OtherRegister"}, {it.word for it in GROUPS})
