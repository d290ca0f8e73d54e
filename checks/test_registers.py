"""Tests of `registers`, over small programs in a temporary folder."""

import sys
import unittest

from checks.in_folder import InAFolder
from checks.registers import CASES, KEPT, Case, edited, fault_of, kept_fault, run_all

# Reads a register that has a code, and no more of it; then it looks for the store.
RIGHT = """#!/bin/sh
[ "$1 $2 $4 $6" = "status --store --register 1001" ] || { echo "error: usage" >&2; exit 2; }
grep -q "^code = " "$5" || { echo "gazhub: Shape" >&2; exit 3; }
[ -f "$3" ] || { echo "gazhub: Fault" >&2; exit 3; }
echo ready
"""
# A program that takes every text for a register.
CREDULOUS = """#!/bin/sh
echo "gazhub: Fault" >&2
exit 3
"""
# A program that makes a store with this text of a register.
MAKING = f"""#!{sys.executable} -S
import sqlite3
with sqlite3.connect("s.db") as conn:
    conn.execute("CREATE TABLE meta (register TEXT)")
    conn.execute("INSERT INTO meta VALUES (?)", ({{!r}},))
print("ready")
"""
READ = Case("a code", b"code = 1\n", None)
REFUSED = Case("no code", b"name = 1\n", "Shape")


class Reading(InAFolder):
    def fault(self, text: str, case: Case, deadline: float = 60) -> str | None:
        return fault_of(self.program(text), case, deadline)

    def test_a_right_program_passes(self) -> None:
        for case in (READ, REFUSED):
            self.assertIsNone(self.fault(RIGHT, case), case.name)

    def test_another_fault_is_reported(self) -> None:
        self.assertIn("standard error differs", self.fault(RIGHT.replace("Shape", "NotToml"), REFUSED))

    def test_a_register_that_should_be_read_is_reported(self) -> None:
        self.assertIn("standard error differs", self.fault(RIGHT.replace("^code", "^codes"), READ))

    def test_another_status_is_reported(self) -> None:
        self.assertEqual(self.fault(RIGHT.replace("exit 3", "exit 1"), REFUSED), "exit status 1, wanted 3")

    def test_an_output_is_reported(self) -> None:
        self.assertIn("standard output differs", self.fault(RIGHT.replace("grep -q", "grep"), READ))

    def test_a_program_that_does_not_end_is_reported(self) -> None:
        self.assertEqual(self.fault("#!/bin/sh\nexec sleep 60\n", READ, deadline=1), "didn't end within 1 s")

    def test_a_program_that_refuses_nothing_fails_where_a_fault_is_wanted(self) -> None:
        ran, kept = run_all(self.program(CREDULOUS)), [case.name for case in KEPT]
        self.assertEqual([name for name, _ in ran], [case.name for case in CASES] + kept)
        self.assertEqual([name for name, fault in ran if fault], [case.name for case in CASES if case.fault] + kept)

    def test_the_text_that_a_store_has_is_asked_for(self) -> None:
        for case in KEPT:
            self.assertIsNone(kept_fault(self.program(MAKING.format(case.kept)), case), case.name)

    def test_another_text_in_a_store_is_reported(self) -> None:
        case, given = KEPT[0], '7,"Q, ""x""",5-6 1-1,\n3,é,,2-2\n'
        self.assertEqual(f"the store has {[(given,)]!r}", kept_fault(self.program(MAKING.format(given)), case))

    def test_a_store_that_is_not_made_is_reported(self) -> None:
        self.assertEqual("exit status 3, said b'gazhub: Fault\\n'", kept_fault(self.program(CREDULOUS), KEPT[0]))

    def test_what_is_edited_is_a_part_of_the_sample(self) -> None:
        with self.assertRaises(ValueError):
            edited("another code", "code = 1004", "code = 1005", None)

    def test_each_case_has_its_name_and_text(self) -> None:
        self.assertEqual(len(CASES) + len(KEPT), len({case.name for case in (*CASES, *KEPT)}))
        self.assertEqual(len(CASES), len({case.text for case in CASES}))


if __name__ == "__main__":
    unittest.main()
