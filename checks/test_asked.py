"""Tests of `asked`, over small programs in a temporary folder."""

import sys
import unittest
from pathlib import Path

from checks import asked
from checks.asked import Case, Step
from checks.conversations import requests_in
from checks.in_folder import InAFolder
from checks.large import APPLIED, told
from checks.stores import Hubs, post
from checks.wanting import plain

TOP = Path(__file__).resolve().parent.parent

# The plain hub, which says that it looked two items up for each file, and asked so often for what is received.
PLAIN = f"""#!{sys.executable} -S
import io, sys
sys.path[:0] = ["{TOP}/bench"]
import hub
given = sys.stdin.buffer.read()
files = given.count(b"POST ")
hub.answer(io.BytesIO(given), sys.stdout.buffer)
print(2 * files, 0, 0, files, file=sys.stderr)
"""
# It counts nothing.
SILENT = PLAIN.partition("print")[0]

FILES = [told(post(1001, volume, b"10,1,1001,%d,2024-01-02\n99,0\n" % volume), APPLIED) for volume in (1, 2)]


class Asking(InAFolder):
    def hubs(self, text: str) -> Hubs:
        return Hubs(self.program(text), self.folder / "register.toml")

    def fault(self, text: str, calls: tuple[str, ...], least: int, most: int) -> str | None:
        """What is wrong with the second of two files, for which the keeper may be asked so often."""
        steps = Step(FILES[0]), Step(FILES[1], (least, most))
        return asked.fault_of(self.hubs(text), Case("two files", calls, steps))

    def test_a_right_program_passes(self) -> None:
        self.assertIsNone(self.fault(PLAIN, ("current",), 2, 2))
        self.assertIsNone(self.fault(PLAIN, ("reached", "received"), 0, 1))
        self.assertIsNone(self.fault(PLAIN, asked.CALLS, 3, 3))

    def test_one_that_asks_too_often_is_reported(self) -> None:
        self.assertEqual("request 2 asks 2 times current, wanted 0 to 1", self.fault(PLAIN, ("current",), 0, 1))
        self.assertEqual("request 2 asks 1 times reached and received, wanted 0 to 0", self.fault(PLAIN, ("reached", "received"), 0, 0))

    def test_one_that_asks_too_seldom_is_reported(self) -> None:
        self.assertEqual("request 2 asks 0 times property_of, wanted 1 to 1", self.fault(PLAIN, ("property_of",), 1, 1))

    def test_another_answer_is_reported(self) -> None:
        self.assertIn("differs at byte 9", self.fault(PLAIN.replace("import hub\n", "import hub\nhub.Hub.door = lambda *_: (404, 11)\n"), ("current",), 2, 2))

    def test_another_end_is_reported(self) -> None:
        self.assertEqual("exit status 3, 4 0 0 2", self.fault(PLAIN + "sys.exit(3)\n", ("current",), 2, 2))
        self.assertEqual("exit status 0, no counts", self.fault(SILENT, ("current",), 2, 2))
        self.assertIn("exit status 0, 4 0 0", self.fault(PLAIN.replace(", files, file", ", file"), ("current",), 2, 2))


class Generated(unittest.TestCase):
    def test_the_plain_hub_answers_so(self) -> None:
        for case in asked.cases():
            if case not in asked.CHAINS:  # (it walks them anew from each property)
                hub = plain.Hub({code: ([], []) for code in range(1, asked.CUSTODIANS + 1)} if case.custodians else plain.REGISTER)
                told = plain.replies_to([step.turn.request for step in case.steps], hub)
                self.assertEqual(b"".join(step.turn.reply for step in case.steps), told, case.name)

    def test_each_step_is_a_request(self) -> None:
        for case in asked.cases():
            self.assertTrue(any(step.wanted for step in case.steps), case.name)
            self.assertTrue(all(len(requests_in(step.turn.request)) == 1 for step in case.steps), case.name)

    def test_their_names_differ(self) -> None:
        names = [case.name for case in asked.cases()]
        self.assertEqual(len(names), len(set(names)))


if __name__ == "__main__":
    unittest.main()
