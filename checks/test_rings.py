"""Tests of `rings`, over small programs in a temporary folder."""

import sys
import unittest
from pathlib import Path
from unittest import mock

from checks import rings
from checks.conversations import replies_in, requests_in
from checks.in_folder import InAFolder
from checks.rings import SIZES, Ring
from checks.stores import Hubs

TOP = Path(__file__).resolve().parent.parent

# The plain hub, of five custodians without blocks.
PLAIN = f"""#!{sys.executable} -S
import sys
sys.path[:0] = ["{TOP}/bench"]
import hub
hub.REGISTER.clear()
hub.REGISTER.update({{code: ([], []) for code in range(1, 6)}})
hub.answer(sys.stdin.buffer, sys.stdout.buffer)
"""
# It judges the files of the ring again at each question.
JUDGING = PLAIN.replace("hub.answer(", "if sys.stdin.buffer.peek(1 << 16).count(b'\\n90,'): sum(range(40_000_000))\nhub.answer(")


@mock.patch.object(rings, "CUSTODIANS", 5)
@mock.patch.object(rings, "QUESTIONS", 10)
class Running(InAFolder):
    def fault(self, text: str, run, size: int) -> str | None:
        hubs = Hubs(self.program(text), self.folder / "register.toml")
        return run(hubs, self.folder / "s.db", Ring(size))

    def test_a_right_program_passes(self) -> None:
        for size in (2, 3, 5):
            for how, run in rings.WAYS:
                self.assertIsNone(self.fault(PLAIN, run, size), f"{size} {how}")

    def test_another_answer_is_reported(self) -> None:
        waiting = PLAIN.replace("import hub", "import hub\nhub.Hub.wants = lambda *_: (5, 1)", 1)
        self.assertIn("differs at byte 70, in line 3", self.fault(waiting, rings.in_memory, 2))

    def test_one_that_judges_in_vain_is_reported(self) -> None:
        with mock.patch("checks.left.MARGIN", 0.1):
            self.assertIn("processor seconds", self.fault(JUDGING, rings.cost, 3))

    def test_another_end_is_reported(self) -> None:
        self.assertEqual("exit status 3", self.fault(PLAIN + "sys.exit(3)\n", rings.cost, 2))


class Generated(unittest.TestCase):
    def test_each_request_has_a_reply(self) -> None:
        for size in SIZES:
            one = Ring(size).conversation()
            self.assertEqual(len(requests_in(one.requests)), len(replies_in(one.replies)), one.name)

    def test_each_waits_for_the_next(self) -> None:
        self.assertEqual(Ring(3).file(1), b"10,1,1,2,2024-01-02\n90,2,2\n99,0\n")
        self.assertEqual(Ring(3).file(3), b"10,1,3,2,2024-01-02\n90,1,2\n99,0\n")

    def test_all_custodians_of_a_register_are_in_the_last_ring(self) -> None:
        self.assertEqual(Ring(SIZES[-1]).outsiders(), [])
        self.assertEqual(len(Ring(2).outsiders()), 2 * 398)


if __name__ == "__main__":
    unittest.main()
