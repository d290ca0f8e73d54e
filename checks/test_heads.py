"""Tests of `heads`: the plain hub in Python passes, and a program that takes or refuses another head is reported."""

import sys
import unittest
import unittest.mock

from checks.conversations import difference
from checks.heads import EACH, OVER, REFUSED, TAKEN, cases, first_fault, in_name, in_value, refused, run_all, taken
from checks.in_folder import InAFolder
from checks.runs import CUT_OFF, GET, REPLY
from checks.wanting import plain

# Answers each head that ends with an empty line, whatever it is.
TAKING = f"""#!{sys.executable} -S
import sys
head = b""
while line := sys.stdin.buffer.readline():
    head += line
    if line == b"\\r\\n" and head.strip():
        sys.stdout.buffer.write({REPLY!r})
        head = b""
"""
REFUSING = f"#!{sys.executable} -S\nimport sys\nsys.stdin.buffer.read()\nsys.stdout.buffer.write({REPLY + CUT_OFF!r})\n"


class Heads(unittest.TestCase):
    def test_the_plain_hub_passes(self) -> None:
        for name, them in cases().items():
            self.assertIsNone(first_fault((it, difference(it.replies, plain.replies_to([it.requests]))) for it in them), name)

    def test_each_byte_is_tried_at_each_place(self) -> None:
        tried = [len(them) for them in cases().values()]
        self.assertEqual([1] * (len(REFUSED) + len(TAKEN) + len(OVER)) + [len(EACH)] * 4, tried)

    def test_as_many_bytes_as_are_said(self) -> None:
        for heads in (REFUSED, TAKEN, OVER):
            for name, head in heads.items():
                if name.startswith("8,19"):
                    self.assertEqual(name[:5].replace(",", ""), str(len(head.removesuffix(GET) if "and a request" in name else head)), name)

    def test_bytes_that_are_taken_and_others(self) -> None:
        for byte, name, value in ((0x7F, False, False), (0x80, False, True), (0x20, False, True), (0x2D, True, True), (0x0D, False, False)):
            self.assertEqual((name, value), (CUT_OFF not in in_name(byte).replies, CUT_OFF not in in_value(byte).replies), byte)


class Running(InAFolder):
    def faults(self, text: str) -> dict[str, str | None]:
        few = {"refused": [refused("folded", REFUSED["a folded header"])], "taken": [taken("none", TAKEN["no header"])]}
        with unittest.mock.patch("checks.heads.cases", lambda: few):
            return dict(run_all(self.program(text)))

    def test_a_head_that_mustnt_be_taken_is_reported(self) -> None:
        faults = self.faults(TAKING)
        self.assertIn("folded: differs at byte", faults["refused"])
        self.assertIsNone(faults["taken"])

    def test_a_head_that_mustnt_be_refused_is_reported(self) -> None:
        faults = self.faults(REFUSING)
        self.assertIsNone(faults["refused"])
        self.assertIn("none: differs at byte", faults["taken"])


if __name__ == "__main__":
    unittest.main()
