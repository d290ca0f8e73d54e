"""Tests of the list of calls over stores, by a program that answers otherwise."""

import unittest

from checks import calls
from checks.in_folder import InAFolder, small_program
from checks.stores import built

# It answers otherwise where it is asked by this word, or where a store is there already.
PROGRAM = """#!/usr/bin/env python3
import pathlib, sys
word, store, _ = sys.argv[1:]
if word == "{bad}" or pathlib.Path(store).exists():
    sys.exit("Otherwise")
"""


class Calls(InAFolder):
    def faults(self, bad: str) -> list[str | None]:
        small_program(built(self.folder, "gaz_bench"), PROGRAM.format(bad=bad))
        return [fault for _, fault in calls.run_all(self.folder)]

    def test_all_is_answered(self) -> None:
        self.assertEqual([None] * 2, self.faults(""))

    def test_another_answer_is_told(self) -> None:
        otherwise = "exit status 1, Otherwise"
        self.assertEqual([otherwise, None], self.faults("calls"))
        self.assertEqual([None, otherwise], self.faults("calls-at-hand"))


if __name__ == "__main__":
    unittest.main()
