"""Tests of `words`, over small programs in a temporary folder."""

import unittest

from checks.in_folder import InAFolder
from checks.words import AS_WRITTEN, TOLD, Told, fault_of, run_all, usage

# Knows help, and nothing else.
RIGHT = """#!/bin/sh
[ "$1" = help ] || { echo "error: unexpected argument '$1' found" >&2; exit 2; }
echo "A hub"
echo "Example: play"
"""
USAGE = usage("sing 1001", "error: unexpected argument 'sing'")
HELP = Told("help", "A hub\n", 0, shows="\nExample: play\n", most=2)


class Telling(InAFolder):
    def fault(self, text: str, told: Told, deadline: float = 60) -> str | None:
        return fault_of(self.program(text), told, deadline)

    def test_a_right_program_passes(self) -> None:
        for told in (USAGE, HELP):
            self.assertIsNone(self.fault(RIGHT, told), told.words)

    def test_another_text_is_reported(self) -> None:
        self.assertIn("standard error differs", self.fault(RIGHT.replace("unexpected", "unknown"), USAGE))
        self.assertIn("standard output differs", self.fault(RIGHT.replace("A hub", "A tub"), HELP))

    def test_a_text_that_breaks_off_is_reported(self) -> None:
        self.assertIn("got the end", self.fault("#!/bin/sh\nprintf 'A h'\n", HELP))

    def test_another_status_is_reported(self) -> None:
        self.assertEqual(self.fault(RIGHT.replace("exit 2", "exit 1"), USAGE), "exit status 1, wanted 2")

    def test_usage_on_the_other_stream_is_reported(self) -> None:
        fault = self.fault(RIGHT.replace(">&2; exit", "; exit"), USAGE)
        self.assertRegex(fault, "standard error differs .*; standard output differs")

    def test_help_has_to_show_its_example(self) -> None:
        self.assertIn("standard output doesn't show", self.fault(RIGHT.replace("Example", "Sample"), HELP))

    def test_help_that_does_not_fit_is_reported(self) -> None:
        self.assertEqual(self.fault(RIGHT + "echo\n", HELP), "standard output has 3 lines, at most 2 fit")

    def test_a_file_that_was_made_is_reported(self) -> None:
        self.assertEqual(self.fault(RIGHT.replace("exit 2", ": > s.db; exit 2"), USAGE), "s.db was made")

    def test_a_program_that_does_not_end_is_reported(self) -> None:
        self.assertEqual(self.fault("#!/bin/sh\nexec sleep 60\n", HELP, deadline=1), "didn't end within 1 s")

    def test_a_program_that_says_nothing_fails_everywhere(self) -> None:
        ran = run_all(self.program("#!/bin/sh\n"))
        self.assertEqual([name for name, _ in ran], [*(told.words for told in TOLD), AS_WRITTEN.name])
        self.assertEqual([name for name, fault in ran if fault is None], [])

    def test_no_words_stand_twice(self) -> None:
        self.assertEqual(len(TOLD), len({told.words for told in TOLD}))


if __name__ == "__main__":
    unittest.main()
