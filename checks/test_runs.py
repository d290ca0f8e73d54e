"""Tests of `runs`, over small programs in a temporary folder."""

import unittest

from checks.in_folder import InAFolder
from checks.runs import GET, READ_FAULT, REPLY, RUNS, WRITE_FAULT, Run, fault_of

# Answers one request at most, with the text of a file beside it, and no words.
RIGHT = """#!/bin/sh
end() { echo "gazhub: $2" >&2; exit $1; }
[ $# = 0 ] || end 2 usage
given=$(cat 2> /dev/null) || end 3 ReadFault
[ -z "$given" ] || cat "$0.reply" 2> /dev/null || end 3 WriteFault
"""
USAGE = b"gazhub: usage\n"
ASKED = Run("a request", (), GET, 0, written=REPLY)
WORD = Run("a word", ("nonsense",), GET, 2, said=USAGE)
UNREADABLE = Run("a folder", (), b"", 3, said=READ_FAULT, source="/")
UNHEARD = Run("a word that nobody hears of", ("nonsense",), GET, 2, said_to="/dev/full")
FULL = Run("a full output", (), GET, 3, said=WRITE_FAULT, sink="/dev/full")


class Running(InAFolder):
    def fault(self, text: str, run: Run, deadline: float = 60, reply: bytes = REPLY) -> str | None:
        (self.folder / "program.reply").write_bytes(reply)
        return fault_of(self.program(text), run, deadline)

    def test_a_right_program_passes(self) -> None:
        for run in (ASKED, WORD, UNHEARD, UNREADABLE, FULL):
            self.assertIsNone(self.fault(RIGHT, run), run.name)

    def test_another_status_is_reported(self) -> None:
        self.assertEqual(self.fault(RIGHT.replace("end 2", "end 1"), WORD), "exit status 1, wanted 2")

    def test_another_line_is_reported(self) -> None:
        for run in (WORD, UNREADABLE, FULL):
            self.assertIn("standard error differs at byte 0", self.fault(RIGHT.replace("gazhub", "hub"), run))

    def test_another_output_is_reported(self) -> None:
        self.assertIn("standard output differs", self.fault(RIGHT, ASKED, reply=b"no"))

    def test_a_program_that_does_not_end_is_reported(self) -> None:
        self.assertEqual(self.fault(RIGHT + "exec sleep 60", ASKED, 1), "didn't end within 1 s")

    def test_each_run_has_its_name(self) -> None:
        self.assertEqual(len(RUNS), len({run.name for run in RUNS}))


if __name__ == "__main__":
    unittest.main()
