"""Tests of `tour`, over small programs and pages in a temporary folder."""

import unittest
from pathlib import Path

from checks.in_folder import InAFolder
from checks.tour import FILES, PAGES, Shown, run_all, shown_in

TEXT = """# A page

    $ gazhub init --store hub.db
    ready
    $ gazhub line 42
    none
    [1]

It prints nothing:

    $ gazhub play

    $ sqlite3 hub.db 'select 1, 2 union select 3, 4'
    1|2
    3|4
"""
# Says that a store is ready, and of any number that there is none.
RIGHT = """#!/bin/sh
case "$1" in init) : > "$3"; echo ready;; line) echo none; exit 1;; esac
"""


class Touring(InAFolder):
    def faults(self, program: str, text: str = TEXT) -> list[str | None]:
        (self.folder / FILES).mkdir(parents=True)
        for page in PAGES:
            (self.folder / page).write_text(text)
        faults = [fault for _, fault in run_all(self.program(program), self.folder)]
        self.assertEqual([Path(PAGES[0]).name], [it.name for it in (self.folder / FILES).iterdir()])
        self.assertEqual(faults[: len(faults) // 2], faults[len(faults) // 2 :])  # (the pages are the same)
        return faults[: len(faults) // 2]

    def test_commands_are_read_off_the_page(self) -> None:
        self.assertEqual(
            [("gazhub init --store hub.db", "ready\n", 0), ("gazhub line 42", "none\n", 1), ("gazhub play", "", 0)],
            [(it.command, it.printed, it.status) for it in shown_in(TEXT)[:3]],
        )

    def test_a_status_alone_is_no_output(self) -> None:
        self.assertEqual([Shown("gazhub x", "", 3)], shown_in("    $ gazhub x\n    [3]\n"))

    def test_a_right_program_passes(self) -> None:
        self.assertEqual([None] * 4, self.faults(RIGHT))

    def test_another_output_is_reported(self) -> None:
        self.assertIn("differs", self.faults(RIGHT.replace("echo ready", "echo steady"))[0])

    def test_another_status_is_reported(self) -> None:
        self.assertEqual("exit status 0, wanted 1", self.faults(RIGHT.replace("exit 1", "exit 0"))[1])

    def test_other_rows_are_reported(self) -> None:
        self.assertIn("differs", self.faults(RIGHT, TEXT.replace("3|4", "3|5"))[3])


if __name__ == "__main__":
    unittest.main()
