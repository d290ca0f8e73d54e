"""Tests of `sizes`, over small programs in a temporary folder."""

import sys
import unittest
from pathlib import Path

from checks.breaking import SOURCE, fault_of
from checks.conversations import run_whole
from checks.in_folder import InAFolder
from checks.preloading import library
from checks.sizes import MIB, MOST, NO_ROUTE, SMALLEST, cases, long_line, many_headers, most_in_pieces, one_byte_over, unread

TOP = Path(__file__).resolve().parent.parent

PLAIN = f"""#!/bin/sh
exec {sys.executable} -S {TOP}/bench/hub.py
"""
# Answers at once, and reads nothing.
ANSWERING = """#!/bin/sh
exec cat "$0.replies"
"""
# Reads all that comes, and then answers.
READING = """#!/bin/sh
cat > /dev/null || exit 3
exec cat "$0.replies"
"""
FAILING = "#!/bin/sh\ncat > /dev/null\nexit 3\n"


class Generated(unittest.TestCase):
    def test_they_are_as_large_as_they_say(self) -> None:
        self.assertEqual(long_line().requests.index(b"\n") + 1, 16 * MIB)
        self.assertEqual(many_headers().requests.count(b"\na: b\r"), 1_000_000)
        body = one_byte_over().requests.split(b"\r\n\r\n", 1)[1].removesuffix(SMALLEST)
        self.assertEqual(len(body), 1_048_577)
        self.assertEqual(most_in_pieces().given.count(b"GET / "), MOST)

    def test_each_ends_with_its_refusal(self) -> None:
        for one in cases():
            self.assertIn(b"\r\nConnection: close\r\n", one.replies, one.name)

    def test_only_the_last_of_all_requests_closes(self) -> None:
        self.assertEqual(most_in_pieces().most.count(b"Connection: close"), 1)
        self.assertEqual(most_in_pieces(2).most, NO_ROUTE * 2)


class Running(InAFolder):
    def setUp(self) -> None:
        super().setUp()
        self.replies = self.folder / "program.replies"
        self.preloaded = library(SOURCE, self.folder)

    def test_a_right_program_passes(self) -> None:
        for one in cases():
            self.replies.write_bytes(one.replies)
            self.assertIsNone(run_whole(self.program(ANSWERING), one), one.name)
        self.assertIsNone(fault_of(self.program(PLAIN), self.preloaded, most_in_pieces(20)))

    def test_a_read_behind_a_refusal_is_told(self) -> None:
        for run in unread():
            self.replies.write_bytes(run.most)
            self.assertIsNone(fault_of(self.program(ANSWERING), self.preloaded, run), run.name)
            self.assertIn("exit status 3, wanted 0", fault_of(self.program(READING), self.preloaded, run), run.name)

    def test_what_is_missing_is_told(self) -> None:
        program = self.program(FAILING)
        for one in cases():
            self.assertIn("wanted 'HTTP/1.1 4", run_whole(program, one), one.name)
        self.assertIn("exit status 3, wanted 0", fault_of(program, self.preloaded, most_in_pieces(20)))


if __name__ == "__main__":
    unittest.main()
