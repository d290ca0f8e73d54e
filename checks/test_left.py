"""Tests of `left`, over small programs in a temporary folder."""

import sys
import unittest
from unittest import mock

from checks import left
from checks.conversations import replies_in, requests_in
from checks.in_folder import InAFolder
from checks.stores import Hubs

STREET = left.LEAVINGS[0]

# Answers what is wanted of either stream, which is told by whether an address is inserted.
ANSWERING = f"""#!{sys.executable} -S
import pathlib, sys
given, folder = sys.stdin.buffer.read(), pathlib.Path(sys.argv[2]).parent
name = "busy" if b"\\n24,I," in given else "calm"
sys.stdout.buffer.write((folder / name).read_bytes())
"""
PASSING_OVER = ANSWERING + """
if name == "busy": sum(range(40_000_000))
"""
FAILING = ANSWERING + """
sys.exit(3)
"""


@mock.patch.object(left, "FILES", 1)
@mock.patch.object(left, "CHANGES", 10)
class Asking(InAFolder):
    def fault(self, text: str, more: bytes = b"") -> str | None:
        busy, calm = STREET.replies()
        (self.folder / "busy").write_bytes(busy + more)
        (self.folder / "calm").write_bytes(calm)
        hubs = Hubs(self.program(text), self.folder / "register.toml")
        return left.fault_of(hubs, self.folder, STREET)

    def test_a_right_program_passes(self) -> None:
        self.assertIsNone(self.fault(ANSWERING))

    @mock.patch.object(left, "MARGIN", 0.1)
    def test_one_that_passes_over_what_left_is_reported(self) -> None:
        self.assertRegex(self.fault(PASSING_OVER), r"takes \d+\.\d processor seconds, and 0\.\d where none had come")

    def test_another_reply_is_reported(self) -> None:
        self.assertIn("wanted the end", self.fault(ANSWERING, b"x"))

    def test_another_end_is_reported(self) -> None:
        self.assertEqual("exit status 3", self.fault(FAILING))


@mock.patch.object(left, "FILES", 2)
class Streams(unittest.TestCase):
    def test_each_request_has_a_reply(self) -> None:
        for it in left.LEAVINGS:
            for requests, replies in zip(it.streams(), it.replies(), strict=True):
                self.assertEqual(len(requests_in(requests)), len(replies_in(replies)), it.name)

    def test_both_streams_ask_the_same(self) -> None:
        for it in left.LEAVINGS:
            busy, calm = map(requests_in, it.streams())
            self.assertEqual(busy[-left.FILES :], calm[-left.FILES :], it.name)
            self.assertEqual(len(busy), len(calm), it.name)

    def test_a_file_has_room_for_all_changes(self) -> None:
        for it in left.LEAVINGS:
            self.assertLessEqual(max(map(len, it.files)), 5_000, it.name)
        self.assertLessEqual(left.CHANGES, 5_000)

    def test_some_time_more_is_no_fault(self) -> None:
        self.assertIsNone(left.slower(1.0, left.TIMES + left.MARGIN))
        self.assertEqual("takes 9.0 processor seconds, and 1.0 where none had come", left.slower(1.0, 9.0))


if __name__ == "__main__":
    unittest.main()
