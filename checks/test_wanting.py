"""Tests of `wanting`: what it finds wrong with runs, and that its library refuses just one request."""

import os
import subprocess
import sys
import unittest

from checks.in_folder import InAFolder
from checks.preloading import library
from checks.wanting import ASKED, NONE, REQUESTS, SOURCE, Plain, Ran, fault_of, first_fault

REASONS = {200: "OK", 201: "Created", 503: "Service Unavailable"}
LINE_51, LINE_52 = b'{"refusal":51}\n', b'{"refusal":52}\n'

# Asks the C library for memory ten times, by whole pages, and says which were refused.
ASKING = """
import ctypes
ask = ctypes.CDLL(None).malloc
ask.restype, ask.argtypes = ctypes.c_void_p, [ctypes.c_size_t]
print(*(n for n in range(10) if not ask(4096)))
"""


def reply(status: int, body: bytes, is_last: bool = False) -> bytes:
    close = "Connection: close\r\n" if is_last else ""
    head = f"HTTP/1.1 {status} {REASONS[status]}\r\nContent-Type: application/json\r\nContent-Length: {len(body)}\r\n{close}\r\n"
    return head.encode() + body


def told(refused: dict[int, bytes]) -> list[bytes]:
    """What a hub replies where these requests are told want of memory."""
    hub, said = Plain(), []
    for at, request in enumerate(REQUESTS):
        line = refused.get(at)
        if line != LINE_51:
            right = reply(*hub.told(request))
        said.append(reply(503, line) if line else right)
    return said


def ran(replies: list[bytes], status: int = 0, said: bytes = b"") -> Ran:
    return Ran(status, replies, said, 0)


class Runs(unittest.TestCase):
    def test_a_calm_run_is_right(self):
        self.assertIsNone(fault_of(ran(told({})), False))

    def test_one_want_is_right(self):
        for refused in ({0: LINE_51}, {2: LINE_52}, {5: LINE_51}, {len(REQUESTS) - 1: LINE_51}):
            self.assertIsNone(fault_of(ran(told(refused)), False), refused)

    def test_a_store_that_shut_answers_51_to_all(self):
        shut = {at: LINE_51 for at in range(3, len(REQUESTS))}
        self.assertIsNone(fault_of(ran(told(shut)), True))
        self.assertIn("more than one", fault_of(ran(told(shut)), False))

    def test_a_question_shuts_no_store(self):
        shut = {at: LINE_51 for at in range(4, len(REQUESTS))}
        self.assertIn("more than one", fault_of(ran(told(shut)), True))

    def test_requests_between_refused_ones_are_answered(self):
        self.assertIn("more than one", fault_of(ran(told({3: LINE_51, 5: LINE_51})), True))

    def test_a_file_that_was_answered_51_was_not_received(self):
        replies = told({1: LINE_51})
        replies[7] = told({})[7]
        self.assertIn("reply 8", fault_of(ran(replies), False))

    def test_a_file_that_was_answered_52_was_received(self):
        replies = told({2: LINE_52})
        replies[8] = reply(201, b'{"outcome":"applied"}\n')
        self.assertIn("reply 9", fault_of(ran(replies), False))

    def test_52_only_where_a_file_was_received(self):
        for at in (3, 4):
            self.assertIn("no file was received", fault_of(ran(told({at: LINE_52})), False))

    def test_another_answer_in_place_of_one_is_found(self):
        replies = told({})
        replies[4] = reply(200, b'{"custodian":1002,"held":1,"judged":0,"wants":{"custodian":1001,"volume":1}}\n')
        self.assertIn("reply 5", fault_of(ran(replies), False))

    def test_a_conversation_ends_early_by_51_alone(self):
        self.assertIsNone(fault_of(ran([*told({})[:2], reply(503, LINE_51, True)]), False))
        self.assertIn("3 replies", fault_of(ran([*told({})[:2], reply(503, LINE_51)]), False))
        self.assertIn("3 replies", fault_of(ran(told({})[:3]), False))

    def test_a_program_that_finds_none_at_its_beginning_says_so(self):
        self.assertIsNone(fault_of(ran([], 3, b"gazhub: Memory\n"), False))
        self.assertIn("nothing is said", fault_of(ran([], 3), False))
        self.assertIn("exit status 3", fault_of(ran(told({})[:2], 3, b"gazhub: ReadFault\n"), False))

    def test_a_refused_file_shuts_a_store_in_some_runs_alone(self):
        calm, shut = told({}), told({at: LINE_51 for at in range(3, len(REQUESTS))})
        goes_on = told({3: LINE_51})

        def fault(*refused: list[bytes]) -> str | None:
            runs = {NONE: calm} | dict(enumerate(refused))
            return first_fault(lambda number: Ran(0, runs[number], b"", len(refused)), 1, True)

        self.assertIsNone(fault(shut, goes_on, shut))
        self.assertIn("in no run", fault(shut, shut, told({4: LINE_51})))

    def test_what_is_asked_once_more_is_all_that_was_asked(self):
        self.assertEqual(REQUESTS[: len(ASKED)], REQUESTS[len(ASKED) : 2 * len(ASKED)])


class Library(InAFolder):
    def test_one_request_is_refused_and_all_are_counted(self):
        preloaded, file = library(SOURCE, self.folder), self.folder / "wanted"

        def refused(number: int) -> str:
            env = os.environ | {"LD_PRELOAD": str(preloaded), "WANTING": str(number), "WANTED": str(file)}
            # (Python itself may end where it finds no memory)
            return subprocess.run([sys.executable, "-S", "-c", ASKING], env=env, capture_output=True, text=True).stdout.strip()

        self.assertEqual(refused(1 << 60), "")
        count = int(file.read_text())
        last = {refused(number) for number in range(count - 250, count)}
        self.assertTrue({str(n) for n in range(10)} <= last, last)
        self.assertTrue(all(len(it.split()) <= 1 for it in last), last)


if __name__ == "__main__":
    unittest.main()
