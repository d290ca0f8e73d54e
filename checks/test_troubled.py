"""Tests of `troubled`: that the library fails just the calls asked for and puts back what was synced, and what is found wrong."""

import os
import subprocess
import sys
import unittest
from collections import Counter
from concurrent.futures import ThreadPoolExecutor

from checks.allowed import STOPPED, Along, Ended, Received, is_few
from checks.failing import SOURCE, framed, sent
from checks.in_folder import InAFolder
from checks.preloading import library
from checks.test_wanting import LINE_51, LINE_52, reply
from checks.short_histories import HISTORIES, QUESTIONS, outcome_of
from checks.troubled import Came, rising

# Writes to a store's two files and to another one, and syncs in between; says which calls failed.
WRITING = """
import os, sys
folder = sys.argv[1]
files = {name: os.open(f"{folder}/{name}", os.O_RDWR | os.O_CREAT) for name in ("store", "store-wal", "other")}
def tried(call, name, *given):
    try:
        call(files[name], *given)
    except OSError as error:
        print(call.__name__, name, error.errno)
for name in files:
    tried(os.fsync, name)
    tried(os.pwrite, name, b"a" * 1024, 0)
    tried(os.fdatasync, name)
    tried(os.pwrite, name, b"b" * 1536, 0)
tried(os.ftruncate, "store", 100)
tried(os.pread, "store", 1, 0)
"""

FILES = HISTORIES["a rejected file fills a gap"]


class Library(InAFolder):
    def ran(self, calls: str, left: str | None = None) -> tuple[int, list[str], str]:
        """The exit status, the calls that failed, and what is told of all."""
        env = {"LD_PRELOAD": str(library(SOURCE, self.folder)), "FAILING_STORE": str(self.folder / "store"), "FAILING_CALLS": calls}
        env |= {"FAILING_TOLD": str(self.folder / "told")}
        env |= {"FAILING_SYNCED": str(self.folder), "FAILING_LEFT": left} if left else {}
        words = [sys.executable, "-S", "-c", WRITING, str(self.folder)]
        ended = subprocess.run(words, env=os.environ | env, capture_output=True, text=True)
        return ended.returncode, ended.stdout.splitlines(), (self.folder / "told").read_text()

    def held(self, name: str) -> bytes:
        return (self.folder / name).read_bytes()

    def test_nothing_fails_beyond_the_last_call(self):
        self.assertEqual(self.ran("both 10"), (0, [], "10 0"))
        self.assertEqual(self.ran("log 4"), (0, [], "4 0"))

    def test_each_call_fails_once_so_many_passed(self):
        self.assertEqual(self.ran("log 2"), (0, ["fdatasync store-wal 5", "pwrite store-wal 5"], "4 2"))
        self.assertEqual(self.ran("file 4"), (0, ["ftruncate store 5", "pread store 5"], "6 2"))
        self.assertEqual(self.ran("both 8")[1:], (["ftruncate store 5", "pread store 5"], "10 2"))
        self.assertEqual(len(self.ran("both 0")[1]), 10)

    def test_a_stop_leaves_what_was_synced(self):
        self.assertEqual(self.ran("both 8", "0 0"), (STOPPED, [], "9 1"))
        self.assertEqual((self.held("store"), self.held("store-wal")), (b"a" * 1024, b"a" * 1024))
        self.assertEqual(self.held("other"), b"b" * 1536)

    def test_a_process_that_is_killed_leaves_what_it_wrote(self):
        self.assertEqual(self.ran("both 9", "all"), (STOPPED, [], "10 1"))
        self.assertEqual((self.held("store"), self.held("store-wal")), (b"b" * 100, b"b" * 1536))

    def test_a_stop_before_a_sync_leaves_nothing_of_a_write(self):
        self.ran("file 2", "0 0")
        self.assertEqual(self.held("store"), b"")

    def test_a_stop_leaves_the_first_blocks_of_a_write(self):
        for left, blocks in ((1, b"b" * 512 + b"a" * 512), (2, b"b" * 1024), (3, b"b" * 1536), (9, b"b" * 1536)):
            self.ran("both 8", f"{left} 0")
            self.assertEqual((self.held("store"), self.held("store-wal")), (b"a" * 1024, blocks))

    def test_a_stop_leaves_the_first_blocks_of_a_file_that_was_cut(self):
        self.ran("both 9", "0 1")
        self.assertEqual((self.held("store"), self.held("store-wal")), (b"b" * 100 + b"a" * 924, b"a" * 1024))


def told(requests: tuple[bytes, ...], refused: dict[int, bytes], hub: Received | None = None) -> list[bytes]:
    """What a hub replies where these requests are refused."""
    hub, said = hub or Received(), []
    for at, request in enumerate(requests):
        line = refused.get(at)
        right = None if line == LINE_51 else whole(*hub.told(request))
        said.append(reply(503, line) if line else right)
    return said


def whole(status: int, body: bytes) -> bytes:
    return b"HTTP/1.1 %d Told\r\nContent-Length: %d\r\n\r\n%s" % (status, len(body), body)


def with_files(*files: bytes) -> Received:
    hub = Received()
    for file in files:
        hub.told(file)
    return hub


class Judging(unittest.TestCase):
    def fault(self, refused: dict[int, bytes], failed: int = 1, count: int = len(FILES), status: int = 0, said: bytes = b"") -> str | None:
        return Along().fault(FILES, Ended(status, told(FILES, refused)[:count], said, failed))

    def test_what_was_refused_may_be_where_something_failed(self):
        self.assertIsNone(self.fault({}, 0))
        self.assertIsNone(self.fault({1: LINE_51}))
        self.assertIsNone(self.fault({2: LINE_52}))
        self.assertIn("more replies are refused", self.fault({1: LINE_51}, 0))
        self.assertIn("more replies are refused", self.fault({1: LINE_51, 3: LINE_51}))

    def test_a_store_that_shut_refuses_all_that_follow(self):
        self.assertIsNone(self.fault({at: LINE_51 for at in range(2, len(FILES))}))
        self.assertTrue(is_few([None, 51, 51], 1) and not is_few([51, None, 51], 1) and is_few([51, None, 51], 2))

    def test_no_reply_may_lack(self):
        self.assertIn("5 replies", self.fault({}, 1, 5))
        self.assertIn("5 replies", self.fault({}, 1, 5, 3, b"said"))
        self.assertIsNone(self.fault({}, 1, 0, 3, b"gaz_bench: Fault\n"))
        self.assertIn("didn't end well", self.fault({}, 0, 0, 3, b"gaz_bench: Fault\n"))
        self.assertIn("exit status 3", self.fault({}, 1, 0, 3))
        self.assertIsNone(Along().fault(FILES, Ended(3, told(FILES, {})[:5], b"gaz_bench: Fault\n", 1, True)))
        self.assertIn("5 replies", Along().fault(FILES, Ended(0, told(FILES, {})[:5], b"", 1, True)))
        self.assertIn("exit status -11", self.fault({}, 1, 0, -11, b"said"))

    def test_a_stop_refuses_nothing(self):
        self.assertIsNone(self.fault({}, 1, 3, STOPPED))
        self.assertIn("it stopped", self.fault({1: LINE_51}, 1, 3, STOPPED))
        self.assertIn("it stopped", self.fault({}, 0, 3, STOPPED))

    def test_another_answer_is_found(self):
        replies = told(FILES, {})
        replies[2] = replies[2].replace(b"rejected", b"received")
        self.assertIn("reply 3", Along().fault(FILES, Ended(0, replies, b"", 0)))

    def opened(self, count: int, refused: dict[int, bytes], hub: Received, **ended: object) -> str | None:
        """What is wrong where a hub that answered so much is opened again as this one."""
        along, requests = Along(), (*QUESTIONS, *FILES, *QUESTIONS)
        status = 0 if count == len(FILES) else STOPPED
        self.assertIsNone(along.fault(FILES, Ended(status, told(FILES, refused)[:count], b"", 1)))
        again = {"status": 0, "replies": told(requests, {}, hub), "said": b"", "failed": 0} | ended
        return along.fault_opened(requests, Ended(**again))

    def test_what_was_answered_is_there_and_perhaps_the_file_in_hand(self):
        self.assertIsNone(self.opened(1, {}, with_files(FILES[0])))
        self.assertIsNone(self.opened(1, {}, with_files(FILES[0], FILES[1])))
        self.assertIn("opened again", self.opened(1, {}, with_files()))
        self.assertIn("opened again", self.opened(1, {}, with_files(FILES[0], FILES[2])))
        self.assertIn("opened again", self.opened(1, {}, with_files(*FILES[:3])))

    def test_one_of_the_files_that_were_answered_51_may_be_there(self):
        shut = {at: LINE_51 for at in range(1, len(FILES))}
        for file in FILES[1], FILES[2], FILES[4]:
            self.assertIsNone(self.opened(len(FILES), shut, with_files(FILES[0], file)))
        self.assertIn("2 files", self.opened(len(FILES), shut, with_files(*FILES[:3])))

    def test_a_file_that_was_answered_52_is_there(self):
        shut = {1: LINE_52} | {at: LINE_51 for at in range(2, len(FILES))}
        self.assertIsNone(self.opened(len(FILES), shut, with_files(*FILES[:2])))
        self.assertIn("opened again", self.opened(len(FILES), shut, with_files(FILES[0])))

    def test_nothing_is_refused_once_the_trouble_is_over(self):
        requests = (*QUESTIONS, *FILES, *QUESTIONS)
        replies = told(requests, {len(requests) - 1: LINE_51}, with_files(FILES[0]))
        self.assertIn("opened again", self.opened(1, {}, Received(), replies=replies))
        self.assertIn("exit status 3", self.opened(1, {}, Received(), status=3, said=b"gaz_bench: Fault\n", replies=[]))

    def test_a_file_is_asked_for_by_its_own_question(self):
        for history in HISTORIES.values():
            self.assertTrue(all(outcome_of(it) in QUESTIONS for it in history if it.startswith(b"POST ")))


class Streams(unittest.TestCase):
    def test_each_read_takes_one_request(self):
        with sent(FILES) as given:
            self.assertEqual([os.read(given.fileno(), 1 << 16) for _ in range(len(FILES) + 1)], [*FILES, b""])

    def test_each_request_is_a_piece(self):
        with framed(FILES[:1]) as given:
            self.assertEqual(given.read(), b"%d\n%s" % (len(FILES[0]), FILES[0]))


class Rising(unittest.TestCase):
    def numbers(self, faulty: int = -1) -> list[int]:
        def once(number: int) -> Came:
            return Came("wrong" if number == faulty else None, Counter({"51": 1} if number < 20 else {}))

        with ThreadPoolExecutor(2) as workers:
            return [number for number, _ in rising(once, 2, workers)]

    def test_numbers_rise_until_some_runs_met_nothing(self):
        self.assertEqual(self.numbers(), list(range(0, 48, 2)))
        self.assertEqual(self.numbers(4), list(range(0, 16, 2)))


if __name__ == "__main__":
    unittest.main()
