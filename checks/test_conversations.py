"""Tests of `conversations`, over small programs in a temporary folder."""

import sys
import unittest
from pathlib import Path

from checks.conversations import (
    BadConversations,
    Conversation,
    difference,
    find,
    replies_in,
    requests_in,
    run_all,
    run_stepwise,
    run_whole,
)
from checks.in_folder import InAFolder
from checks.wanting import plain

TOP = Path(__file__).resolve().parent.parent

GET = b"GET /closed HTTP/1.1\r\nHost: hub\r\n\r\n"
POST = b"POST /custodians/1001/volumes/1 HTTP/1.1\r\nContent-Length: 3\r\n\r\nabc"
CUT = b"POST /custodians/1001/volumes/1 HTTP/1.1\r\nContent-Length: 53\r\n\r\nabc"
REPLY = b"HTTP/1.1 200 OK\r\nContent-Length: 3\r\n\r\nok\n"
TWICE = Conversation("twice", GET + GET, REPLY + REPLY)

# Each begins with this: `requests()` gives the heads of what is read, as they come.
BEGINNING = f"""#!{sys.executable} -S
import sys, time

def requests():
    head = b""
    while line := sys.stdin.buffer.readline():
        head += line
        if line == b"\\r\\n":
            yield head
            head = b""

def reply(text={REPLY!r}):
    sys.stdout.buffer.write(text)
    sys.stdout.buffer.flush()

"""
RIGHT = "for head in requests(): reply()"
WRONG_IN_A_BYTE = "for number, head in enumerate(requests()): reply(%r if number else %r)" % (
    REPLY.replace(b"ok", b"oK"),
    REPLY,
)
AT_THE_END = "for head in list(requests()): reply()"
HANGING = "time.sleep(60)"
HANGING_AT_ITS_END = RIGHT + "\ntime.sleep(60)"
EXITS_WITH_3 = RIGHT + "\nsys.exit(3)"
ENDS_EARLY = "next(requests()); reply()"
TALKS_ON = RIGHT + "\nreply()"


class Splitting(unittest.TestCase):
    def test_requests_end_by_their_heads_and_lengths(self) -> None:
        self.assertEqual(requests_in(POST + GET + POST), [POST, GET, POST])

    def test_empty_lines_belong_to_the_request_behind_them(self) -> None:
        self.assertEqual(requests_in(GET + b"\r\n\n" + GET), [GET, b"\r\n\n" + GET])

    def test_a_head_may_have_bare_line_ends(self) -> None:
        self.assertEqual(requests_in(b"GET /n HTTP/1.0\n\n" + GET), [b"GET /n HTTP/1.0\n\n", GET])

    def test_what_has_no_end_is_one_last_piece(self) -> None:
        head = b"GET / HTTP/1.1\r\nHost"
        for last in (
            CUT,
            head,
            b"\r\n\r\n",
            POST.replace(b"3", b"+3") + GET,
            POST.replace(b"3", b"1048577") + GET,
            POST.replace(b"Content", b"content-length: 3\r\nContent") + GET,
            POST.replace(b"Content", b"Transfer-Encoding: chunked\r\nContent") + GET,
        ):
            self.assertEqual(requests_in(GET + last), [GET, last])

    def test_replies_may_be_large(self) -> None:
        large = b"HTTP/1.1 200 OK\r\nContent-Length: 2000000\r\n\r\n" + bytes(2_000_000)
        self.assertEqual(replies_in(REPLY + large + REPLY), [REPLY, large, REPLY])

    def test_nothing_has_no_pieces(self) -> None:
        self.assertEqual(requests_in(b""), [])


class Comparing(unittest.TestCase):
    def test_the_line_is_shown(self) -> None:
        self.assertIsNone(difference(b"one\ntwo\n", b"one\ntwo\n"))
        self.assertEqual(
            difference(b"one\ntwo\n", b"one\ntwi\n"),
            r"differs at byte 6, in line 2: wanted 'two\n', got 'twi\n'",
        )
        self.assertEqual(
            difference(b"one\ntwo\n", b"one\n"), r"differs at byte 4, in line 2: wanted 'two\n', got the end"
        )


class WithFiles(InAFolder):
    def behind(self, text: str) -> Path:
        """A program of this text behind its beginning."""
        return self.program(BEGINNING + text + "\n")

    def write(self, name: str, text: bytes) -> None:
        path = self.folder / name
        path.parent.mkdir(parents=True, exist_ok=True)
        path.write_bytes(text)


class Finding(WithFiles):
    def test_pairs_are_found_in_both_folders(self) -> None:
        self.write("conversations/a.http", GET)
        self.write("conversations/a.replies", REPLY)
        self.write("docs/tour/1.http", b"")
        self.write("docs/tour/1.replies", b"")
        self.write("docs/tour/README.md", b"")
        self.assertEqual(
            find(self.folder), [Conversation("conversations/a", GET, REPLY), Conversation("docs/tour/1", b"", b"")]
        )

    def test_what_is_no_pair_is_named(self) -> None:
        self.write("conversations/a.http", GET)
        self.write("docs/tour/b.replies", REPLY)
        with self.assertRaisesRegex(BadConversations, "conversations/a, docs/tour/b"):
            find(self.folder)

    def test_none_at_all_are_a_fault(self) -> None:
        with self.assertRaises(BadConversations):
            find(self.folder)


class Running(WithFiles):
    def faults(self, text: str, conversation: Conversation = TWICE, deadline: float = 60) -> list[str | None]:
        program = self.behind(text)
        return [run(program, conversation, deadline) for run in (run_whole, run_stepwise)]

    def test_a_right_program_passes(self) -> None:
        self.assertEqual(self.faults(RIGHT), [None, None])

    def test_a_wrong_byte_is_shown(self) -> None:
        for fault in self.faults(WRONG_IN_A_BYTE):
            self.assertIn(r"differs at byte 80, in line 8: wanted 'ok\n', got 'oK\n'", fault)

    def test_a_reply_that_waits_for_the_end_of_the_input_is_reported(self) -> None:
        program = self.behind(AT_THE_END)
        self.assertIsNone(run_whole(program, TWICE))
        self.assertIn("the reply to request 1, none within 1 s", run_stepwise(program, TWICE, 1))

    def test_a_program_that_hangs_is_reported(self) -> None:
        whole, stepwise = self.faults(HANGING, deadline=1)
        self.assertEqual(whole, "didn't end within 1 s")
        self.assertIn("the reply to request 1, none within 1 s", stepwise)

    def test_a_program_that_does_not_end_is_reported(self) -> None:
        for fault in self.faults(HANGING_AT_ITS_END, deadline=2):
            self.assertIn("within 2 s", fault)

    def test_the_exit_status_is_0(self) -> None:
        self.assertEqual(self.faults(EXITS_WITH_3), ["exit status 3"] * 2)

    def test_a_reply_that_is_missing_is_reported(self) -> None:
        for fault in self.faults(ENDS_EARLY):
            self.assertIn(r"wanted 'HTTP/1.1 200 OK\r\n', got the end", fault)

    def test_a_reply_too_many_is_reported(self) -> None:
        for fault in self.faults(TALKS_ON):
            self.assertIn(r"wanted the end, got 'HTTP/1.1 200 OK\r\n'", fault)

    def test_a_request_that_is_cut_off_is_answered_at_the_end(self) -> None:
        self.assertEqual(self.faults(AT_THE_END, Conversation("cut", CUT, REPLY)), [None, None])

    def test_requests_behind_the_last_reply_are_sent(self) -> None:
        self.assertEqual(self.faults(ENDS_EARLY, Conversation("closed", GET + GET, REPLY)), [None, None])

    def test_all_are_run_both_ways(self) -> None:
        self.write("conversations/twice.http", TWICE.requests)
        self.write("conversations/twice.replies", TWICE.replies)
        ran = run_all(self.behind(WRONG_IN_A_BYTE), self.folder)
        self.assertEqual([how for _, how, _ in ran], ["as one stream", "request by request"])
        self.assertTrue(all(name == "conversations/twice" and fault for name, _, fault in ran))


class Worked(unittest.TestCase):
    def test_the_plain_hub_replies_what_is_written_to_each(self) -> None:
        for one in find(TOP):
            self.assertIsNone(difference(one.replies, plain.replies_to([one.requests])), one.name)


if __name__ == "__main__":
    unittest.main()
