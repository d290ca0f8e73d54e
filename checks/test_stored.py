"""Tests of `stores` and `stored`, over small programs in a temporary folder."""

import re
import sys
import unittest
from pathlib import Path

from checks.conversations import Conversation
from checks.in_folder import InAFolder, small_program
from checks.stored import WAYS, run_all
from checks.stores import SAMPLE, TEXT, Answered, Hubs, built, framed, get, hubs_of

GET = get("/closed")
TOP = Path(__file__).resolve().parent.parent


def reply(number: int) -> bytes:
    return b"HTTP/1.1 200 OK\r\nContent-Length: 2\r\n\r\n%d\n" % number


TWICE = Conversation("twice", GET + GET, reply(1) + reply(2))

# Answers how many requests a store has seen, which is kept in its file.
COUNTING = f"""#!{sys.executable} -S
import pathlib, re, sys
word, *rest = sys.argv[1:]
store = pathlib.Path(rest[0]) if len(rest) > 1 else None
kept = int(store.read_text()) if store and store.exists() else 0
given = sys.stdin.buffer.read()
for number in range(kept + 1, kept + 1 + given.count(b"GET ")):
    sys.stdout.buffer.write(b"HTTP/1.1 200 OK\\r\\nContent-Length: 2\\r\\n\\r\\n%d\\n" % number)
    if store: store.write_text(str(number))
"""
FORGETTING = COUNTING.replace("if store and store.exists()", "if False")
REFUSING = f"""#!{sys.executable} -S
import sys
print("gaz_bench: BadSchema", file=sys.stderr)
sys.exit(3)
"""


class OverStores(InAFolder):
    def faults(self, text: str, conversation: Conversation = TWICE) -> list[str | None]:
        hubs = Hubs(self.program(text), self.folder / "register.toml")
        return [run(hubs, self.folder / f"store-{at}", conversation) for at, (_, run) in enumerate(WAYS)]

    def test_a_right_program_passes(self) -> None:
        self.assertEqual([None] * 3, self.faults(COUNTING))

    def test_a_store_that_forgets_is_found_when_it_is_opened_anew(self) -> None:
        memory, whole, anew = self.faults(FORGETTING)
        self.assertEqual((None, None), (memory, whole))
        self.assertIn(r"the reply to request 2: differs at byte 38, in line 4: wanted '2\n', got '1\n'", anew)

    def test_a_refusal_is_shown(self) -> None:
        for fault in self.faults(REFUSING):
            self.assertIn("exit status 3, gaz_bench: BadSchema", fault)

    def test_requests_behind_the_last_reply_are_left_out(self) -> None:
        self.assertIsNone(self.faults(COUNTING, Conversation("closed", GET + GET, reply(1)))[2])

    def test_more_replies_than_requests_are_a_fault(self) -> None:
        self.assertEqual("2 replies to 1 requests", self.faults(COUNTING, Conversation("odd", GET, TWICE.replies))[2])

    def test_pieces_stand_behind_their_lengths(self) -> None:
        self.assertEqual(b"3\nabc0\n12\nabcdefghijkl", framed([b"abc", b"", b"abcdefghijkl"]))

    def test_all_are_run_each_way(self) -> None:
        for name, text in (("a.http", TWICE.requests), ("a.replies", TWICE.replies)):
            path = self.folder / "conversations" / name
            path.parent.mkdir(exist_ok=True)
            path.write_bytes(text)
        small_program(built(self.folder, "gaz_bench"), COUNTING)
        ran = run_all(self.folder, self.folder)
        self.assertEqual([("conversations/a", how, None) for how, _ in WAYS], ran)

    def test_how_a_run_ends(self) -> None:
        self.assertIsNone(Answered(0, b"abc", "").fault())
        self.assertEqual("exit status 0, a word", Answered(0, b"", "a word\n").fault())
        self.assertEqual("exit status 1, nothing said", Answered(1, b"", "").fault())


class TheRegister(unittest.TestCase):
    def test_it_is_that_of_play(self) -> None:
        source = (TOP / "crates" / "gazhub" / "src" / "sample.rt").read_text()
        self.assertEqual(SAMPLE, re.search(r'r#"(.*?)"#', source, re.DOTALL).group(1))

    def test_its_text_has_a_row_for_each_custodian(self) -> None:
        self.assertEqual(re.findall("code = (.*)", SAMPLE), [line.split(",")[0] for line in TEXT.splitlines()])

    def test_it_lies_beside_the_stores(self) -> None:
        with hubs_of(TOP) as (hubs, folder):
            self.assertEqual((SAMPLE, folder), (hubs.register.read_text(), hubs.register.parent))


if __name__ == "__main__":
    unittest.main()
