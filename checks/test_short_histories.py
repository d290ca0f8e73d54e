"""Tests of `short_histories`: what a plain hub makes of each, so that no file is rejected by accident."""

import json
import unittest

from checks.allowed import Received
from checks.short_histories import HISTORIES, QUESTIONS, outcome_of
from checks.wanting import body_of

# Of each history the files in the order in which they are sent: whose and which volume, and what is told of it at once and in the end.
OUTCOMES = {
    "a file waits for a neighbour's": (
        ("1002/1", "held wants 1001/1", "applied"),
        ("1001/2", "held wants 1001/1", "applied"),
        ("1001/1", "applied", "applied"),
        ("1002/1", "applied", "applied"),
    ),
    "a rejected file fills a gap": (
        ("1001/1", "applied", "applied"),
        ("1001/3", "held wants 1001/2", "rejected record 3 rule 34"),
        ("1001/2", "rejected record 3 rule 21", "rejected record 3 rule 21"),
        ("1001/3", "rejected record 3 rule 34", "rejected record 3 rule 34"),
        ("1001/2", "taken", "rejected record 3 rule 21"),
    ),
    "items of all kinds": (
        ("1003/1", "applied", "applied"),
        ("1002/1", "held wants 1001/1", "applied"),
        ("1003/2", "held wants 1002/1", "applied"),
        ("1001/1", "applied", "applied"),
        ("1001/2", "applied", "applied"),
        ("1001/3", "applied", "applied"),
    ),
    "a property passes on and back": (
        ("1002/1", "held wants 1001/2", "applied"),
        ("1001/1", "applied", "applied"),
        ("1001/2", "applied", "applied"),
        ("1002/2", "applied", "applied"),
        ("1002/3", "rejected record 3 rule 42", "rejected record 3 rule 42"),
        ("1001/3", "applied", "applied"),
        ("1001/4", "rejected record 4 rule 22", "rejected record 4 rule 22"),
    ),
}


def said(reply: tuple[int, bytes]) -> str:
    """The outcome that a reply tells, as a command says it."""
    told = json.loads(reply[1])
    if "wants" in told:
        return f"held wants {told['wants']['custodian']}/{told['wants']['volume']}"
    return told["outcome"] + (f" record {told['record']} rule {told['rule']}" if "rule" in told else "")


def place_of(file: bytes) -> str:
    _, _, code, _, volume = file.split(b" ", 2)[1].decode().split("/")
    return f"{code}/{volume}"


class Short(unittest.TestCase):
    def test_each_file_comes_to_what_it_is_there_for(self) -> None:
        for name, history in HISTORIES.items():
            hub = Received()
            told = [hub.told(it) for it in history]
            sent = [(it, said(reply)) for it, reply in zip(history, told) if it.startswith(b"POST ")]
            found = tuple((place_of(it), at_once, said(hub.told(outcome_of(it)))) for it, at_once in sent)
            self.assertEqual(OUTCOMES.get(name), found, name)

    def test_what_is_asked_for_is_there(self) -> None:
        """In each history, but for a number that nobody has between its release and its adoption."""
        for name, history in HISTORIES.items():
            hub, lacking = Received(), []
            for it in history:
                if hub.told(it)[0] == 404:
                    lacking.append(it.split(b" ")[1].decode())
            self.assertEqual(["/uprn/500"] if "passes on" in name else [], lacking, name)

    def test_items_of_each_kind_come_and_some_change_or_go(self) -> None:
        changes = {bytes(line[:4]) for it in HISTORIES["items of all kinds"] for line in body_of(it).splitlines()}
        self.assertLessEqual({b"11,I", b"15,I", b"21,I", b"21,U", b"23,I", b"23,D", b"24,I", b"24,U"}, changes)

    def test_each_property_of_a_view_is_asked_for_in_the_end(self) -> None:
        for name, history in HISTORIES.items():
            hub = Received()
            for it in history:
                hub.told(it)
            views = [hub.told(it)[1] for it in QUESTIONS if it.startswith(b"GET /extract/")]
            there = {line.split(b",")[3] for text in views for line in text.splitlines() if line.startswith(b"21,")}
            asked = {it.split(b" ")[1].removeprefix(b"/uprn/") for it in QUESTIONS if it.startswith(b"GET /uprn/")}
            self.assertLessEqual(there, asked, name)


if __name__ == "__main__":
    unittest.main()
