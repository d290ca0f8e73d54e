"""Tests of `handed_on`, over hubs that answer what they are told to."""

import unittest
from dataclasses import dataclass
from pathlib import Path

from checks import ground, handed_on, schema2, tables
from checks.conversations import requests_in
from checks.in_folder import InAFolder
from checks.stores import Answered, Hubs
from checks.written import SECOND

OUTCOME = handed_on.REJECTED + b"\n"
CHANGED = "UPDATE version2 SET gone = 5 WHERE kind = 92"


def reply(body: bytes) -> bytes:
    return b"HTTP/1.1 200 OK\r\nContent-Type: application/json\r\nContent-Length: %d\r\n\r\n%s" % (len(body), body)


@dataclass(frozen=True)
class Telling(Hubs):
    """Makes a store of the history where there is none. Else it does this to it, and answers each request by what is told of the first of these that
    stands in it, and else alike."""

    sql: str = ""
    told: tuple[tuple[bytes, bytes], ...] = ()

    def over(self, store: Path, requests: bytes) -> Answered:
        if not store.exists():
            tables.write_store(store, SECOND.statements(), schema2.left_rows(store.parent))
            return Answered(0, b"", "")
        if self.sql:
            ground.alter(store, self.sql)
        return self.without_store(requests)

    def without_store(self, requests: bytes) -> Answered:
        bodies = (next((body for part, body in self.told if part in request), b"{}\n") for request in requests_in(requests))
        return Answered(0, b"".join(map(reply, bodies)), "")


class OverStores(InAFolder):
    def on(self, **what) -> ground.Ground:
        return ground.ground(Telling(Path(), Path(), **what), self.new_folder())


class Rows(OverStores):
    def test_each_row_is_there(self) -> None:
        on = self.on()
        for name, sql in {**handed_on.HOPS, **handed_on.BESIDE}.items():
            self.assertNotEqual(tables.rows_of(on.ready)["version2"], tables.rows_of(on.damaged(sql))["version2"], name)

    def test_each_is_another(self) -> None:
        texts = [row.sql() for row in (handed_on.RELEASED, handed_on.ADOPTED, *handed_on.DAMAGED.values())]
        self.assertEqual(len(texts), len(set(texts)))

    def test_a_row_has_its_cells(self) -> None:
        store = self.on().damaged(handed_on.ADOPTED.sql())
        self.assertEqual([(1001, 92, "000000000042", 42, 1002, 0, 1, 2, 1_000_000, "", 2)], handed_on.passages(store))
        self.assertNotIn(92, [row[1] for row in handed_on.items(store)])


class Beside(OverStores):
    def fault(self, over: Telling | None = None, **what) -> str | None:
        on = self.on(**what)
        return handed_on.passes_over(on, handed_on.RELEASED.sql(), (over or on.hubs).over)

    def test_a_right_program_passes(self) -> None:
        self.assertIsNone(self.fault())

    def test_a_question_that_writes_is_reported(self) -> None:
        self.assertEqual("a question has written", self.fault(sql=CHANGED))

    def test_another_answer_is_reported(self) -> None:
        self.assertIn("wanted", self.fault(Telling(Path(), Path(), told=((b"GET /closed", b"[]\n"),))))


class OfTheNumber(OverStores):
    RIGHT = ((b"POST", OUTCOME), (b"GET /uprn/500", b'{"refusal":17}\n'), (b"1001/4", b"10,E,1001,4\n99,0\n"), (b"1001/5", b"10,E,1001,5\n99,0\n"))

    def released(self, *told: tuple[bytes, bytes], sql: str = "") -> str | None:
        on = self.on(told=(*told, *self.RIGHT), sql=sql)
        return handed_on.is_released(on, on.hubs.over)

    def test_a_released_number_may_not_be_inserted(self) -> None:
        self.assertIsNone(self.released())
        self.assertIn("it is told", self.released((b"POST", handed_on.APPLIED)))
        self.assertIn("it is told", self.released((b"GET /uprn/500", b"{}\n")))
        self.assertIn("its volume", self.released((b"GET /extract/1001/5", b"10,E,1001,5\n21\n99,1\n")))
        self.assertEqual("its rows aren't as they were", self.released(sql=CHANGED))

    def test_an_adopted_number_is_one_of_ours(self) -> None:
        on = self.on(told=((b"POST", handed_on.APPLIED),))
        self.assertIsNone(handed_on.is_adopted(on, on.hubs.over))
        other = Telling(Path(), Path(), told=((b"POST", OUTCOME),))
        self.assertIn("wanted", handed_on.is_adopted(on, other.over))
        on = self.on(told=((b"POST", handed_on.APPLIED),), sql=CHANGED)
        self.assertIn("rows of custody", handed_on.is_adopted(on, on.hubs.over))

    def damaged(self, told: bytes, sql: str = "", name: str = "born after all volumes") -> str | None:
        on = self.on(told=((b"POST", told),), sql=sql)
        return handed_on.is_damaged(on, handed_on.DAMAGED[name], on.hubs.over)

    def test_a_row_that_says_nothing_is_told_one_way(self) -> None:
        self.assertIsNone(self.damaged(handed_on.REFUSED, name="a body"))
        self.assertIn("it is told", self.damaged(OUTCOME, name="a body"))
        self.assertIn("it is told", self.damaged(handed_on.APPLIED, name="a hop of -1"))

    def test_an_odd_row_may_be_told_three_ways(self) -> None:
        inserted = "INSERT INTO version2 VALUES (1001, 21, '000000000500', 0, 0, 0, 0, 5, 1000000, '', 0)"
        self.assertIsNone(self.damaged(OUTCOME))
        self.assertIsNone(self.damaged(handed_on.REFUSED))
        self.assertIsNone(self.damaged(handed_on.APPLIED, inserted))
        for told, sql in ((OUTCOME, inserted), (handed_on.APPLIED, ""), (OUTCOME, CHANGED), (handed_on.REFUSED, inserted)):
            self.assertIn("its rows aren't as they have to be", self.damaged(told, sql))
        self.assertIn("it is told", self.damaged(b'{"refusal":51}\n'))

    def test_a_row_that_is_gone_has_to_be_forgotten(self) -> None:
        on = self.on(told=((b"POST", handed_on.REFUSED),))
        other = Telling(Path(), Path(), told=((b"POST", handed_on.REFUSED), (b"GET /closed", b"[]\n")))
        self.assertIn("wanted", handed_on.is_damaged(on, handed_on.DAMAGED["a hop of -1"], other.over))


if __name__ == "__main__":
    unittest.main()
