"""Tests of `stocks` and `steps`, over hubs that need as many steps as they are told to."""

import unittest
from dataclasses import dataclass
from pathlib import Path

from checks import steps, stocks
from checks.conversations import requests_in
from checks.foreign import REFUSED
from checks.in_folder import InAFolder
from checks.stores import Answered, get

TOLD = dict(asked for size in (stocks.FEW, stocks.MANY) for asked in stocks.cases(size).values())


@dataclass(frozen=True)
class Needing(steps.Stepping):
    """Answers with what is wanted where a statement has as many steps as it needs over few rows or over many."""

    few: int = 5
    many: int = 5
    limits: bool = True

    def over(self, store: Path, requests: bytes) -> Answered:
        if not store.exists():
            store.write_text("few" if len(requests) < 100_000 else "many")
            return Answered(0, b"", "")
        return Answered(0, TOLD.get(requests, b"an extract"), "")

    def within(self, store: Path, requests: bytes, steps: int) -> Answered:
        needed = self.many if store.read_text() == "many" else self.few
        if self.limits and steps < needed:
            return Answered(0, REFUSED, "")
        return self.over(store, requests)


class Limiting(InAFolder):
    def stores(self, **needs) -> tuple[steps.Store, steps.Store]:
        hubs = Needing(Path(), Path(), **needs)
        return tuple(steps.store_of(hubs, self.folder / name, size) for name, size in (("few", stocks.FEW), ("many", stocks.MANY)))

    def fault(self, told: bytes = stocks.APPLIED, **needs) -> str | None:
        asked, of_many = (stocks.cases(size)["a repeat"][0] for size in (stocks.FEW, stocks.MANY))
        return steps.walks(*self.stores(**needs), (asked, told), (of_many, told))

    def test_as_many_steps_pass(self) -> None:
        self.assertIsNone(self.fault())
        self.assertIsNone(self.fault(few=steps.MOST, many=steps.MOST + steps.SPARE))

    def test_a_walk_over_other_rows_is_reported(self) -> None:
        self.assertEqual("takes 5 steps among few rows, and among many 8", self.fault(many=6 + steps.SPARE))
        self.assertEqual("takes 3 steps among few rows, and among many 4000", self.fault(few=3, many=4000))

    def test_too_many_steps_among_few_rows_are_reported(self) -> None:
        self.assertIn("within 64 steps among few rows it is told Answered(status=0", self.fault(few=65))

    def test_a_program_that_limits_nothing_is_reported(self) -> None:
        self.assertEqual("takes no step: nothing is limited", self.fault(limits=False))
        self.assertIn("an extract is told", steps.reads_all(self.stores()[1]))

    def test_an_extract_that_is_refused_passes(self) -> None:
        self.assertIsNone(steps.reads_all(self.stores(many=1000)[1]))

    def test_another_reply_is_reported(self) -> None:
        self.assertIn("wanted b'rejected'", self.fault(told=b"rejected"))

    def test_another_refusal_is_reported(self) -> None:
        few, _ = self.stores()
        self.assertIn("wanted", steps.refused(few, "", "Fault"))

    def test_tries_leave_nothing_behind(self) -> None:
        few, _ = self.stores()
        few.least((get("/closed"), b"an extract"), 64)
        self.assertEqual(["few", "many"], sorted(it.name for it in self.folder.iterdir()))


class Stocks(unittest.TestCase):
    def test_both_are_asked_the_same(self) -> None:
        self.assertEqual(list(stocks.cases(stocks.FEW)), list(stocks.cases(stocks.MANY)))

    def test_what_is_asked_comes_first_in_both(self) -> None:
        few, many = (requests_in(stocks.history(size))[0] for size in (stocks.FEW, stocks.MANY))
        self.assertEqual(few, many)

    def test_each_custodian_has_as_many_volumes(self) -> None:
        sent = requests_in(stocks.history(stocks.FEW))
        self.assertEqual(3 * (stocks.FEW.last() + 1), len(sent))

    def test_others_stand_on_both_sides(self) -> None:
        rows = stocks.others(50_000, 4)
        streets = [int(row.split(",")[2]) for row in rows if row.startswith("11,")]
        self.assertEqual([49_980, 49_990, 50_010, 50_020], sorted(streets))
        self.assertEqual(20, len(rows))

    def test_a_file_has_room_for_the_others(self) -> None:
        self.assertLessEqual(len(stocks.others(50_000, stocks.MANY.others)), 5_000)

    def test_rows_are_numbered(self) -> None:
        sent = stocks.sent(1001, 7, "11,I,101,1,2001-04-01,", "11,U,102,1,2001-04-01,", bases=("90,1003,1",))
        lines = sent.split(b"\r\n\r\n")[1].splitlines()
        self.assertEqual([b"90,1003,1", b"11,I,1,101,1,2001-04-01,", b"11,U,2,102,1,2001-04-01,", b"99,2"], lines[1:])

    def test_an_address_is_at_last_as_it_was(self) -> None:
        for size in (stocks.FEW, stocks.MANY):
            last = [stocks.updated(row, size.last()) for row in stocks.ASKED]
            self.assertEqual([row.replace(",I,", ",U,") for row in stocks.ASKED], last)


if __name__ == "__main__":
    unittest.main()
