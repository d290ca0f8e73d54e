"""Tests of the plain hubs in Python where a property passes between custodians."""

import unittest
from pathlib import Path

from checks.in_folder import InAFolder
from checks.tables import rows_of
from checks.wanting import plain
from checks.written import PASSED, SECOND, text_of

import hub_sqlite  # (beside the plain hub)

TOP = Path(__file__).resolve().parent.parent

BLPU = "1,450000,250000,,,2020-01-01,"
APPLIED = '{"outcome":"applied"}'


def file_of(code: int, volume: int, *lines: str, profile: int = 2) -> bytes:
    """A change file of these lines, of which those that aren't basis lines are changes."""
    changes = sum(1 for line in lines if not line.startswith("90,"))
    return "\n".join((f"10,{profile},{code},{volume},2025-01-02", *lines, f"99,{changes}", "")).encode()


def rejected(record: int, rule: int) -> str:
    return f'{{"outcome":"rejected","record":{record},"rule":{rule}}}'


def release(order: int, uprn: int, to: int, hop: int) -> str:
    return f"91,I,{order},{uprn},{to},{hop}"


def adoption(order: int, uprn: int, released_by: int, hop: int, blpu: str = BLPU) -> str:
    return f"92,I,{order},{uprn},{released_by},{hop},{blpu}"


def blpu(order: int, uprn: int, action: str = "I", parent: str = "") -> str:
    return f"21,{action},{order},{uprn},1,450000,250000,{parent},,2020-01-01,"


# A property that the county hands to the district, and the district back.
THERE = (
    (1001, 1, blpu(1, 500)),
    (1001, 2, release(1, 500, 1002, 1)),
    (1002, 1, "90,1001,2", adoption(1, 500, 1001, 1)),
)
BACK = ((1002, 2, release(1, 500, 1001, 2)), (1001, 3, "90,1002,2", adoption(1, 500, 1002, 2)))

HUBS = {"dictionaries": plain.Hub, "sqlite3": lambda: hub_sqlite.StoredHub(":memory:")}


class Hubs(unittest.TestCase):
    """What both hubs say of files, one after another, of which the last alone may not be applied."""

    def said(self, *files: tuple) -> str:
        last = set()
        for make in HUBS.values():
            hub = make()
            for code, volume, *lines in files[:-1]:
                self.assertEqual((201, APPLIED), hub.submit(code, volume, file_of(code, volume, *lines)))
            code, volume, *lines = files[-1]
            last.add(hub.submit(code, volume, file_of(code, volume, *lines))[1])
        self.assertEqual(1, len(last))
        return last.pop()


class Reading(unittest.TestCase):
    def fault(self, *lines: str, profile: int = 2) -> object:
        return plain.read(file_of(1001, 1, *lines, profile=profile), 1001, 1)

    def test_a_release_and_an_adoption_are_read(self) -> None:
        bases, changes = self.fault("90,1002,1", release(1, 500, 1003, 1), adoption(2, 500, 1002, 9999))
        self.assertEqual([(1002, 1)], bases)
        self.assertEqual([(3, "91", ("21", 500)), (4, "92", ("21", 500))], [change[:3] for change in changes])

    def test_under_profile_1_they_are_no_change_records(self) -> None:
        for line in (release(1, 500, 1002, 1), adoption(1, 500, 1002, 1), "91"):
            self.assertEqual((2, 5), self.fault(line, profile=1))
        streets = [f"11,I,{k},101,1,2001-04-01," for k in range(1, 5001)]
        self.assertEqual((5002, 5), self.fault(*streets, release(5001, 500, 1002, 1), profile=1))

    def test_the_5001st_change_breaks_rule_9_whatever_its_kind(self) -> None:
        streets = [f"11,I,{k},101,1,2001-04-01," for k in range(1, 5001)]
        self.assertEqual((5002, 9), self.fault(*streets, "91"))

    def test_their_form(self) -> None:
        for line in ("91,I,1,500,1002", "91,I,1,500,1002,1,", "92,I,1,500,1002,1", adoption(1, 500, 1002, 1) + ","):
            self.assertEqual((2, 5), self.fault(line), line)
        for line in (
            "91,U,1,500,1002,1",
            "91,D,1,500,1002,1",
            "91,I,1,500,1001,1",
            "91,I,1,500,1002,0",
            "91,I,1,500,1002,10000",
            "91,I,1,0,1002,1",
            "91,I,1,500,0,1",
            "92,U,1,500,1002,1," + BLPU,
            "92,I,1,500,1001,1," + BLPU,
            "92,I,1,500,1002,1,3,450000,250000,,,2020-01-01,",
            "92,I,1,500,1002,1,1,450000,250000,,,2020-01-01,2019-01-01",
        ):
            self.assertEqual((2, 6), self.fault(line), line)
        self.assertEqual((2, 7), self.fault("91,I,2,500,1002,1"))
        self.assertEqual((2, 6), self.fault("91,U,2,500,1002,1"))

    def test_profiles(self) -> None:
        self.assertEqual([False, False, True, True], [plain.names_unknown_profile(b"10,%d," % n) for n in (1, 2, 3, 9999)])
        self.assertEqual((1, 2), self.fault(profile=3))


class Rules(Hubs):
    def test_there_and_back(self) -> None:
        self.assertEqual(APPLIED, self.said(*THERE, *BACK))

    def test_who_doesnt_hold_a_number(self) -> None:
        self.assertEqual(rejected(2, 20), self.said((1002, 1, release(1, 500, 1003, 1))))
        self.assertEqual(rejected(2, 20), self.said(*THERE, (1001, 3, blpu(1, 500))))
        self.assertEqual(rejected(2, 20), self.said(*THERE, (1001, 3, blpu(1, 500, "U"))))
        self.assertEqual(rejected(2, 20), self.said(*THERE, (1001, 3, release(1, 500, 1003, 2))))
        self.assertEqual(rejected(2, 20), self.said(*THERE, BACK[0], (1002, 3, blpu(1, 500, "U"))))

    def test_a_holder_has_a_number_as_its_own(self) -> None:
        self.assertEqual(APPLIED, self.said(*THERE, (1002, 2, blpu(1, 500, "U"))))
        self.assertEqual(rejected(2, 21), self.said(*THERE, (1002, 2, blpu(1, 500))))
        self.assertEqual(rejected(2, 23), self.said(*THERE, (1002, 2, blpu(1, 500, "D"))))
        self.assertEqual(rejected(2, 21), self.said(*THERE, *BACK, (1001, 4, blpu(1, 500))))

    def test_a_number_that_was_never_inserted_may_pass(self) -> None:
        self.assertEqual(APPLIED, self.said((1001, 1, release(1, 500, 1002, 1))))
        self.assertEqual(rejected(2, 20), self.said((1001, 1, release(1, 500, 1002, 1)), (1001, 2, blpu(1, 500))))

    def test_the_hop_of_a_release(self) -> None:
        for hop in (2, 9999):
            self.assertEqual(rejected(2, 40), self.said((1001, 1, release(1, 500, 1002, hop))))
        for hop in (1, 3):
            self.assertEqual(rejected(2, 40), self.said(*THERE, (1002, 2, release(1, 500, 1003, hop))))

    def test_what_is_adopted_was_released_so(self) -> None:
        unreleased = (
            (1002, 1, adoption(1, 500, 1001, 1)),
            (1002, 1, "90,1001,1", adoption(1, 500, 1001, 1)),
            (1002, 1, "90,1001,2", adoption(1, 500, 1001, 2)),
            (1002, 1, "90,1001,2", adoption(1, 501, 1001, 1)),
            (1002, 1, "90,1001,2", adoption(1, 500, 1003, 1)),
            (1003, 1, "90,1001,2", adoption(1, 500, 1001, 1)),
        )
        for file in unreleased:
            self.assertEqual(rejected(len(file) - 1, 41), self.said(*THERE[:2], file), file)

    def test_an_adoption_that_the_chain_is_past(self) -> None:
        self.assertEqual(rejected(3, 42), self.said(*THERE, (1002, 2, "90,1001,2", adoption(1, 500, 1001, 1))))
        self.assertEqual(rejected(3, 42), self.said(*THERE, BACK[0], (1002, 3, "90,1001,2", adoption(1, 500, 1001, 1))))
        self.assertEqual(rejected(4, 42), self.said(*THERE[:2], (1002, 1, "90,1001,2", adoption(1, 500, 1001, 1), adoption(2, 500, 1001, 1))))

    def test_through_one_file(self) -> None:
        self.assertEqual(APPLIED, self.said(*THERE[:2], (1002, 1, "90,1001,2", adoption(1, 500, 1001, 1), release(2, 500, 1003, 2))))
        self.assertEqual(rejected(4, 40), self.said(*THERE[:2], (1002, 1, "90,1001,2", adoption(1, 500, 1001, 1), release(2, 500, 1003, 1))))

    def test_what_still_names_a_released_property(self) -> None:
        ties = "23,{},{},X1,500,TAX01,A/17,2001-04-01,"
        self.assertEqual(rejected(2, 31), self.said((1001, 1, blpu(1, 500), ties.format("I", 2)), (1001, 2, release(1, 500, 1002, 1))))
        taken = (1001, 2, release(1, 500, 1002, 1), ties.format("D", 2))
        self.assertEqual(APPLIED, self.said((1001, 1, blpu(1, 500), ties.format("I", 2)), taken))
        part = (1001, 1, blpu(1, 500), blpu(2, 501, parent="500"))
        self.assertEqual(rejected(2, 35), self.said(part, (1001, 2, release(1, 500, 1002, 1))))
        self.assertEqual(APPLIED, self.said(part, (1001, 2, release(1, 500, 1002, 1), blpu(2, 501, "U"))))
        self.assertEqual(APPLIED, self.said(part, (1001, 2, release(1, 500, 1002, 1), release(2, 501, 1002, 1))))

    def test_end_rules_of_what_is_adopted(self) -> None:
        with_parent = "1,450000,250000,{},,2020-01-01,"
        self.assertEqual(rejected(3, 35), self.said(*THERE[:2], (1002, 1, "90,1001,2", adoption(1, 500, 1001, 1, with_parent.format(501)))))
        self.assertEqual(rejected(3, 36), self.said(*THERE[:2], (1002, 1, "90,1001,2", adoption(1, 500, 1001, 1, with_parent.format(500)))))
        own = (1002, 1, "90,1001,2", blpu(1, 100001), adoption(2, 500, 1001, 1, with_parent.format(100001)))
        self.assertEqual(APPLIED, self.said(*THERE[:2], own))


class Holding(unittest.TestCase):
    def holders(self, *files: tuple) -> list[int | None]:
        """Who holds number 500 after each of these files."""
        holders = []
        for make in HUBS.values():
            hub = make()
            holders.append([])
            for code, volume, *lines in files:
                hub.submit(code, volume, file_of(code, volume, *lines))
                holders[-1].append(hub.holder(500))
        self.assertEqual(holders[0], holders[1])
        return holders[0]

    def test_along_releases(self) -> None:
        on = (1002, 2, release(1, 500, 1003, 2)), (1003, 1, "90,1002,2", adoption(1, 500, 1002, 2))
        back = (1003, 2, release(1, 500, 1002, 3)), (1002, 3, "90,1003,2", adoption(1, 500, 1003, 3))
        self.assertEqual([1001, None, 1002, None, 1003, None, 1002], self.holders(*THERE, *on, *back))

    def test_who_had_it_once_doesnt_hold_it_before_it_adopts_it_again(self) -> None:
        self.assertEqual([1001, None, 1002, None, 1001], self.holders(*THERE, *BACK))

    def test_nobody_holds_what_went_to_nobody(self) -> None:
        self.assertEqual([1001, None], self.holders(THERE[0], (1001, 2, release(1, 500, 9998, 1))))

    def test_a_look_up_is_told_by_the_holder(self) -> None:
        for make in HUBS.values():
            hub, replies = make(), []
            for code, volume, *lines in THERE:
                hub.submit(code, volume, file_of(code, volume, *lines))
                replies.append(hub.look_up(500))
            there = ['{"custodian":%d,"line":null,"status":1,"uprn":500}' % code for code in (1001, 1002)]
            self.assertEqual([(200, there[0]), (404, 17), (200, there[1])], replies)


class Rows(InAFolder):
    def test_what_became_of_a_number_stands_in_rows_of_kind_92(self) -> None:
        hub = hub_sqlite.StoredHub(":memory:")
        for code, volume, *lines in (*THERE, *BACK):
            hub.submit(code, volume, file_of(code, volume, *lines))
        asked = "SELECT cust, id, blpu, street, lang, live, born, gone, body, hop FROM version2 WHERE kind = 92 ORDER BY cust, born"
        number = "000000000500", 500
        wanted = [
            (1001, *number, 1002, 0, 0, 2, 3, "", 1),
            (1001, *number, 1002, 0, 1, 3, 1_000_000, "", 2),
            (1002, *number, 1001, 0, 1, 1, 2, "", 1),
            (1002, *number, 1001, 0, 0, 2, 1_000_000, "", 2),
        ]
        self.assertEqual(wanted, hub.conn.execute(asked).fetchall())

    def test_they_are_as_written(self) -> None:
        store = self.folder / "store"
        hub = hub_sqlite.StoredHub(str(store))
        plain.replies_to([PASSED.requests(TOP)], hub)
        hub.conn.close()
        self.assertEqual(SECOND.rows(PASSED), text_of(rows_of(store)))

    def test_two_changes_of_a_volume_leave_one_row(self) -> None:
        hub = hub_sqlite.StoredHub(":memory:")
        both = (1002, 1, "90,1001,2", adoption(1, 500, 1001, 1), release(2, 500, 1003, 2))
        for code, volume, *lines in (*THERE[:2], both):
            hub.submit(code, volume, file_of(code, volume, *lines))
        asked = "SELECT kind, street, live, born, gone, hop FROM version2 WHERE cust = 1002 ORDER BY kind"
        self.assertEqual([(21, 0, 0, 1, 1, 0), (92, 1003, 0, 1, 1_000_000, 2)], hub.conn.execute(asked).fetchall())


if __name__ == "__main__":
    unittest.main()
