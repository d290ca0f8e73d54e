"""Tests of `damages` and `damaged`, over hubs that answer what they are told to."""

import unittest
from dataclasses import dataclass
from pathlib import Path

from checks import damaged, damages, ground, tables
from checks.conversations import requests_in
from checks.foreign import REFUSED
from checks.history import QUESTIONS
from checks.in_folder import InAFolder
from checks.stores import TEXT, Answered, Hubs
from checks.written import SECOND

SCHEMA = SECOND.statements()
ROWS = {
    "meta": [(1, 2, TEXT)],
    "received": [(1001, 1, b"one", 1, 0, 0), (1001, 2, b"two", 2, 3, 21), (1002, 1, b"three", 0, 0, 0)],
    "version2": [
        (1001, 11, "00000101", 0, 101, 0, 0, 1, 2, "101,1,2001-04-01,", 0),
        (1001, 11, "00000101", 0, 101, 0, 0, 2, 1_000_000, "101,1,2001-04-01,2024-04-30", 0),
        (1001, 21, "000000000042", 0, 0, 0, 0, 2, 1_000_000, "42,1,1,1,,,2001-04-01,", 0),
    ],
}
OK = b'HTTP/1.1 200 OK\r\nContent-Type: application/json\r\nContent-Length: 3\r\n\r\n{}\n'
NO_STORE = Answered(3, b"", "gaz_bench: Fault\n")
FIRST, LAST = 0, len(requests_in(QUESTIONS)) - 1  # an outcome, and the closed streets


@dataclass(frozen=True)
class Telling(Hubs):
    """Makes a store of the rows where there is none, and else does this to it and answers each request alike, but for one place."""

    sql: str = ""
    reply: bytes = OK
    place: int = -1
    ended: Answered | None = None

    def over(self, store: Path, requests: bytes) -> Answered:
        if not store.exists():
            tables.write_store(store, ["PRAGMA synchronous = OFF", *SCHEMA], ROWS)
            return Answered(0, b"", "")
        if self.sql:
            ground.alter(store, self.sql)
        replies = [self.reply if place == self.place else OK for place in range(len(requests_in(requests)))]
        return self.ended or Answered(0, b"".join(replies), "")


RIGHT = [OK] * len(requests_in(QUESTIONS))
OF_A_ROW = damages.Damage("a row", lambda it: damages.by_sql(it, "UPDATE version2 SET body = 'x' WHERE rowid = 1"), 1001)
OF_A_TEXT = damages.Damage("no UTF-8", lambda it: damages.by_sql(it, "UPDATE version2 SET body = CAST(x'ff' AS TEXT) WHERE rowid = 1"), 1001)
OF_A_PAGE = damages.Damage("a page", lambda it: damages.by_bytes(it, 1, "noise"))


class Enduring(InAFolder):
    def fault(self, damage: damages.Damage = OF_A_ROW, **what) -> str | None:
        return damaged.endures(ground.ground(Telling(Path(), Path(), **what), self.new_folder()), damage, RIGHT)

    def test_a_right_program_passes(self) -> None:
        for damage in (OF_A_ROW, OF_A_PAGE):
            self.assertIsNone(self.fault(damage))

    def test_a_refusal_passes_where_it_may_come(self) -> None:
        for damage in (OF_A_PAGE, OF_A_TEXT):
            self.assertIsNone(self.fault(damage, ended=NO_STORE))
        self.assertEqual("isn't opened: gaz_bench: Fault\n", self.fault(ended=NO_STORE))

    def test_a_refused_file_that_is_written_is_reported(self) -> None:
        self.assertEqual("the refused file was written", self.fault(ended=NO_STORE, sql="CREATE TABLE other (x)"))

    def test_a_question_that_writes_is_reported(self) -> None:
        self.assertEqual("a question has written", self.fault(sql="UPDATE received SET state = 1"))

    def test_another_end_is_reported(self) -> None:
        self.assertEqual("exit status 1, Error", self.fault(ended=Answered(1, b"", "Error\n")))
        self.assertIn("didn't end", self.fault(ended=Answered(-1, b"", "didn't end within 60 s")))
        self.assertIn("gaz_bench: Usage", self.fault(OF_A_PAGE, ended=Answered(3, b"", "gaz_bench: Usage\n")))
        self.assertIn("exit status 3", self.fault(OF_A_PAGE, ended=Answered(3, OK, NO_STORE.said)))

    def test_a_reply_too_few_is_reported(self) -> None:
        self.assertEqual(f"{LAST} replies to {LAST + 1} requests", self.fault(reply=b"", place=LAST))

    def test_what_is_no_reply_is_reported(self) -> None:
        self.assertIn("no reply", self.fault(reply=OK.replace(b"200 OK", b"OK"), place=LAST))
        self.assertIn("no reply", self.fault(reply=OK.replace(b": 3", b": 4"), place=LAST))

    def test_another_refusal_than_51_and_52_is_reported(self) -> None:
        self.assertIn("another refusal", self.fault(reply=REFUSED.replace(b"51", b"41"), place=LAST))

    def test_a_reply_may_be_another_where_it_reads_the_row(self) -> None:
        for reply in (REFUSED, OK.replace(b"{}", b"[]")):
            self.assertIsNone(self.fault(reply=reply, place=LAST))
            self.assertIn(f"question {FIRST} is told", self.fault(reply=reply, place=FIRST))
            self.assertIsNone(self.fault(OF_A_PAGE, reply=reply, place=FIRST))

    def test_extracts_of_others_are_spared(self) -> None:
        places = [place for place in range(LAST + 1) if not damaged.is_spared(place, 1003)]
        self.assertEqual([14, 15, *range(19, LAST + 1)], places)


class Damaging(InAFolder):
    def test_all_can_be_done(self) -> None:
        on = ground.ground(Telling(Path(), Path()), self.folder)
        for damage in list(damages.damages(on.ready))[::13]:
            store = on.damaged()
            damage.do(store)
            self.assertGreater(store.stat().st_size, 0, damage.name)

    def test_names_differ(self) -> None:
        on = ground.ground(Telling(Path(), Path()), self.folder)
        names = [it.name for it in damages.damages(on.ready)]
        self.assertEqual(len(names), len(set(names)))

    def test_columns_are_those_of_the_page(self) -> None:
        store = Telling(Path(), Path())
        store.over(self.folder / "store", b"")
        with tables.opened(self.folder / "store") as conn:
            for table, columns in damages.COLUMNS.items():
                self.assertEqual(columns, tuple(row[1] for row in conn.execute(f"PRAGMA table_info({table})")))

    def test_tables_take_anything_where_they_have_to(self) -> None:
        store = ground.ground(Telling(Path(), Path()), self.folder).ready
        damages.by_any_sql(store, "UPDATE received SET state = NULL WHERE rowid = 2")
        with tables.opened(store) as conn:
            self.assertEqual([(1,), (None,), (0,)], conn.execute("SELECT state FROM received").fetchall())
            self.assertEqual(ROWS["version2"], conn.execute("SELECT * FROM version2").fetchall())

    def test_what_python_cannot_read_is_told(self) -> None:
        store = ground.ground(Telling(Path(), Path()), self.folder).ready
        self.assertEqual(4, len(damaged.contents(store)))
        damages.by_bytes(store, 0, "noise")
        self.assertEqual("file is not a database", damaged.contents(store))


if __name__ == "__main__":
    unittest.main()
