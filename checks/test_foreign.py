"""Tests of `foreign`, `sharing`, `tables` and `schema2`, over hubs that answer what they are told to."""

import unittest
from dataclasses import dataclass, field
from pathlib import Path

from checks import foreign, ground, history, schema2, sharing, tables
from checks.conversations import requests_in
from checks.in_folder import InAFolder
from checks.stores import TEXT, Answered, Hubs, get
from checks.written import SECOND, STORES

TOP = Path(__file__).resolve().parent.parent
SCHEMA = SECOND.statements()
ROWS = {
    "meta": [(1, 2, TEXT)],
    "received": [(1001, 1, b"a 'file'\n", 1, 0, 0), (1001, 2, b"", 2, 3, 21), (1001, 4, b"x", 0, 0, 0)],
    "version": [],
    "version2": [
        (1001, 11, "00000101", 0, 101, 0, 0, 1, 2, "101,1,2001-04-01,", 0),
        (1001, 11, "00000101", 0, 101, 0, 0, 2, 1_000_000, "101,1,2001-04-01,2024-04-30", 0),
        (1001, 15, "00000101CYM", 0, 101, 2, 0, 1, 1, "101,CYM,Ffordd,,Arden,Arden", 0),
        (1002, 11, "00000201", 0, 201, 0, 0, 1, 1_000_000, "201,1,2001-04-01,", 0),
    ],
}


NO_STORE = Answered(3, b"", "gaz_bench: BadSchema\n")


@dataclass(frozen=True)
class Telling(Hubs):
    """Makes a store of these rows where there is none, and else answers this, after it has done that to the file."""

    answered: Answered = Answered(0, b"", "")
    written: bytes = b""
    rows: dict = field(default_factory=lambda: ROWS)
    tables: list = field(default_factory=lambda: SCHEMA)

    def over(self, store: Path, requests: bytes) -> Answered:
        if not store.exists():
            there = {it: them for it, them in self.rows.items() if any(f"TABLE {it} " in made for made in self.tables)}
            tables.write_store(store, ["PRAGMA journal_mode = WAL", *self.tables], there)
            return Answered(0, b"", "")
        with store.open("ab") as file:
            file.write(self.written)
        return self.answered


def telling(**what) -> Telling:
    return Telling(Path(), Path(), **what)


class Reading(InAFolder):
    def test_the_page_has_the_statements(self) -> None:
        self.assertEqual(SCHEMA, tables.schema_in(TOP / "docs" / "tables.md"))
        words = [" ".join(statement.split()[1:3]) for statement in SCHEMA]
        self.assertEqual(["TABLE version", "INDEX by_blpu", "INDEX by_street", "TABLE received", "TABLE meta"], words[:5])
        self.assertEqual(["TABLE version2", "INDEX by_blpu2", "INDEX by_street2"], words[5:])

    def test_rows_come_back(self) -> None:
        store = self.folder / "store"
        tables.write_store(store, SCHEMA, ROWS)
        self.assertEqual(ROWS, tables.rows_of(store))

    def test_views_and_outcomes(self) -> None:
        store = self.folder / "store"
        tables.write_store(store, SCHEMA, ROWS)
        with tables.opened(store) as conn:
            self.assertEqual(b"10,E,1001,1\n11,I,1,101,1,2001-04-01,\n99,1\n", tables.view_in(conn, 1001, 1))
            self.assertEqual(b"10,E,1001,3\n11,I,1,101,1,2001-04-01,2024-04-30\n99,1\n", tables.view_in(conn, 1001, 3))
            self.assertEqual(b"10,E,1002,0\n99,0\n", tables.view_in(conn, 1002, 0))
            told = [tables.outcome_in(conn, 1001, volume) for volume in (1, 2, 4)]
        self.assertEqual(["applied", "rejected", "held"], [it["outcome"] for it in told])
        self.assertEqual((3, 21), (told[1]["record"], told[1]["rule"]))

    def test_what_a_held_file_wants_is_left_out(self) -> None:
        self.assertEqual({"outcome": "held"}, sharing.told_in(b'HTTP\r\n\r\n{"outcome":"held","wants":{"custodian":1}}\n'))


class Damaging(InAFolder):
    def refusal(self, **what) -> str | None:
        on = ground.ground(telling(**what), self.folder)
        return foreign.refuses(on, foreign.Refusal("no table meta", "DROP TABLE meta"))

    def test_a_refusal_leaves_the_file(self) -> None:
        self.assertIsNone(self.refusal(answered=NO_STORE))

    def test_a_refused_file_that_is_written_is_reported(self) -> None:
        self.assertEqual("the refused file was written", self.refusal(answered=NO_STORE, written=b"x"))

    def test_another_refusal_or_none_is_reported(self) -> None:
        for answered in (Answered(0, b"", ""), Answered(3, b"", "gaz_bench: OtherRegister\n"), Answered(3, b"x", NO_STORE.said)):
            on = ground.ground(telling(answered=answered), self.new_folder())
            self.assertIn("wanted", foreign.refuses(on, foreign.REFUSALS[0]))

    def test_each_damage_is_done(self) -> None:
        on = ground.ground(telling(), self.folder)
        for sql in [it.sql for it in foreign.REFUSALS] + list(foreign.HARMLESS.values()):
            self.assertTrue(on.ready.read_bytes() != on.damaged(sql).read_bytes(), sql)

    def test_names_differ(self) -> None:
        names = [it.name for it in (*foreign.REFUSALS, *foreign.FAULTS)]
        self.assertEqual(len(names), len(set(names)))


class TheHistory(unittest.TestCase):
    def test_files_count_their_changes(self) -> None:
        self.assertEqual(b"10,1,1002,1,2024-01-02\n90,1001,1\n11,I,1,201,1,2001-04-01,\n99,1\n", history.file_of(1002, 1, "90,1001,1", "11,I,1,201,1,2001-04-01,"))

    def test_it_asks_for_each_file(self) -> None:
        for code, volume in history.FILES:
            self.assertIn(get(f"/custodians/{code}/volumes/{volume}"), history.QUESTIONS)


class ByOtherSchemas(InAFolder):
    def test_each_can_be_made(self) -> None:
        for at, (name, schema, rows) in enumerate(foreign.schemas(SCHEMA, ROWS)):
            store = self.folder / str(at)
            tables.write_store(store, schema, rows)
            self.assertEqual({*ROWS}, {*tables.rows_of(store)}, name)

    def test_each_is_another(self) -> None:
        made = [(schema, rows) for _, schema, rows in foreign.schemas(SCHEMA, ROWS)]
        self.assertTrue(all(it not in made[:at] for at, it in enumerate(made)))

    def test_columns_have_their_cells(self) -> None:
        for at, (name, schema, rows) in enumerate(foreign.schemas(SCHEMA, ROWS)):
            store = self.folder / str(at)
            tables.write_store(store, schema, rows)
            with tables.opened(store) as conn:
                columns = "cust, kind, id, blpu, street, lang, live, born, gone, body, hop"
                self.assertEqual(ROWS["version2"], conn.execute(f"SELECT {columns} FROM version2 ORDER BY rowid").fetchall(), name)

    def test_a_further_column_has_to_be_something(self) -> None:
        on = ground.ground(telling(), self.folder)
        for table, (_, sql) in foreign.TAKING_NONE.items():
            with tables.opened(on.damaged(sql)) as conn:
                self.assertIn("x", [row[1] for row in conn.execute(f"PRAGMA table_info({table})")])


REPLY = b"HTTP/1.1 200 OK\r\nContent-Length: 0\r\n\r\n"


@dataclass(frozen=True)
class Judging(Telling):
    """Leaves these rows in a store that is there, and answers every request alike where there is none."""

    answered: Answered = Answered(0, REPLY, "")
    judged: dict = field(default_factory=lambda: ROWS)

    def over(self, store: Path, requests: bytes) -> Answered:
        if store.exists():
            store.unlink()
            tables.write_store(store, SCHEMA, self.judged)
        return super().over(store, requests)

    def without_store(self, requests: bytes) -> Answered:
        return Answered(0, REPLY * len(requests_in(requests)), "")


class ThatIsNotJudged(InAFolder):
    def fault(self, **what) -> str | None:
        on = ground.ground(Judging(Path(), Path(), **what), self.folder)
        return foreign.judges_all_that_is_ready(on, SCHEMA)

    def test_all_that_is_judged_passes(self) -> None:
        self.assertIsNone(self.fault())

    def test_what_is_not_judged_is_reported(self) -> None:
        received = [(*row[:3], 0, 0, 0) for row in ROWS["received"]]
        for judged in (ROWS | {"received": received, "version2": []}, ROWS | {"version2": ROWS["version2"][:-1]}):
            self.folder = self.new_folder()
            self.assertIn("aren't those", self.fault(judged=judged))

    def test_another_answer_is_reported(self) -> None:
        self.assertIn("differs", self.fault(answered=Answered(0, foreign.REFUSED, "")))


class ThatAreWritten(InAFolder):
    def test_other_rows_are_reported(self) -> None:
        self.assertIn("wanted", schema2.holds(telling(), TOP, self.folder, STORES[0]))
        self.assertIn("wanted", schema2.holds_history(telling(), self.folder))

    def test_rows_that_are_missing_are_reported(self) -> None:
        self.assertEqual("line 2: b, wanted c", schema2.first_other("a\nc\n", "a\nb\n"))
        self.assertEqual("1 lines, wanted 2", schema2.first_other("a\nc\n", "a\n"))
        self.assertIsNone(schema2.first_other("a\nc\n", "a\nc\n"))

    def test_other_tables_are_reported(self) -> None:
        self.assertIsNone(schema2.same_tables(telling(), self.folder))
        (self.folder / "tables").unlink()
        self.assertIn("differ in", schema2.same_tables(Telling(Path(), Path(), tables=SCHEMA[:5]), self.folder))

    def test_the_rows_of_the_history_are_moved(self) -> None:
        rows = schema2.left_rows(self.folder)
        self.assertEqual(([(1, 2, TEXT)], [], 9), (rows["meta"], rows["version"], len(rows["received"])))
        self.assertEqual({0}, {row[-1] for row in rows["version2"]})


if __name__ == "__main__":
    unittest.main()
