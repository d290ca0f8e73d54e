"""Tests of what is kept of schema 1: its rows are written in SQL, and lie in files as the last program of that schema left them. Both say the same.
Tests of `written` and `schema1`, too."""

import re
import shutil
import sqlite3
import sys
import unittest
from pathlib import Path

from checks import schema1, tables, written
from checks.conversations import find, requests_in
from checks.history import FILES, file_of
from checks.in_folder import InAFolder
from checks.stores import TEXT, Hubs, get, post
from checks.written import FIRST, PASSED, SECOND, STORES

TOP = Path(__file__).resolve().parent.parent
POST = re.compile(rb"POST /custodians/(\d+)/volumes/(\d+) .*?\r\n\r\n", re.DOTALL)
NEVER = 1_000_000  # where a row that is current goes
ROWS = {
    "meta": [(1, 1, TEXT)],
    "received": [(1001, 1, b"a 'file'\n", 1, 0, 0), (1001, 2, b"", 2, 3, 21), (1001, 4, b"x", 0, 0, 0)],
    "version": [(1001, 11, "00000101", 0, 101, 0, 0, 1, 2, "101,1,2001-04-01,"), (1002, 15, "00000201CYM", 0, 201, 2, 0, 1, 1_000_000, "it's")],
}


def first_files(requests: bytes) -> dict[tuple[int, int], bytes]:
    """The first file of each custodian and volume in a stream."""
    files: dict[tuple[int, int], bytes] = {}
    for request in requests_in(requests):
        if found := POST.match(request):
            files.setdefault((int(found[1]), int(found[2])), request[found.end() :])
    return files


def strays(rows: dict[str, list[tuple]]) -> list[tuple]:
    """The items that came or went in a volume which wasn't applied."""
    applied = {row[:2] for row in rows["received"] if row[3] == 1}
    return [row for row in rows["version"] if not {(row[0], row[7])} | {(row[0], row[8])} - {(row[0], NEVER)} <= applied]


class OfStores(InAFolder):
    def left(self, name: str) -> Path:
        """A copy of a file as the last program of schema 1 left it: Python changes what it reads."""
        shutil.copyfile(FIRST.folder / f"{name}.db", self.folder / f"{name}.db")
        return self.folder / f"{name}.db"


class Writing(OfStores):
    def test_a_cell_is_readable(self) -> None:
        self.assertEqual(["7", "'it''s'", "CAST('10,1\n' AS BLOB)"], [written.literal(cell) for cell in (7, "it's", b"10,1\n")])

    def test_rows_come_back_from_their_text(self) -> None:
        for schema, rows in ((FIRST, ROWS), (SECOND, written.moved(ROWS))):
            with sqlite3.connect(":memory:") as conn:
                conn.executescript(schema.tables() + written.text_of(rows))
                for table, them in rows.items():
                    self.assertEqual(them, conn.execute(f"SELECT * FROM {table}").fetchall())

    def test_each_store_can_be_written(self) -> None:
        for at, schema in enumerate((FIRST, SECOND)):
            for it in STORES:
                store = self.folder / f"{it.name}{at}"
                schema.write(store, it)
                self.assertEqual(schema.rows(it), written.text_of(tables.rows_of(store)), it.name)

    def test_each_file_of_rows_is_one_of_them(self) -> None:
        names = {it.name for it in STORES}
        self.assertEqual({"tables", *names}, {path.stem for path in FIRST.folder.glob("*.sql")})
        self.assertEqual({"tables", PASSED.name, *names}, {path.stem for path in SECOND.folder.glob("*.sql")})
        self.assertEqual({"history", *names}, {path.stem for path in FIRST.folder.glob("*.db")})

    def test_their_conversations_are_there(self) -> None:
        names = {one.name for one in find(TOP)}
        self.assertEqual(set(), {it.conversation for it in STORES} - names)


class TheSameRows(OfStores):
    def test_the_last_program_left_them(self) -> None:
        for it in STORES:
            self.assertEqual(FIRST.rows(it), written.text_of(tables.rows_of(self.left(it.name))), it.name)

    def test_they_are_of_the_files_of_their_conversations(self) -> None:
        for it in STORES:
            rows = tables.rows_of(self.left(it.name))
            self.assertEqual([(1, 1, TEXT)], rows["meta"], it.name)
            self.assertEqual(first_files(it.requests(TOP)), {row[:2]: row[2] for row in rows["received"]}, it.name)

    def test_items_came_and_went_in_applied_volumes(self) -> None:
        for it in STORES:
            self.assertEqual([], strays(tables.rows_of(self.left(it.name))), it.name)

    def test_an_item_of_another_volume_is_seen(self) -> None:
        street, name = ROWS["version"]
        self.assertEqual([street, name], strays(ROWS))  # one went in a rejected volume, of the other's custodian there is none
        self.assertEqual([], strays(ROWS | {"version": [(*street[:8], NEVER, street[9])]}))
        self.assertEqual([(*street[:7], 4, NEVER, street[9])], strays(ROWS | {"version": [(*street[:7], 4, NEVER, street[9])]}))

    def test_the_first_file_of_a_pair_counts(self) -> None:
        self.assertEqual({(1001, 2): b"a", (1001, 1): b""}, first_files(post(1001, 2, b"a") + get("/closed") + post(1001, 1, b"") + post(1001, 2, b"b")))

    def test_the_history_is_in_a_file(self) -> None:
        rows = tables.rows_of(self.left("history"))
        self.assertEqual([(1, 1, TEXT)], rows["meta"])
        self.assertEqual({pair: file_of(*pair, *lines) for pair, lines in FILES.items()}, {row[:2]: row[2] for row in rows["received"]})
        self.assertEqual({11, 15, 21, 23, 24}, {row[1] for row in rows["version"]})

    def test_each_file_has_the_tables_of_schema_1(self) -> None:
        with sqlite3.connect(":memory:") as conn:
            conn.executescript(FIRST.tables())
            wanted = conn.execute("SELECT type, name, tbl_name, rootpage, sql FROM sqlite_schema ORDER BY rowid").fetchall()
        for name in ("history", *(it.name for it in STORES)):
            with tables.opened(self.left(name)) as conn:
                self.assertEqual(wanted, conn.execute("SELECT type, name, tbl_name, rootpage, sql FROM sqlite_schema ORDER BY rowid").fetchall())
                self.assertEqual([("ok",)], conn.execute("PRAGMA integrity_check").fetchall())

    def test_schema_2_has_them_moved(self) -> None:
        for it in STORES:
            self.assertEqual(SECOND.rows(it), written.text_of(written.moved(tables.rows_of(self.left(it.name)))), it.name)


# What a program may do with a store that it is given.
PROGRAM = f"#!{sys.executable} -IS" + """
import pathlib, sys
words = sys.argv[1:]
store = pathlib.Path(words[words.index("--store") + 1])
{does}
print("gazhub: {word}", file=sys.stderr)
sys.exit(3)
"""


class Refusing(OfStores):
    def refusal(self, does: str = "", word: str = "BadSchema") -> str | None:
        program = self.program(PROGRAM.format(does=does, word=word))
        return schema1.refuses_all(program, self.left("history"))

    def test_a_right_program_passes(self) -> None:
        self.assertIsNone(self.refusal())

    def test_another_refusal_or_none_is_reported(self) -> None:
        self.assertIn("init r.toml: (3, b'', b'gazhub: Fault", self.refusal(word="Fault"))
        self.assertIn("status other.toml 1001: ", self.refusal("if 'other.toml' in words: print('ready')"))
        self.assertIn("serve r.toml", self.refusal("if words[0] == 'serve': sys.exit(0)"))

    def test_a_store_that_is_written_is_reported(self) -> None:
        self.assertIn("submit r.toml 1001 1 file.csv: the refused file was written", self.refusal("if words[0] == 'submit': store.write_bytes(b'')"))

    def test_a_hub_that_answers_is_reported(self) -> None:
        text = PROGRAM.format(does="", word="").replace('words[words.index("--store") + 1]', "words[1]").replace("gazhub: ", "gaz_bench: BadSchema")
        self.assertIsNone(schema1.holds_on(Hubs(self.program(text), Path()), self.left("history")))
        answering = self.program(text.replace("sys.exit(3)", "sys.exit(0)"))
        self.assertIn("wanted", schema1.holds_on(Hubs(answering, Path()), self.left("history")))


if __name__ == "__main__":
    unittest.main()
