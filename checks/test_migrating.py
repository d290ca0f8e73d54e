"""Tests of `migrating`, `migrating_between`, `migrating_refused`, `migrating_others` and `migrating_stopped`, over a small program that migrates by Python's own SQLite
and answers as the plain hub over it does."""

import sys
import unittest
from pathlib import Path

from checks import migrating, migrating_between, migrating_others, migrating_refused, migrating_stopped, written
from checks.conversations import Conversation, find
from checks.history import LATER
from checks.in_folder import InAFolder, small_program
from checks.migrating import Place
from checks.stores import SAMPLE, TEXT, Hubs
from checks.written import FIRST, SECOND, STORES

TOP = Path(__file__).resolve().parent.parent

# `gazhub` and `gaz_bench`, by the name of its file.
PROGRAM = f"""#!{sys.executable} -S
import io, pathlib, sqlite3, sys
sys.path.insert(0, {str(TOP / "bench")!r})
import hub, hub_sqlite
MOVED, TEXT = {migrating_refused.MOVED!r}, {TEXT!r}

def ends(word):
    print("gazhub: " + word, file=sys.stderr)
    sys.exit(3)

def answered(store, stream):
    it = hub_sqlite.StoredHub(store)
    with it.commit():
        it.begin()
        it.settle()
    hub.answer(io.BytesIO(stream), sys.stdout.buffer, hub=it)
    it.conn.close()

def pieces(source):
    while line := source.readline():
        yield source.read(int(line))

def fault(conn, number):
    tables = {{name.lower() for name, in conn.execute("SELECT name FROM sqlite_schema WHERE type = 'table'")}}
    if not {{"version", "received", "meta"}} <= tables or ("version2" in tables) != (number == 2):
        return "BadSchema"
    rows = conn.execute("SELECT id, number, register FROM meta").fetchall()
    if len(rows) != 1 or rows[0][:2] != (1, number):
        return "BadSchema"
    return None if rows[0][2] == TEXT else "OtherRegister"

def migrate(conn):
    conn.executescript("BEGIN; " + MOVED + "; COMMIT")

def migrated(store):
    if not pathlib.Path(store).exists():
        ends("Fault")
    conn = sqlite3.connect(store, isolation_level=None)
    try:
        word = fault(conn, 2)
        if word != "BadSchema":
            return word, "current"
        word = fault(conn, 1)
        if word is None:
            migrate(conn)
        return word, "migrated"
    except (sqlite3.Error, UnicodeDecodeError):
        if conn.in_transaction:
            conn.execute("ROLLBACK")
        return "Fault", ""
    finally:
        conn.close()

if sys.argv[0].endswith("gaz_bench"):
    command, store, *_ = sys.argv[1:]
    given = pieces(sys.stdin.buffer) if command == "stored-each" else [sys.stdin.buffer.read()]
    for piece in given:
        answered(store, piece)
    sys.exit()
command, _, store, _, _, *more = sys.argv[1:]
if command == "init":
    hub_sqlite.StoredHub(store).conn.close()
    print("ready")
elif command == "migrate":
    word, said = migrated(store)
    print(said) if word is None else ends(word)
else:
    with sqlite3.connect(store) as conn:
        word = fault(conn, 2)
    if word:
        ends(word)
    target = {{"status": "/custodians/%s", "extract": "/extract/%s/%s", "line": "/uprn/%s", "submit": "/custodians/%s/volumes/%s"}}[command]
    body = pathlib.Path(more.pop()).read_bytes() if command == "submit" else None
    method = b"GET" if body is None else b"POST"
    it = hub_sqlite.StoredHub(store)
    print(hub.answer_to(it, method, (target % tuple(more)).encode(), body))
    it.conn.close()
"""
LEFT_OUT = PROGRAM.replace('"BEGIN; " + MOVED', '"BEGIN; " + MOVED + "; DELETE FROM version2 WHERE gone < 1000000"')
UNJUDGED = PROGRAM.replace('"BEGIN; " + MOVED', '"BEGIN; " + MOVED + "; UPDATE received SET state = 0, place = 0, rule = 0"')
SILENT = PROGRAM.replace('"migrated"\n', '"current"\n')
WITHOUT_INDEX = PROGRAM.replace('"BEGIN; " + MOVED', '"BEGIN; " + MOVED + "; DROP INDEX by_street2"')
TOUCHING = PROGRAM.replace('            return word, "current"', '            conn.executescript("CREATE TABLE it (x); DROP TABLE it")\n            return word, "current"')
ANY_NUMBER = PROGRAM.replace("rows[0][:2] != (1, number)", "rows[0][0] != 1")
WRITING = PROGRAM.replace("    except (sqlite3", "    except OSError:\n        pass\n    except (sqlite3").replace('            conn.execute("ROLLBACK")', '            conn.execute("COMMIT")')


class Migrating(InAFolder):
    def setUp(self) -> None:
        super().setUp()
        (self.folder / "register.toml").write_text(SAMPLE)

    def place(self, text: str) -> Place:
        gazhub, gaz_bench = (small_program(self.folder / name, text) for name in ("gazhub", "gaz_bench"))
        return Place(gazhub, Hubs(gaz_bench, self.folder / "register.toml"), self.folder)

    def fault(self, text: str, name: str = "a_street_and_a_held_file") -> str | None:
        on = self.place(text)
        store = on.store()
        store.write_bytes((FIRST.folder / f"{name}.db").read_bytes())
        return migrating.fault_of(on, store, LATER)


class Stores(Migrating):
    def test_a_right_program_passes(self) -> None:
        self.assertIsNone(self.fault(PROGRAM))

    def test_rows_that_are_left_out_are_found(self) -> None:
        self.assertEqual("it has other rows than before", self.fault(LEFT_OUT, "a_deleted_address"))
        self.assertEqual("it has other rows than before", self.fault(UNJUDGED))

    def test_another_word_is_found(self) -> None:
        self.assertIn("it says (0, b'current", self.fault(SILENT))

    def test_another_schema_is_found(self) -> None:
        self.assertIn("by_street2", self.fault(WITHOUT_INDEX))

    def test_a_current_store_that_is_written_is_found(self) -> None:
        self.assertEqual("it wrote to a store that is current", self.fault(TOUCHING))

    def test_other_answers_are_found(self) -> None:
        on = self.place(PROGRAM)
        stores = [on.store() for _ in range(2)]
        for store, written_one in zip(stores, STORES):
            SECOND.write(store, written_one)
        self.assertIn("is told", migrating.told_otherwise(on, *stores))
        self.assertIn("differs", migrating.goes_on_otherwise(on, *stores, LATER))

    def test_each_store_comes_twice(self) -> None:
        on = self.place(PROGRAM)
        names = [name for name, _, _ in migrating.stores_of(on, TOP)]
        self.assertEqual(2 * (1 + len(STORES)), len(set(names)))

    def test_rows_come_back_by_schema_1(self) -> None:
        rows = migrating.held(self.history())
        self.assertEqual(rows, written.moved_back(written.moved(rows)))

    def history(self) -> Path:
        store = self.place(PROGRAM).store()
        store.write_bytes((FIRST.folder / "history.db").read_bytes())
        return store


class Between(Migrating):
    def conversation(self) -> Conversation:
        return next(one for one in find(TOP) if one.name == STORES[1].conversation)

    def test_a_right_program_passes(self) -> None:
        on = self.place(PROGRAM)
        self.assertEqual([None, None], [run(on, self.conversation()) for _, run in migrating_between.WAYS])

    def test_a_store_that_lost_what_it_had_is_found(self) -> None:
        text = PROGRAM.replace('"BEGIN; " + MOVED', '"BEGIN; " + MOVED + "; DELETE FROM received"')
        nothing, half = (run(self.place(text), self.conversation()) for _, run in migrating_between.WAYS)
        self.assertIsNone(nothing)
        self.assertIn("differs", half)

    def test_a_conversation_is_halved(self) -> None:
        before, behind, replies = migrating_between.half_of(self.conversation())
        self.assertEqual(self.conversation().requests, b"".join(before + behind))
        self.assertTrue(before and behind and self.conversation().replies.endswith(replies))

    def test_no_half_has_a_file_of_profile_2(self) -> None:
        there = next(one for one in find(TOP) if one.name == "conversations/what-names-a-property-goes-before-it")
        before, behind, _ = migrating_between.half_of(there)
        self.assertEqual((4, True), (len(before), migrating_between.PROFILE_2 in behind[0]))
        waits = next(one for one in find(TOP) if one.name == "conversations/an-adoption-waits-for-its-release")
        self.assertEqual([], migrating_between.half_of(waits)[0])


class Refusing(Migrating):
    def refusal(self, text: str, word: str = "BadSchema", sql: str = "UPDATE meta SET number = 3") -> str | None:
        return migrating_refused.refuses(self.place(text), word, sql)

    def test_a_right_program_passes(self) -> None:
        self.assertIsNone(self.refusal(PROGRAM))
        self.assertIsNone(self.refusal(PROGRAM, "OtherRegister", migrating_refused.OTHER))
        self.assertIsNone(self.refusal(PROGRAM, "Fault", "CREATE VIEW by_blpu2 AS SELECT 1"))

    def test_what_is_taken_or_changed_is_found(self) -> None:
        self.assertIn("it says (0", self.refusal(ANY_NUMBER))
        self.assertEqual("it doesn't hold what it held", self.refusal(WRITING, "Fault", "CREATE VIEW by_blpu2 AS SELECT 1"))

    def test_each_can_be_made(self) -> None:
        on, them = self.place(PROGRAM), [sql for them in migrating_refused.REFUSED.values() for sql in them]
        self.assertEqual(len(them), len(set(them)))
        for sql in them:
            self.assertNotEqual((FIRST.folder / "history.db").read_bytes(), migrating_refused.altered(on, sql).read_bytes(), sql)

    def test_files_that_are_none(self) -> None:
        on = self.place(PROGRAM)
        self.assertEqual([None] * 4, [migrating_refused.leaves(on, *it) for _, *it in migrating_refused.no_stores(on)])


class Others(Migrating):
    def test_a_right_program_passes(self) -> None:
        on = self.place(PROGRAM)
        for name, sql in list(migrating_others.TAKEN.items())[::5]:
            self.assertIsNone(migrating_others.takes(on, sql), name)

    def test_python_moves_each(self) -> None:
        on = self.place(PROGRAM)
        for name, sql in migrating_others.TAKEN.items():
            self.assertIsInstance(migrating_others.by_python(migrating_refused.altered(on, sql)), dict, name)

    def test_rows_that_are_left_out_are_found(self) -> None:
        self.assertIn("Python makes other rows", migrating_others.takes(self.place(LEFT_OUT), ""))

    def test_what_becomes_of_a_row_changes_something(self) -> None:
        on, loose = self.place(PROGRAM), "".join(map(migrating_refused.loosely, migrating_refused.TABLES))
        before, them = migrating_refused.dumped(migrating_refused.altered(on, loose)), dict(migrating_others.of_rows())
        of_each = [sum(name.startswith(f"a row of {table} ") for name in them) for table in ("version", "received")]
        self.assertEqual([11, 9], of_each)
        for name, sql in them.items():
            self.assertNotEqual(before, migrating_refused.dumped(migrating_refused.altered(on, sql)), name)

    def test_damaged_stores_are_moved_or_refused(self) -> None:
        on = self.place(PROGRAM)
        them = list(migrating_others.damaged(on))
        self.assertEqual(len(them), len({name for name, _ in them}))
        for name, store in them[::40]:
            self.assertIsNone(migrating_others.endures(on, store), name)

    def test_a_refusal_that_changes_is_found(self) -> None:
        on = self.place(WRITING)
        store = migrating_refused.altered(on, "CREATE VIEW by_blpu2 AS SELECT 1")
        self.assertIn("doesn't hold what it held", migrating_others.endures(on, store))


class Stopped(Migrating):
    def test_a_change_is_told_of_by_other_commands(self) -> None:
        change = migrating_stopped.change_of(self.place(PROGRAM), "a_street_and_a_held_file")
        for words, before, after in change.asked:
            self.assertEqual((3, b"", b"gazhub: BadSchema\n"), before)
            self.assertTrue(after[0] == 0 and after[1], words)

    def test_a_large_store_is_one(self) -> None:
        change = migrating_stopped.large(self.place(PROGRAM))
        rows = migrating.held(change.ready)["version"]
        self.assertEqual(migrating_stopped.ROWS, sum(row[2].startswith("Y") for row in rows))


if __name__ == "__main__":
    unittest.main()
