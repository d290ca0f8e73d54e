"""Stores as written rows, in SQL: of each schema the same four, named for what they hold, and the conversations that leave them; of schema 2 one more, in which a property passed."""

from dataclasses import dataclass
from pathlib import Path

from checks.conversations import find, requests_in
from checks.tables import opened

HERE = Path(__file__).resolve().parent


@dataclass(frozen=True)
class Written:
    """A store by the name of its files, which holds what so many requests of a conversation leave; all of them where `most` is none."""

    name: str
    conversation: str
    most: int | None = None

    def requests(self, root: Path) -> bytes:
        given = next(one.requests for one in find(root) if one.name == self.conversation)
        return b"".join(requests_in(given)[: self.most])


STORES = (
    Written("a_street_and_a_held_file", "conversations/a-rejected-file-is-not-replaced", 2),
    Written("rejected_volumes", "conversations/a-rejected-file-is-not-replaced"),
    Written("a_closed_street_with_a_neighbours_address", "conversations/files-in-the-reverse-order-are-told-alike"),
    Written("a_deleted_address", "conversations/a-deleted-key-stays-used"),
)
PASSED = Written("a_property_that_passed", "conversations/a-property-passes-there-and-back")


@dataclass(frozen=True)
class Schema:
    """A folder with the tables of a schema, and the rows of each store by it."""

    folder: Path

    def tables(self) -> str:
        return (self.folder / "tables.sql").read_text()

    def statements(self) -> list[str]:
        """The statements that make the tables, without the sign that ends each."""
        return [line.removesuffix(";") for line in self.tables().splitlines()]

    def rows(self, written: Written) -> str:
        return (self.folder / f"{written.name}.sql").read_text()

    def write(self, path: Path, written: Written) -> None:
        """Makes a store of the tables and rows that are written, by Python's own SQLite."""
        with opened(path) as conn:
            conn.executescript(self.tables())
            conn.executescript(self.rows(written))


FIRST, SECOND = Schema(HERE / "schema1"), Schema(HERE / "schema2")


def literal(cell: int | str | bytes) -> str:
    """A cell in SQL. A file is written as the text that it is."""
    if isinstance(cell, int):
        return str(cell)
    if isinstance(cell, bytes):
        return f"CAST({literal(cell.decode())} AS BLOB)"
    return "'" + cell.replace("'", "''") + "'"


def text_of(rows: dict[str, list[tuple]]) -> str:
    """The rows of tables as statements."""
    pairs = ((table, row) for table, them in rows.items() for row in them)
    return "".join(f"INSERT INTO {table} VALUES ({', '.join(map(literal, row))});\n" for table, row in pairs)


def moved(rows: dict[str, list[tuple]]) -> dict[str, list[tuple]]:
    """The rows by schema 2 of a store of schema 1: items stand in another table, with a hop of 0 behind them, and the number is 2."""
    meta = [(key, 2, register) for key, _, register in rows["meta"]]
    return {"meta": meta, "received": rows["received"], "version": [], "version2": [(*row, 0) for row in rows["version"]]}


def moved_back(rows: dict[str, list[tuple]]) -> dict[str, list[tuple]]:
    """The rows by schema 1 of a store of schema 2 whose items have no hop."""
    assert not rows["version"] and all(row[-1] == 0 for row in rows["version2"])
    meta = [(key, 1, register) for key, _, register in rows["meta"]]
    return {"meta": meta, "received": rows["received"], "version": [row[:-1] for row in rows["version2"]]}
