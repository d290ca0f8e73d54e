"""Stores as Python's own SQLite has them: their schema, their rows, and what its queries tell."""

import contextlib
import hashlib
import re
import sqlite3
from collections.abc import Iterator
from pathlib import Path

# The tables of a store, each with its key. Those of items are schema 2's, and schema 1's, which schema 2 has beside it and leaves empty.
KEYS = {"meta": "id", "received": "cust, volume", "version": "cust, kind, id, born", "version2": "cust, kind, id, born"}


@contextlib.contextmanager
def opened(store: Path) -> Iterator[sqlite3.Connection]:
    """Python's connection to a store, which is closed and not only left."""
    with contextlib.closing(sqlite3.connect(store, isolation_level=None)) as conn:
        yield conn


def schema_in(page: Path) -> list[str]:
    """The statements that make a store's tables, as a page of docs/ has them."""
    text = page.read_text()
    joined = re.sub(r"\n {6}", " ", text)
    return re.findall(r"(?m)^ {4}(CREATE .*)$", joined)


def write_store(path: Path, schema: list[str], rows: dict[str, list[tuple]]) -> None:
    """Makes a store of these rows of its tables by Python's own SQLite."""
    with opened(path) as conn:
        for statement in schema:
            conn.execute(statement)
        for table, them in rows.items():
            for row in them:
                conn.execute(f"INSERT INTO {table} VALUES ({', '.join('?' * len(row))})", row)


def rows_of(store: Path) -> dict[str, list[tuple]]:
    """The rows of a store's tables, of those that are there, in the order of their keys."""
    with opened(store) as conn:
        there = {name for (name,) in conn.execute("SELECT name FROM sqlite_schema WHERE type = 'table'")}
        return {table: conn.execute(f"SELECT * FROM {table} ORDER BY {key}").fetchall() for table, key in KEYS.items() if table in there}


def view_in(conn: sqlite3.Connection, code: int, volume: int) -> bytes:
    """The extract of a volume, by a query of Python's own."""
    rows = conn.execute(
        "SELECT kind, body FROM version2 WHERE cust = ? AND kind <= 24 AND born <= ? AND gone > ? ORDER BY kind, id", (code, volume, volume)
    ).fetchall()
    lines = [f"{kind},I,{order},{body}" for order, (kind, body) in enumerate(rows, 1)]
    return "\n".join((f"10,E,{code},{volume}", *lines, f"99,{len(rows)}", "")).encode()


def outcome_in(conn: sqlite3.Connection, code: int, volume: int) -> dict:
    """What a row of `received` says of a file, without what a held one wants."""
    asked = "SELECT bytes, state, place, rule FROM received WHERE cust = ? AND volume = ?"
    data, state, place, rule = conn.execute(asked, (code, volume)).fetchone()
    told = {"digest": hashlib.sha256(data).hexdigest(), "outcome": ("held", "applied", "rejected")[state]}
    return told | ({"record": place, "rule": rule} if state == 2 else {})
