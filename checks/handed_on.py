"""Rows of custody that Python put into stores beside the items, and hops of items: what no hub wrote. What a hub tells is as if they weren't there,
but of the number that they are of; and of that a damaged row makes no hub tell anything that is wrong."""

from collections.abc import Callable, Iterator
from dataclasses import dataclass
from pathlib import Path

from checks.conversations import replies_in
from checks.ground import Ground, alter, ground
from checks.history import LATER, QUESTIONS, file_of
from checks.stored import fault_in
from checks.stores import Answered, get, hubs_of, post
from checks.tables import opened, rows_of

NEVER = 1_000_000


@dataclass(frozen=True)
class Row:
    """A row of what became of a number in the gazetteer of custodian 1001."""

    uprn: int
    other: int = 1002
    live: int = 0  # 0 where it was released, 1 where it was adopted
    hop: int = 1
    lang: int = 0
    body: str = ""
    born: int = 1
    gone: int = NEVER
    name: str | None = None
    blpu: int | None = None

    def sql(self) -> str:
        name, blpu = self.name or f"{self.uprn:012}", self.uprn if self.blpu is None else self.blpu
        cells = (1001, 92, name, blpu, self.other, self.lang, self.live, self.born, self.gone, self.body, self.hop)
        return f"INSERT INTO version2 VALUES ({', '.join(map(repr, cells))})"


# 500 is a number that no file of the history names, and 42 one with an item since volume 2.
RELEASED, ADOPTED = Row(500), Row(42, live=1, born=2, hop=2)

# Rows that say nothing that can be: no file is judged by one, whether or not its number was passed on.
UNREADABLE = {
    "a hop of -1": Row(500, hop=-1),
    "a hop of 0": Row(500, hop=0),
    "a hop of 10000": Row(500, hop=10_000),
    "a hop of 10000 in the past": Row(500, hop=10_000, gone=2),
    "neither released nor adopted": Row(500, live=2),
    "a code of 0": Row(500, other=0),
    "a code of 10000": Row(500, other=10_000),
    "a body": Row(500, body="x"),
    "a language": Row(500, lang=1),
}

# Rows that are found by another number, or by none, or that say what can't have been.
ODD = {
    "another number beside its name": Row(500, blpu=501),
    "a name of too few digits": Row(500, name="500"),
    "a name without digits": Row(500, name="x"),
    "born after all volumes": Row(500, born=900),
    "gone before all volumes": Row(500, gone=1),
}

DAMAGED = {**UNREADABLE, **ODD}

# Items with a hop. No answer reads it but what brings a store to hand, which then isn't.
HOPS = {
    "a hop of 1": "UPDATE version2 SET hop = 1 WHERE id = '000000000042'",
    "a hop of -1": "UPDATE version2 SET hop = -1 WHERE kind = 24 AND gone < 1000000",
    "a hop of 10000": "UPDATE version2 SET hop = 10000 WHERE cust = 1003",
}

# What is put beside the items so that nothing is told otherwise: no request is of 500, and what is of 42 is as for any number that is held.
BESIDE = {
    "a number that was released": RELEASED.sql(),
    "a number that was adopted": ADOPTED.sql(),
    "one that was adopted and then released": f"{Row(500, live=1, gone=2).sql()}; {Row(500, born=2, hop=2).sql()}",
    "one that was released and then adopted": f"{Row(500, gone=2).sql()}; {Row(500, live=1, born=2, hop=2).sql()}",
    "two newest rows of one number": f"{Row(500).sql()}; {Row(500, born=2, hop=2).sql()}",
    **{f"one with {name}": row.sql() for name, row in DAMAGED.items()},
}

INSERTED = post(1001, 5, file_of(1001, 5, "21,I,1,500,1,450000,250000,,,2001-04-01,"))
UPDATED = post(1001, 5, file_of(1001, 5, "21,U,1,42,1,450001,250000,,AR1 2DN,2001-04-01,"))

APPLIED, REFUSED = b'{"outcome":"applied"}\n', b'{"refusal":52}\n'
REJECTED = b'{"outcome":"rejected","record":2,"rule":20}'
OUTCOMES = (APPLIED, REJECTED, REFUSED)

Way = Callable[[Path, bytes], Answered]


def passages(store: Path) -> list[tuple]:
    """The rows of custody of a store."""
    with opened(store) as conn:
        return conn.execute("SELECT * FROM version2 WHERE kind = 92 ORDER BY rowid").fetchall()


def items(store: Path) -> list[tuple]:
    return [row for row in rows_of(store)["version2"] if row[1] != 92]


def passes_over(on: Ground, sql: str, way: Way) -> str | None:
    """What is wrong with the answers of a store to which this was done, or with what becomes of its rows by asking."""
    store, requests = on.damaged(sql), QUESTIONS + LATER + QUESTIONS
    before, passed = rows_of(store), passages(store)
    fault = fault_in(way(store, QUESTIONS), b"".join(on.right(QUESTIONS)))
    if fault or rows_of(store) != before:
        return fault or "a question has written"
    fault = fault_in(way(store, requests), b"".join(on.right(requests)))
    return fault or (None if passages(store) == passed else "the rows of custody aren't as they were")


def is_released(on: Ground, way: Way) -> str | None:
    """What is wrong where the number of a row is inserted, which was released: its record breaks a rule, and nothing of it is kept."""
    store = on.damaged(RELEASED.sql())
    before, passed = items(store), passages(store)
    asked = INSERTED + get("/uprn/500") + get("/extract/1001/4") + get("/extract/1001/5")
    replies = replies_in(way(store, asked).replies)
    if len(replies) != 4 or REJECTED not in replies[0] or b'{"refusal":17}' not in replies[1]:
        return f"it is told {replies}"
    if replies[2].replace(b"10,E,1001,4", b"10,E,1001,5") != replies[3]:
        return f"its volume is told as {replies[3]}"
    return None if (items(store), passages(store)) == (before, passed) else "its rows aren't as they were"


def is_adopted(on: Ground, way: Way) -> str | None:
    """What is wrong where an item is updated whose number was adopted."""
    store, requests = on.damaged(ADOPTED.sql()), UPDATED + QUESTIONS
    passed = passages(store)
    fault = fault_in(way(store, requests), b"".join(on.right(requests)))
    return fault or (None if passages(store) == passed else "the rows of custody aren't as they were")


def is_mended(on: Ground, way: Way, store: Path) -> str | None:
    """What is wrong where the rows of custody are taken away, and a file that couldn't be judged is sent again."""
    alter(store, "DELETE FROM version2 WHERE kind = 92")
    return fault_in(way(store, INSERTED + QUESTIONS), b"".join(on.right(INSERTED * 2 + QUESTIONS)[1:]))


def is_damaged(on: Ground, row: Row, way: Way) -> str | None:
    """What is wrong where the number of a damaged row is inserted. The file isn't judged where the row says nothing that can be; an odd one may
    count for a row of custody or not. All is well once the row is gone. The rows of items are as before where the file wasn't applied."""
    store = on.damaged(row.sql())
    before, passed = items(store), passages(store)
    replies = replies_in(way(store, INSERTED).replies)
    told = next((it for it in OUTCOMES if it in b"".join(replies)), None)
    if len(replies) != 1 or told is None or row in UNREADABLE.values() and told != REFUSED:
        return f"it is told {replies}"
    if passages(store) != passed or (items(store) != before) != (told == APPLIED):
        return f"its rows aren't as they have to be where it is told {told}"
    return is_mended(on, way, store) if told == REFUSED else None


def run_all(root: Path, room: Path) -> Iterator[tuple[str, str | None]]:
    """Each row, from the tables and from memory, and what is wrong."""
    with hubs_of(room) as (hubs, folder):
        on = ground(hubs, folder)
        for how, way in (("tables", hubs.over), ("memory", hubs.at_hand)):
            yield from ((f"{name} ({how})", passes_over(on, sql, way)) for name, sql in {**HOPS, **BESIDE}.items())
            yield f"a released number is inserted ({how})", is_released(on, way)
            yield f"an adopted number is updated ({how})", is_adopted(on, way)
            yield from ((f"a number is inserted that has {name} ({how})", is_damaged(on, row, way)) for name, row in DAMAGED.items())
