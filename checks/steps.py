"""How many steps the statements of a request take, over a store of few rows and over one of many: no statement walks rows of others.

A row that a loop visits is a step, and so are 256 bytes that an expression looks at (the kit's `sqlite_exec`). How deep a tree is counts for
nothing. The limit is one of each statement, so that it doesn't matter how many a request takes.
"""

import shutil
import subprocess
import tempfile
from collections.abc import Iterator
from dataclasses import dataclass
from pathlib import Path

from checks.conversations import DEADLINE
from checks.ground import alter
from checks.stocks import FEW, MANY, REGISTER, Asked, Size, cases, history
from checks.stores import Answered, Hubs, get, hubs_of

MOST = 64  # steps within which each request has to pass over few rows

# The row behind a range may be looked at, and so may that before it, and where a table ends there is none. Nothing else may depend on other rows.
SPARE = 2


# What is told where no statement may take a step of a store to which this was done: that a table is missing is seen without one.
WITHOUT_STEPS = {
    "SELECT 1": "Fault",
    "UPDATE meta SET register = 'x'": "Fault",
    "DROP TABLE received": "BadSchema",
    "DROP TABLE version2": "BadSchema",
    "DROP TABLE version": "BadSchema",
}


class Stepping(Hubs):
    """Hubs over stores, each of whose statements has so many steps at most."""

    def within(self, store: Path, requests: bytes, steps: int) -> Answered:
        words = [self.bench, "stored", store, self.register, str(steps)]
        try:
            ran = subprocess.run(words, input=requests, capture_output=True, timeout=DEADLINE)
        except subprocess.TimeoutExpired:
            return Answered(-1, b"", f"didn't end within {DEADLINE:g} s")
        return Answered(ran.returncode, ran.stdout, ran.stderr.decode("utf-8", "replace"))


@dataclass(frozen=True)
class Store:
    """A store of a size, which each try copies."""

    hubs: Stepping
    ready: Path

    def within(self, request: bytes, steps: int, sql: str = "") -> Answered:
        """The reply to a request within so many steps a statement, once this was done to the store."""
        with tempfile.TemporaryDirectory(dir=self.ready.parent) as made:
            copy = Path(made) / "store"
            shutil.copyfile(self.ready, copy)
            if sql:
                alter(copy, sql)
            return self.hubs.within(copy, request, steps)

    def passes(self, asked: Asked, steps: int) -> bool:
        """Whether the reply is the right one; else it is a refusal, or the store isn't even opened."""
        request, told = asked
        answered = self.within(request, steps)
        return answered.fault() is None and told in answered.replies

    def least(self, asked: Asked, most: int) -> int | None:
        """The least number of steps with which the reply is the right one; None where that is above `most`."""
        if not self.passes(asked, most):
            return None
        low, high = -1, most  # `high` suffices and `low` doesn't
        while low + 1 < high:
            middle = (low + high) // 2
            low, high = (low, middle) if self.passes(asked, middle) else (middle, high)
        return high


def passages(size: Size) -> str:
    """Rows of custody beside the items: each number was adopted, one of those that are asked for again in each volume."""
    return (
        f"WITH RECURSIVE turn(v) AS (VALUES (1) UNION ALL SELECT v + 1 FROM turn WHERE v < {size.last()})"
        " INSERT INTO version2 SELECT cust, 92, id, CAST(id AS INTEGER), 1002, 0, 1, v,"
        f" CASE v WHEN {size.last()} THEN 1000000 ELSE v + 1 END, '', v FROM version2, turn"
        f" WHERE kind = 21 AND gone = 1000000 AND (v = {size.last()} OR id IN ('000000050000', '000000050001', '000000050002'))"
    )


def store_of(hubs: Stepping, path: Path, size: Size) -> Store:
    made = hubs.over(path, history(size))
    assert made.fault() is None, made.fault()
    return Store(hubs, path)


def walks(few: Store, many: Store, asked: Asked, asked_of_many: Asked) -> str | None:
    """What is wrong with the steps of a request over both stores."""
    least = few.least(asked, MOST)
    if least is None:
        return f"within {MOST} steps among few rows it is told {few.within(asked[0], MOST)}, wanted {asked[1]}"
    if least == 0:
        return "takes no step: nothing is limited"
    if many.passes(asked_of_many, least + SPARE):
        return None
    return f"takes {least} steps among few rows, and among many {many.least(asked_of_many, 1_000_000) or 'over a million'}"


def reads_all(many: Store) -> str | None:
    """What is wrong where an extract of many rows goes through within few steps: then the limit limits nothing."""
    found = many.within(get("/extract/1001/2"), MOST)
    return None if found.replies.endswith(b'{"refusal":51}\n') else f"an extract is told {found.replies[:200]}"


def refused(store: Store, sql: str, word: str) -> str | None:
    """What is wrong with the refusal of a store to which this was done, where no statement may take a step."""
    found, wanted = store.within(b"", 0, sql), Answered(3, b"", f"gaz_bench: {word}\n")
    return None if found == wanted else f"{found}, wanted {wanted}"


def run_all(root: Path, room: Path) -> Iterator[tuple[str, str | None]]:
    """Each request, and what is wrong with its steps."""
    with hubs_of(room) as (hubs, folder):
        register = folder / "wide.toml"
        register.write_text(REGISTER)
        stepping = Stepping(hubs.bench, register)
        few, many = store_of(stepping, folder / "few", FEW), store_of(stepping, folder / "many", MANY)
        alter(few.ready, passages(FEW))
        alter(many.ready, passages(MANY))
        of_many = cases(MANY)
        yield "an extract of many rows", reads_all(many)
        yield from ((f"none, and {sql}", refused(few, sql, word)) for sql, word in WITHOUT_STEPS.items())
        for name, asked in cases(FEW).items():
            yield name, walks(few, many, asked, of_many[name])
