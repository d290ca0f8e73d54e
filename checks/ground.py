"""What tests of stores in files begin with: a store with a history, which each of them copies."""

import shutil
import tempfile
from dataclasses import dataclass
from pathlib import Path

from checks.conversations import replies_in
from checks.history import FILES, HISTORY
from checks.stores import Hubs
from checks.tables import opened


def alter(store: Path, sql: str) -> None:
    """Does this to a store, by Python's own SQLite."""
    with opened(store) as conn:
        conn.executescript(sql)


@dataclass(frozen=True)
class Ground:
    """A store with the history, which is copied for each case."""

    hubs: Hubs
    ready: Path

    def place(self) -> Path:
        """Where no store is yet."""
        return Path(tempfile.mkdtemp(dir=self.ready.parent)) / "store"

    def damaged(self, sql: str = "") -> Path:
        """A copy of the store to which this was done."""
        store = self.place()
        shutil.copyfile(self.ready, store)
        alter(store, sql)
        return store

    def right(self, requests: bytes) -> list[bytes]:
        """What a hub over the keeper in memory replies to these requests behind the history."""
        return replies_in(self.hubs.without_store(HISTORY + requests).replies)[len(FILES) :]


def ground(hubs: Hubs, folder: Path) -> Ground:
    made = hubs.over(folder / "ready", HISTORY)
    assert made.fault() is None, made.fault()
    return Ground(hubs, folder / "ready")
