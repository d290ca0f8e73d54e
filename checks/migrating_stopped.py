"""`gazhub migrate`, stopped or failing at each call of a store's files: afterwards it is of schema 1 with all that it held, or of schema 2 with the same."""

import shutil
from collections.abc import Iterator
from pathlib import Path

from checks.changing import Change, Said
from checks.ground import alter
from checks.migrating import CURRENT, MIGRATED, Place, held
from checks.sessions import fails
from checks.stopped import room_of, run_few
from checks.stopped import run_all as stopped
from checks.stores import SAMPLE, built, hubs_of
from checks.written import FIRST, STORES

PLACES = ("--store", "s.db", "--register", "../r.toml")
NO_STORE: Said = (3, b"", fails("BadSchema"))

# One in so many moments of each: of the history each of them, and of the others each at which the machine stops.
EVERY = {"history": 1, **{it.name: 11 for it in STORES}}


def change_of(on: Place, name: str) -> Change:
    """The migration of a store that was left. Afterwards it tells what one does that received the same files anew."""
    ready = on.store()
    shutil.copyfile(FIRST.folder / f"{name}.db", ready)
    files = held(ready)["received"]
    anew, first = on.received_anew(files), str(files[0][0])
    asked = ((command, (first, *more)) for command, more in (("status", ()), ("extract", ("1",))))
    told = tuple(((command, *PLACES, *more), NO_STORE, on.run(anew, command, *more)) for command, more in asked)
    return Change(name, ready, ("migrate", *PLACES), MIGRATED, CURRENT, told)


# So many rows that most calls write the log, and then the file.
ROWS = 10_000
MORE = f"""WITH RECURSIVE it (n) AS (SELECT 1 UNION ALL SELECT n + 1 FROM it WHERE n < {ROWS})
INSERT INTO version SELECT 1001, 23, printf('Y%d', n * 7919 % 1000003), 42, 0, 0, 0, 2, 1000000, printf('Y%d,42,TAX01,A/17,2001-04-01,', n * 7919 % 1000003) FROM it"""


def large(on: Place) -> Change:
    """The migration of the history with many further rows."""
    ready = on.store()
    shutil.copyfile(FIRST.folder / "history.db", ready)
    alter(ready, MORE)
    return Change(f"{ROWS} rows more", ready, ("migrate", *PLACES), MIGRATED, CURRENT, ())


def run_all(room: Path) -> Iterator[tuple[str, str | None]]:
    """Each store, and each moment at which its migration may stop or fail."""
    gazhub = built(room, "gazhub")
    with hubs_of(room) as (hubs, folder), room_of(gazhub, {"r.toml": SAMPLE}) as at:
        on = Place(gazhub, hubs, folder)
        for name, every in EVERY.items():
            yield from stopped(at, change_of(on, name), every)
        yield from run_few(at, large(on), 6, ("one call", "the machine stops", "the process is killed"))
