"""`gazhub serve` over a store that fails once: what was shut is opened again before the next connection is answered."""

import http.client
import subprocess
from pathlib import Path

from checks import failing, preloading
from checks.serving import APPLIED, STREET, Room, Served, replied

VOLUME = "/custodians/1001/volumes/1"
NOT_RECEIVED, _ = FAULTS = ((503, b'{"refusal":51}\n'), (503, b'{"refusal":52}\n'))
NOTHING = (200, b'{"custodian":1001,"held":0,"judged":0,"wants":{"custodian":1001,"volume":1}}\n')
STANDING = (200, b'{"custodian":1001,"held":0,"judged":1,"wants":{"custodian":1001,"volume":2}}\n')
# More calls of the files than opening, a file and a standing make.
MOST = 2_000


def told_in_turn(served: Served) -> list[list[tuple[int, bytes]]]:
    """A file and a standing on each of two connections, and what is told on each."""
    told = []
    for _ in range(2):
        client = served.client()
        told.append([replied(client, "POST", VOLUME, STREET), replied(client, "GET", "/custodians/1001")])
        client.close()
    return told


def fault_of(told: list[list[tuple[int, bytes]]]) -> str | None:
    """What is wrong with what was told where at most one call failed: a fault of the store on the first connection, and none on the second."""
    first, second = told
    standings = (NOTHING, *FAULTS) if first[0] == NOT_RECEIVED else (STANDING, *FAULTS)
    if first[0] not in ((201, APPLIED), *FAULTS) or first[1] not in standings:
        return f"the first connection is told {first}"
    # (a file that wasn't told may have been received)
    if second[0] not in ((201, APPLIED), (200, APPLIED)) or second[1] != STANDING:
        return f"the next connection is told {second}"
    return None


def failing_once(room: Room, library: Path, passing: int) -> tuple[str | None, bool]:
    """What is wrong where one call fails behind so many, and whether one did."""
    store, counted = room.store(), room.folder / "counted"
    env = {"LD_PRELOAD": str(library), "FAILING_STORE": str(store), "FAILING_CALLS": f"both {passing} 1", "FAILING_TOLD": str(counted)}
    counted.unlink(missing_ok=True)
    try:
        with room.serves(2, store, **env) as served:
            fault = fault_of(told_in_turn(served)) or served.ended()
    except AssertionError as why:
        # It may fail while the store is opened at first.
        return (None, True) if "gazhub: Fault" in str(why) else (str(why), True)
    return fault, fault is not None or counted.read_text().split()[1] != "0"


def what_failed_once_is_opened_again(room: Room) -> str | None:
    """Each call of the store's files fails in turn, and all behind it pass."""
    library = preloading.library(failing.SOURCE, room.folder)
    for passing in range(MOST):
        try:
            fault, has_failed = failing_once(room, library, passing)
        except (OSError, http.client.HTTPException, subprocess.SubprocessError) as why:
            return f"where call {passing + 1} fails: {type(why).__name__}: {why}"
        if fault:
            return f"where call {passing + 1} fails: {fault}"
        if not has_failed:
            return None if passing > 20 else f"only {passing} calls may fail"
    return f"more than {MOST} calls may fail"
