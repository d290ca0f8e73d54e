"""Processes that answer connections and are killed while files come: what was answered is there, and the standing is right."""

import contextlib
import http.client
import random
import subprocess
import threading

from checks.conversations import DEADLINE
from checks.serving import APPLIED, Room, Served, replied


def file_of(volume: int) -> bytes:
    """A street that comes, and then changes with each volume."""
    return f"10,1,1001,{volume},2024-01-02\n11,{'I' if volume == 1 else 'U'},1,101,1,2001-04-01,\n99,1\n".encode()


def answered_from(served: Served, volume: int) -> tuple[int, str | None]:
    """Files are sent in turn until the connection breaks: the first that wasn't answered, and what was wrong with an answer."""
    client = served.client()
    with contextlib.suppress(OSError, http.client.HTTPException):
        while True:
            told = replied(client, "POST", f"/custodians/1001/volumes/{volume}", file_of(volume))
            if told not in ((201, APPLIED), (200, APPLIED)):
                return volume, f"volume {volume}: it replies {told}"
            volume += 1
    return volume, None


def killed_while_files_come(room: Room, rounds: int = 20) -> str | None:
    """A process is killed at some moment: what it answered is there, and nothing besides but the file in hand."""
    store, dice, volume = room.store(), random.Random(1), 1
    for _ in range(rounds):
        with room.serves(1, store) as served:
            killer = threading.Timer(dice.uniform(0, 0.05), served.child.kill)
            killer.start()
            volume, fault = answered_from(served, volume)
            killer.join()
        if fault:
            return fault
        told = subprocess.run(room.words("status", store, "1001"), capture_output=True, timeout=DEADLINE).stdout
        standings = [b"custodian 1001 judged %d held 0 wants 1001/%d\n" % (judged, judged + 1) for judged in (volume - 1, volume)]
        if told not in standings:
            return f"volume {volume} wasn't answered, and it says {told!r}"
    return None if volume > rounds else f"only {volume} files came in {rounds} rounds"
