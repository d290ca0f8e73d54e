"""`gazhub extend`, by which a store's register grows: stopped or failing at each call of the store's files, and between two connections that `gazhub serve` answers."""

import contextlib
import subprocess
import tempfile
from collections.abc import Iterator
from pathlib import Path

from checks import serving
from checks.changing import Change, Said
from checks.conversations import DEADLINE
from checks.history import HISTORY, file_of
from checks.serving import replied
from checks.sessions import NEW_TOWN, fails
from checks.stopped import room_of
from checks.stopped import run_all as stopped
from checks.stores import SAMPLE, Hubs, built, hubs_of, post

REGISTERS = {"r.toml": SAMPLE, "grown.toml": SAMPLE.replace("Upper", "Higher") + NEW_TOWN.decode()}

OLD, GROWN = (("--store", "s.db", "--register", f"../{name}") for name in REGISTERS)
EXTEND = ("extend", *OLD, "--grown", "../grown.toml")
EXTENDED: Said = (0, b"extended\n", b"")
OTHER: Said = (3, b"", fails("OtherRegister"))


def standing(code: int, judged: int, held: int, wants: str) -> Said:
    return 0, f"custodian {code} judged {judged} held {held} wants {wants}\n".encode(), b""


# What is said before and after: of a custodian whose files are there, and of the new one, for whom another's file waits.
ASKED = (
    (("status", *OLD, "1001"), standing(1001, 4, 1, "1001/5"), OTHER),
    (("status", *GROWN, "1004"), OTHER, standing(1004, 0, 0, "1004/1")),
)

WAITING = file_of(1002, 3, "90,1004,1")
FIRST = file_of(1004, 1, "11,I,1,400,1,2001-04-01,")


def change_of(hubs: Hubs, folder: Path) -> Change:
    """The growth of a store with a history of files of each outcome."""
    made = hubs.over(folder / "history", HISTORY + post(1002, 3, WAITING))
    assert made.fault() is None, made.fault()
    return Change("extend", folder / "history", EXTEND, EXTENDED, OTHER, ASKED)


Asked = tuple[tuple[str, str, bytes | None], int, bytes]  # a request, and the status and the body of its reply

TOWN, LOWER = "/custodians/1004/volumes/1", "/custodians/1002/volumes/1"
FIRST_OF_LOWER = file_of(1002, 1, "90,1004,1", "11,I,1,201,1,2001-04-01,")
# Property 500 is released to the custodian who comes by the growth, and adopted then.
COUNTY, LATER_OF_TOWN = "/custodians/1001/volumes/1", "/custodians/1004/volumes/2"
RELEASED = b"10,2,1001,1,2025-01-02\n91,I,1,500,1004,1\n99,1\n"
ADOPTED = b"10,2,1004,2,2025-01-03\n90,1001,1\n92,I,1,500,1001,1,1,450000,250000,,,2020-01-01,\n99,1\n"
HELD = b'{"outcome":"held","wants":{"custodian":1004,"volume":1}}\n'
BEFORE_GROWTH: tuple[Asked, ...] = (
    (("POST", LOWER, FIRST_OF_LOWER), 201, HELD),
    (("POST", TOWN, FIRST), 404, b'{"refusal":11}\n'),
    (("GET", "/custodians/1004", None), 404, b'{"refusal":11}\n'),
    (("POST", COUNTY, RELEASED), 201, serving.APPLIED),
    (("GET", "/uprn/500", None), 404, b'{"refusal":17}\n'),
)
AFTER_GROWTH: tuple[Asked, ...] = (
    (("POST", LOWER, FIRST_OF_LOWER), 200, HELD),
    (("GET", "/custodians/1004", None), 200, b'{"custodian":1004,"held":0,"judged":0,"wants":{"custodian":1004,"volume":1}}\n'),
    (("POST", TOWN, FIRST), 201, serving.APPLIED),
    (("POST", LOWER, FIRST_OF_LOWER), 200, serving.APPLIED),
    (("GET", "/extract/1004/1", None), 200, b"10,E,1004,1\n11,I,1,400,1,2001-04-01,\n99,1\n"),
    (("GET", "/extract/1002/1", None), 200, b"10,E,1002,1\n11,I,1,201,1,2001-04-01,\n99,1\n"),
    (("GET", "/uprn/500", None), 404, b'{"refusal":17}\n'),
    (("POST", LATER_OF_TOWN, ADOPTED), 201, serving.APPLIED),
    (("GET", "/uprn/500", None), 200, b'{"custodian":1004,"line":null,"status":1,"uprn":500}\n'),
)


def converses(room: serving.Room, store: Path, asked: tuple[Asked, ...]) -> str | None:
    """What is wrong with the replies to requests on a connection of its own."""
    with room.serves(1, store) as served:
        with contextlib.closing(served.client()) as client:
            for request, *wanted in asked:
                told = replied(client, *request)
                if told != tuple(wanted):
                    return f"{request[0]} {request[1]} is told {told}, wanted {tuple(wanted)}"
        return served.ended()


def grows_between_connections(gazhub: Path, folder: Path) -> str | None:
    """What is wrong where a file waits for a custodian who comes by a growth, and that custodian's file then comes."""
    rooms = [serving.Room(gazhub, folder / name) for name in REGISTERS]
    for room, text in zip(rooms, REGISTERS.values()):
        room.folder.mkdir()
        (room.folder / "r.toml").write_text(text)
    before, after = rooms
    store = before.store()
    fault = converses(before, store, BEFORE_GROWTH)
    if fault:
        return f"before: {fault}"
    words = before.words("extend", store, "--grown", str(after.folder / "r.toml"))
    ran = subprocess.run(words, stdin=subprocess.DEVNULL, capture_output=True, timeout=DEADLINE)
    if (ran.returncode, ran.stdout, ran.stderr) != EXTENDED:
        return f"extend ends with {ran.returncode}, {ran.stdout!r}, {ran.stderr!r}"
    fault = converses(after, store, AFTER_GROWTH)
    return f"after: {fault}" if fault else None


def run_all(room: Path) -> Iterator[tuple[str, str | None]]:
    """The growth between two connections, and then each moment at which it may stop or fail."""
    gazhub = built(room, "gazhub")
    with tempfile.TemporaryDirectory(prefix="check-growing-") as made:
        yield "between two connections", grows_between_connections(gazhub, Path(made))
    with hubs_of(room) as (hubs, folder), room_of(gazhub, REGISTERS) as at:
        yield from stopped(at, change_of(hubs, folder))
