"""The worked conversations over migrated stores: each behind a migration of a store in which nothing was received, and each broken off in the midst, by a store of
schema 1 that holds what its first half leaves, which is migrated and sent the rest."""

from collections.abc import Callable, Iterator
from pathlib import Path

from checks.changing import copied
from checks.conversations import Conversation, find, replies_in, requests_in
from checks.migrating import MIGRATED, Place
from checks.stored import fault_in
from checks.stores import TEXT, Answered, built, hubs_of
from checks.tables import rows_of, write_store
from checks.written import FIRST, moved_back

NOTHING = {"meta": [(1, 1, TEXT)]}
PROFILE_2 = b"\r\n\r\n10,2,"  # where a file of it begins


def half_of(conversation: Conversation) -> tuple[list[bytes], list[bytes], bytes]:
    """The requests of the first half, those behind them, and the replies to the latter. None behind the last reply are sent.

    A store of schema 1 has no file of profile 2, so the half ends before the first such.
    """
    requests, replies = requests_in(conversation.requests), replies_in(conversation.replies)
    first = next((at for at, it in enumerate(requests) if PROFILE_2 in it), len(requests))
    half = min(len(replies) // 2, first)
    return requests[:half], requests[half : len(replies)], b"".join(replies[half:])


def left_by(on: Place, requests: list[bytes]) -> dict[str, list[tuple]]:
    """The rows by schema 1 of a store to which these requests were sent."""
    if not requests:
        return NOTHING
    store = on.store()
    made = on.hubs.over(store, b"".join(requests))
    assert made.fault() is None, made.fault()
    with copied(store) as copy:
        return moved_back(rows_of(copy))


def fault_of(on: Place, rows: dict[str, list[tuple]], way: Callable[[Path], Answered], replies: bytes) -> str | None:
    """What is wrong where a store of schema 1 with these rows is migrated, and then asked in this way."""
    store = on.store()
    write_store(store, FIRST.statements(), rows)
    found = on.run(store, "migrate")
    return fault_in(way(store), replies) if found == MIGRATED else f"the migration says {found}"


def over_nothing(on: Place, conversation: Conversation) -> str | None:
    """What is wrong with a conversation over a migrated store in which nothing was received."""
    return fault_of(on, NOTHING, lambda store: on.hubs.over(store, conversation.requests), conversation.replies)


def over_half(on: Place, conversation: Conversation) -> str | None:
    """What is wrong with the second half of a conversation over a store that was migrated behind the first; it is opened for each request."""
    before, behind, replies = half_of(conversation)
    return fault_of(on, left_by(on, before), lambda store: on.hubs.over_each(store, behind), replies)


WAYS = (("over a migrated store", over_nothing), ("over a store migrated in the midst of it", over_half))


def run_all(root: Path, room: Path) -> Iterator[tuple[str, str, str | None]]:
    """Each conversation of the repository, how it was held, and what is wrong with the answers."""
    with hubs_of(room) as (hubs, folder):
        on = Place(built(room, "gazhub"), hubs, folder)
        yield from ((one.name, how, run(on, one)) for one in find(root) for how, run in WAYS)
