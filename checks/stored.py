"""The worked conversations over the keeper in memory, over a store in a file, and over one that is closed between any two requests."""

from pathlib import Path

from checks.conversations import Conversation, difference, find, replies_in, requests_in
from checks.stores import Answered, Hubs, hubs_of


def run_in_memory(hubs: Hubs, store: Path, conversation: Conversation) -> str | None:
    """What is wrong with the answers to all requests as one stream, over the keeper in memory."""
    return fault_in(hubs.without_store(conversation.requests), conversation.replies)


def run_whole(hubs: Hubs, store: Path, conversation: Conversation) -> str | None:
    """What is wrong with the answers to all requests as one stream, over a store in a file."""
    return fault_in(hubs.over(store, conversation.requests), conversation.replies)


def run_reopened(hubs: Hubs, store: Path, conversation: Conversation) -> str | None:
    """What is wrong where each request has a process of its own, which opens the store, and ends.

    Requests behind the last reply are left out: the connection had ended before them.
    """
    requests, replies = requests_in(conversation.requests), replies_in(conversation.replies)
    if len(replies) > len(requests):
        return f"{len(replies)} replies to {len(requests)} requests"
    for number, (request, reply) in enumerate(zip(requests, replies), 1):
        fault = fault_in(hubs.over(store, request), reply)
        if fault:
            return f"the reply to request {number}: {fault}"
    return None


def fault_in(answered: Answered, wanted: bytes) -> str | None:
    """What is wrong with how a run ended and what it replied."""
    return "; ".join(fault for fault in (difference(wanted, answered.replies), answered.fault()) if fault) or None


WAYS = (("over the keeper in memory", run_in_memory), ("over a store in a file", run_whole), ("over a store opened anew", run_reopened))


def run_all(root: Path, room: Path) -> list[tuple[str, str, str | None]]:
    """Each conversation of the repository, how it was held by the programs that are built in a room, and what is wrong with the answers."""
    with hubs_of(room) as (hubs, folder):
        return [
            (one.name, how, run(hubs, folder / f"{at}-{way}", one))
            for at, one in enumerate(find(root))
            for way, (how, run) in enumerate(WAYS)
        ]
