"""The list of calls that each keeper answers alike, over a new store in a file, and with what is kept brought to hand before numbers pass on."""

from pathlib import Path

from checks.stores import hubs_of

WAYS = (("over a store", "calls"), ("at hand", "calls-at-hand"))  # each with the word that asks for it


def run_all(room: Path) -> list[tuple[str, str | None]]:
    """Each way of making the calls, by the program that is built in a room, and what is wrong with it."""
    with hubs_of(room) as (hubs, folder):
        return [(name, hubs.calls(word, folder / word).fault()) for name, word in WAYS]
