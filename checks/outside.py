"""What the built programs are asked from outside, each with a name and what is wrong with it."""

import sys
from collections.abc import Callable, Iterable, Iterator, Sequence
from concurrent.futures import ThreadPoolExecutor
from pathlib import Path

from checks import (
    asked,
    at_hand,
    breaking,
    calls,
    conversations,
    damaged,
    foreign,
    growing,
    handed_on,
    heads,
    in_turn,
    killing,
    large,
    left,
    making,
    making_stopped,
    measure,
    migrating,
    migrating_between,
    migrating_others,
    migrating_refused,
    migrating_stopped,
    opening,
    registers,
    reopening,
    rings,
    runs,
    schema1,
    schema2,
    serving,
    sessions,
    sizes,
    steps,
    stored,
    tour,
    troubled,
    wanting,
    words,
)
from checks.stores import built

Case = tuple[str, str | None]

LANES = 3  # parts at a time


def named(title: str, ran: Iterator[Case] | list[Case]) -> Iterator[Case]:
    return ((f"{title} {name}", fault) for name, fault in ran)


def held(ran: Iterable[tuple[str, str, str | None]]) -> Iterator[Case]:
    return ((f"{name} ({how})", fault) for name, how, fault in ran)


def in_lanes(parts: Sequence[Callable[[], Iterable[Case]]]) -> Iterator[Case]:
    """The cases of all parts, in their order, some parts beside each other: most wait for a program, or for a peer that sends nothing."""
    with ThreadPoolExecutor(LANES) as pool:
        for ran in [pool.submit(lambda it=it: list(it())) for it in parts]:
            yield from ran.result()


def of_program(program: Path, root: Path) -> Iterator[Case]:
    """Of `gazhub`: conversations, heads of requests, how it ends, streams that break, commands over a store's file, what becomes a store, also where its making
    is stopped, connections."""
    cases = (*serving.CASES, *at_hand.CASES, killing.killed_while_files_come, reopening.what_failed_once_is_opened_again)
    yield from in_lanes(
        (
            # (it waits for half a minute, and for nothing else)
            lambda: named("serving:", serving.run_all(program, serving.WAITING)),
            lambda: named("serving:", serving.run_all(program, cases)),
            lambda: held(conversations.run_all(program, root)),
            lambda: large.run_all(program),
            lambda: sizes.run_all(program),
            lambda: named("a head:", heads.run_all(program)),
            lambda: named("gazhub on", runs.run_all(program)),
            lambda: named("breaking:", breaking.run_all(program, root)),
            lambda: named("gazhub", words.run_all(program)),
            lambda: named("a register:", registers.run_all(program)),
            lambda: named("commands:", sessions.run_all(program)),
            lambda: named("making:", making.run_all(program)),
            lambda: named("making:", making_stopped.run_all(program)),
            lambda: named("page", tour.run_all(program, root)),
            lambda: named("opening", opening.run_all(program)),
        )
    )


def of_stores(root: Path, room: Path) -> Iterator[Case]:
    """Of stores in files: the conversations and the list of calls over them, other people's SQLite, rows of custody, damage, stores of the schema before and their migration, rows as
    they are written, registers that grow, what they cost, how often a keeper is asked, rings; memory that is wanting, and histories over stores that fail and over a keeper in
    memory that does."""
    yield from in_lanes(
        (
            # (the longest comes first)
            lambda: [("bench/agree", agreed(room))],
            lambda: held(stored.run_all(root, room)),
            lambda: named("calls:", calls.run_all(room)),
            lambda: held(in_turn.run_all(root, room)),
            lambda: named("a store", foreign.run_all(root, room)),
            lambda: named("handed on:", handed_on.run_all(root, room)),
            lambda: named("damaged:", damaged.run_all(root, room)),
            lambda: named("schema 1,", schema1.run_all(root, room)),
            lambda: named("schema 2,", schema2.run_all(root, room)),
            lambda: named("migrated:", migrating.run_all(root, room)),
            lambda: held(migrating_between.run_all(root, room)),
            lambda: named("not migrated:", migrating_refused.run_all(room)),
            lambda: named("migrated:", migrating_others.run_all(room)),
            lambda: named("migrating:", migrating_stopped.run_all(room)),
            lambda: named("a register that grows:", growing.run_all(room)),
            lambda: named("steps:", steps.run_all(root, room)),
            lambda: named("left:", left.run_all(room)),
            lambda: named("asked:", asked.run_all(room)),
            lambda: held(rings.run_all(room)),
            lambda: named("breaking:", breaking.stay_all(root, room)),
            lambda: named("wanting memory:", wanting.run_all(built(room, "gazhub"), built(room, "gaz_bench"))),
            lambda: named("trouble:", troubled.run_all(built(room, "gaz_bench"))),
        )
    )


def agreed(room: Path) -> str | None:
    """What is wrong with random streams to hubs beside each other."""
    ran = measure.run([sys.executable, "bench/agree"], room)
    return ran.text if ran.status else None
