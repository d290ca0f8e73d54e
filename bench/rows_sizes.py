"""What requests and registers of great size take of memory at their peak, whose bound docs/exchange.md states."""
import os
from pathlib import Path

from measure import MIB, Talk, blocked_peak, in_file, program, register_of  # (finds checks)

from checks import sizes
from checks.breaking import SOURCE
from checks.preloading import library

BOUND = 16  # MiB
PIECES = sizes.MOST - 1  # so that the conversation stays open


def row(title, peak):
    assert peak <= BOUND * MIB, f"{title}: {peak / MIB:.1f} MiB"
    return title, f"peak memory {peak / MIB:.1f} MiB", f"at most {BOUND} MiB"


def conversation_rows(folder):
    for one in sizes.cases():
        peak, replies = blocked_peak([program("gazhub")], in_file(folder, "stream", one.requests))
        assert replies == one.replies, one.name
        yield row(one.name, peak)


def pieces_row(folder):
    run = sizes.most_in_pieces(PIECES)
    words = ["env", f"LD_PRELOAD={library(SOURCE, Path(folder))}", f"READS={run.reads.text()}", program("gazhub")]
    with Talk(words) as talk:
        talk.ask(run.given, run.most)
        return row(f"{PIECES:,} requests in pieces of one byte", talk.memory("VmHWM"))


def register_rows(folder):
    """The store of a register of 400 custodians with eight blocks each is made, and asked."""
    places = ["--store", os.path.join(folder, "400.db"), "--register", in_file(folder, "400.toml", register_of(400).encode())]
    for words, said in ((["init"], b"ready\n"), (["status", "400"], b"custodian 400 judged 0 held 0 wants 400/1\n")):
        peak, told = blocked_peak([program("gazhub"), words[0], *places, *words[1:]], os.devnull)
        assert told == said, told
        yield row(f"{words[0]} over a register of 400 custodians", peak)


def rows(folder):
    yield from conversation_rows(folder)
    yield pieces_row(folder)
    yield from register_rows(folder)
