"""Files whose bases wait for each other in a ring, over 2, 3 and 400 custodians: they stay held, whatever comes, and cost no judging."""

import hashlib
from collections.abc import Iterator
from dataclasses import dataclass
from pathlib import Path

from checks.conversations import Conversation
from checks.large import APPLIED, Turn, conversation, file_of, reply, told
from checks.left import ran, slower
from checks.stored import fault_in
from checks.stores import Hubs, get, hubs_of, post, register_of

CUSTODIANS = 400  # as many as a register may have
SIZES = (2, 3, CUSTODIANS)

QUESTIONS = 40_000

NOT_REACHED = reply("404 Not Found", b'{"refusal":17}\n')


@dataclass(frozen=True)
class Ring:
    """The first so many custodians of a register, whose volumes 1 are judged: volume 2 of each rests on volume 2 of the next."""

    size: int

    def codes(self) -> range:
        return range(1, self.size + 1)

    def file(self, code: int) -> bytes:
        return file_of(code, 2, [], (f"90,{code % self.size + 1},2",))

    def wants(self, code: int) -> str:
        return f'"wants":{{"custodian":{code % self.size + 1},"volume":2}}'

    def first(self, code: int) -> Turn:
        return told(post(code, 1, file_of(code, 1, [])), APPLIED)

    def held(self, code: int, status: str = "201 Created") -> Turn:
        return told(post(code, 2, self.file(code)), f'"outcome":"held",{self.wants(code)}', status)

    def again(self, code: int) -> Turn:
        return self.held(code, "200 OK")

    def behind(self, code: int) -> Turn:
        """A file behind the one that is held waits for what that waits for."""
        return told(post(code, 3, file_of(code, 3, [])), f'"outcome":"held",{self.wants(code)}')

    def standing(self, code: int) -> Turn:
        return told(get(f"/custodians/{code}"), f'"custodian":{code},"held":2,"judged":1,{self.wants(code)}', "200 OK")

    def outcome(self, code: int) -> Turn:
        digest = hashlib.sha256(self.file(code)).hexdigest()
        return told(get(f"/custodians/{code}/volumes/2"), f'"digest":"{digest}","outcome":"held",{self.wants(code)}', "200 OK")

    def no_view(self, code: int) -> Turn:
        return Turn(get(f"/extract/{code}/2"), NOT_REACHED)

    def outsiders(self) -> list[Turn]:
        """The others' files are applied as ever."""
        others = range(self.size + 1, CUSTODIANS + 1)
        return [told(post(code, volume, file_of(code, volume, [])), APPLIED) for code in others for volume in (1, 2)]

    def conversation(self) -> Conversation:
        waiting = (self.first, self.held, self.behind, self.again, self.standing, self.outcome, self.no_view)
        turns = [turn(code) for turn in waiting for code in self.codes()]
        ending = [turn(code) for turn in (self.again, self.standing) for code in self.codes()]
        return conversation(f"a ring of {self.size} custodians stays held", turns + self.outsiders() + ending)

    def asked(self) -> tuple[bytes, bytes]:
        """Many questions while the ring waits, and these questions where none of it came."""
        firsts = b"".join(self.first(code).request for code in self.codes())
        ring = b"".join(self.held(code).request for code in self.codes())
        questions = b"".join(get(f"/custodians/{1 + k % self.size}") for k in range(QUESTIONS))
        return firsts + ring + questions, firsts + questions


def in_memory(hubs: Hubs, store: Path, ring: Ring) -> str | None:
    """What is wrong with the answers over the keeper in memory."""
    one = ring.conversation()
    return fault_in(hubs.without_store(one.requests), one.replies)


def in_file(hubs: Hubs, store: Path, ring: Ring) -> str | None:
    """What is wrong with the answers over a store in a file."""
    one = ring.conversation()
    return fault_in(hubs.over(store, one.requests), one.replies)


def cost(hubs: Hubs, store: Path, ring: Ring) -> str | None:
    """What is wrong with what questions cost while the ring waits."""
    busy, calm = (ran(hubs, store.parent, requests) for requests in ring.asked())
    status = busy.status or calm.status
    return f"exit status {status}" if status else slower(calm.seconds, busy.seconds)


WAYS = (("over the keeper in memory", in_memory), ("over a store in a file", in_file), ("and questions cost no more", cost))


def run_all(room: Path) -> Iterator[tuple[str, str, str | None]]:
    """Each ring, how it was asked of the programs that are built in a room, and what is wrong."""
    with hubs_of(room) as (hubs, folder):
        register = folder / "register400.toml"
        register.write_text(register_of(CUSTODIANS))
        large = Hubs(hubs.bench, register)
        for size in SIZES:
            for way, (how, run) in enumerate(WAYS):
                yield f"a ring of {size}", how, run(large, folder / f"{size}-{way}.db", Ring(size))
