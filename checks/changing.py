"""A command that changes a store at once, and what may come of it where something fails meanwhile: afterwards the store holds just what it held, or all that
the command makes of it. What other commands say is said of the one or of the other; and the command, given again, leaves the store changed."""

import contextlib
import os
import shutil
import subprocess
import tempfile
from collections import Counter
from collections.abc import Callable, Iterator
from dataclasses import dataclass, replace
from functools import partial
from pathlib import Path

from checks.allowed import STOPPED
from checks.conversations import DEADLINE
from checks.failing import Room, files_of
from checks.making import content
from checks.moments import Files, Watched, calls_in, digests, held, write
from checks.sessions import fails
from checks.tables import opened
from checks.troubled import Came

Said = tuple[int, bytes, bytes]  # the exit status, and what stands on standard output and on standard error

BEFORE, AFTER = "before", "after"
# What is told by a command in trouble that has changed nothing, as far as it knows: the fault of what failed, as of reading its words, or want of memory.
TOLD = {fails(word) for word in ("Fault", "Memory", "ReadFault", "Unreadable")}


@dataclass(frozen=True)
class Change:
    """A command over a store, what it says, and what it says of a store that it has changed already; other commands, with what each says before and after.
    The store is `s.db`, and the folder above it has the registers."""

    name: str
    ready: Path
    words: tuple[str, ...]
    done: Said
    again: Said
    asked: tuple[tuple[tuple[str, ...], Said, Said], ...]


@dataclass(frozen=True)
class Tried:
    """A change, and all that the store holds before and after it."""

    room: Room
    change: Change
    before: str
    after: str

    def first(self) -> Files:
        """What the store's files hold before the change."""
        return None, self.change.ready.read_bytes()

    def place(self, files: Files | None = None) -> Path:
        """A store of these files, or one as it was."""
        store = Path(tempfile.mkdtemp(dir=self.room.folder)) / "s.db"
        write(store, files or self.first())
        return store

    def watched(self, first: Files) -> tuple[Watched, Said]:
        """The command over a store of these files, and what it says. What stood there at first was synced."""
        return self.room.once((self.change, "watched", digests(first)), lambda: watch(self.room, self.place(first), self.change.words))

    def once(self, store: Path, *what: str | None) -> Callable:
        """Asks something of a store once for all whose files were left alike."""
        return partial(self.room.once, (self.change, self.before, self.after, digests(held(store)), what))

    def state(self, store: Path) -> str | None:
        """Whether a store is as it was or changed, as Python reads a copy of it; none where it is neither."""
        return self.once(store, "state")(lambda: self.read_state(store))

    def read_state(self, store: Path) -> str | None:
        with copied(store) as copy:
            held = content(copy)
            with opened(copy) as conn:
                is_whole = conn.execute("PRAGMA integrity_check").fetchall() == [("ok",)]
        return {self.before: BEFORE, self.after: AFTER}.get(held) if is_whole else None

    def asked_fault(self, store: Path, state: str) -> str | None:
        """What is wrong with what other commands say of a copy of a store in this state."""
        with copied(store) as copy:
            for words, before, after in self.change.asked:
                found, wanted = said(self.room, copy, words), before if state == BEFORE else after
                if found != wanted:
                    return f"{words[0]} says {found} of a store as it was {state} the change, wanted {wanted}"
        return None

    def again_fault(self, store: Path, state: str) -> str | None:
        """What is wrong with the command, given again without trouble to a store in this state."""
        found, wanted = said(self.room, store, self.change.words), self.change.done if state == BEFORE else self.change.again
        if found != wanted:
            return f"given again it says {found} of a store as it was {state} the change, wanted {wanted}"
        return None if self.state(store) == AFTER else "given again it leaves something else"


@contextlib.contextmanager
def copied(store: Path) -> Iterator[Path]:
    """A copy of a store and of its log, in a folder of its own beside that of the store."""
    with tempfile.TemporaryDirectory(dir=store.parent.parent) as made:
        for it in files_of(store):
            shutil.copyfile(it, Path(made) / it.name)
        yield Path(made) / store.name


def ran(room: Room, store: Path, words: tuple[str, ...], **env: str) -> tuple[Said, int]:
    """What a command says in the folder of a store, and how many calls or requests failed."""
    counted = store.with_name("counted")
    counted.unlink(missing_ok=True)
    env = {"FAILING_TOLD": str(counted), "WANTED": str(counted)} | env
    how = {"cwd": store.parent, "stdin": subprocess.DEVNULL, "stderr": subprocess.PIPE, "timeout": DEADLINE}
    with tempfile.TemporaryFile(dir=room.folder) as taken:
        it = subprocess.run([room.bench, *words], stdout=taken, env=os.environ | env, **how)
        taken.seek(0)
        printed = taken.read()
    counts = [int(n) for n in counted.read_text().split()] if counted.exists() else [0, 0]
    failed = int(int(env["WANTING"]) < counts[0]) if "WANTING" in env else counts[1]
    return (it.returncode, printed, it.stderr), failed


def said(room: Room, store: Path, words: tuple[str, ...], **env: str) -> Said:
    return ran(room, store, words, **env)[0]


def watch(room: Room, store: Path, words: tuple[str, ...]) -> tuple[Watched, Said]:
    first, seen = held(store), store.with_name("seen")
    found = said(room, store, words, **room.seeing(store, seen))
    calls = calls_in(seen.read_bytes()) if seen.exists() else []
    run = Watched(first, tuple(it or b"" for it in first), calls, found[1], held(store))
    shutil.rmtree(store.parent)
    return run, found


def told_fault(change: Change, found: Said, failed: int, state: str) -> str | None:
    """What is wrong with what a command in trouble says where it leaves the store in this state."""
    status, printed, error = found
    if printed and printed == change.done[1] and state == BEFORE:
        return "it says that it is done, and it isn't"
    if found == change.done:
        return None
    if not failed:
        return f"nothing failed, and it says {found}"
    is_stopped = (status, error) == (STOPPED, b"") and printed in (b"", change.done[1])
    is_refused = (status, printed) == (3, b"") and error in TOLD
    return None if is_stopped or is_refused else f"it says {found}"


def came_of(tried: Tried, store: Path, found: Said, failed: int) -> Came:
    """What came of a run in trouble that said this: what it leaves, and the command given again."""
    state = tried.state(store)
    if state is None:
        return Came(f"it says {found} and leaves neither what was there nor what it makes of it", Counter())
    fault = told_fault(tried.change, found, failed, state)
    fault = fault or tried.once(store, state)(lambda: tried.asked_fault(store, state) or tried.again_fault(store, state))
    return Came(fault, Counter([state] if failed else []))


def tried_of(room: Room, change: Change) -> tuple[Tried, str | None]:
    """A change that is tried without trouble, and what is wrong with it then."""
    tried = Tried(room, change, "", "")
    store = tried.place()
    before = content(store)
    found = said(room, store, change.words)
    tried = replace(tried, before=before, after=content(store))
    if found != change.done or tried.before == tried.after:
        return tried, f"without trouble it says {found}, wanted {change.done}"
    return tried, tried.asked_fault(tried.place(), BEFORE) or tried.again_fault(store, AFTER)
