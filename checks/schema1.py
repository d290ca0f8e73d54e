"""Stores of schema 1: as other SQLites write them from rows, and as the last program of that schema left them. No command but `migrate` takes one, or changes it."""

import shutil
import subprocess
import tempfile
from collections.abc import Iterator
from pathlib import Path

from checks.conversations import DEADLINE
from checks.history import FILES, file_of
from checks.making import content
from checks.sessions import NEW_TOWN, fails
from checks.stores import SAMPLE, Answered, Hubs, built, hubs_of
from checks.written import FIRST, STORES

LEFT = ("history", *(it.name for it in STORES))  # in files

# What is asked of one, by a register of its own, or by another: that it is of another schema comes first.
COMMANDS = (
    ("init", "r.toml"),
    ("status", "r.toml", "1001"),
    ("status", "other.toml", "1001"),
    ("status", "r.toml", "nobody"),
    ("line", "r.toml", "42"),
    ("extract", "r.toml", "1001", "1"),
    ("submit", "r.toml", "1001", "1", "file.csv"),
    ("submit", "r.toml", "1001", "5", "missing.csv"),
    ("extend", "r.toml", "--grown", "grown.toml"),
    ("extend", "r.toml", "--grown", "other.toml"),
    ("serve", "r.toml", "--port", "0", "--connections", "0"),
)
REFUSED = 3, b"", fails("BadSchema")


def refuses(program: Path, store: Path, command: tuple[str, ...]) -> str | None:
    """What is wrong where a command takes a store of schema 1, or changes it."""
    with tempfile.TemporaryDirectory(prefix="check-schema1-") as made:
        folder = Path(made)
        (folder / "r.toml").write_text(SAMPLE)
        (folder / "other.toml").write_text(SAMPLE.replace("Upper", "Lower"))
        (folder / "grown.toml").write_text(SAMPLE + NEW_TOWN.decode())
        (folder / "file.csv").write_bytes(file_of(1001, 1, *FILES[1001, 1]))
        shutil.copyfile(store, folder / "s.db")
        word, register, *more = command
        try:
            words = [program, word, "--store", "s.db", "--register", register, *more]
            ran = subprocess.run(words, cwd=folder, stdin=subprocess.DEVNULL, capture_output=True, timeout=DEADLINE)
        except subprocess.TimeoutExpired:
            return f"didn't end within {DEADLINE:g} s"
        found = ran.returncode, ran.stdout, ran.stderr
        if found != REFUSED:
            return f"{found}, wanted {REFUSED}"
        return None if (folder / "s.db").read_bytes() == store.read_bytes() else "the refused file was written"


def refuses_all(program: Path, store: Path) -> str | None:
    """The first command that does so."""
    return next((f"{' '.join(command)}: {fault}" for command in COMMANDS if (fault := refuses(program, store, command))), None)


def refuses_requests(hubs: Hubs, store: Path) -> str | None:
    """What is wrong where a hub answers requests over one."""
    found, wanted = hubs.over(store, b""), Answered(3, b"", "gaz_bench: BadSchema\n")
    return None if found == wanted else f"{found}, wanted {wanted}"


def holds_on(hubs: Hubs, store: Path) -> str | None:
    """What is wrong where a hub changes what one holds."""
    before = content(store)
    return refuses_requests(hubs, store) or (None if content(store) == before else "it doesn't hold what it held")


def run_all(root: Path, room: Path) -> Iterator[tuple[str, str | None]]:
    """Each store, and what is wrong."""
    with hubs_of(room) as (hubs, folder):
        for written in STORES:
            theirs = folder / f"{written.name}.theirs"
            FIRST.write(theirs, written)
            yield f"{written.name}, as Python writes it", refuses_all(built(room, "gazhub"), theirs) or holds_on(hubs, theirs)
        for name in LEFT:
            left = folder / f"{name}.db"
            shutil.copyfile(FIRST.folder / left.name, left)
            yield f"{name}, as it was left", refuses_all(built(room, "gazhub"), left) or holds_on(hubs, left)
