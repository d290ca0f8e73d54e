"""Pages of commands, the tour and how a hub is operated: each command, what it prints and how it ends, in the order in which they stand there."""

import contextlib
import re
import shlex
import shutil
import sqlite3
import subprocess
import tempfile
from collections.abc import Iterator
from dataclasses import dataclass
from pathlib import Path

from checks.conversations import DEADLINE, difference

PAGES = ("docs/tour/commands.md", "docs/operating.md")
FILES = "docs/tour"  # in a copy of this folder the commands of each page run


@dataclass(frozen=True)
class Shown:
    """A command as the page shows it: behind it stands what it prints, and its exit status in brackets where that isn't 0."""

    command: str
    printed: str
    status: int


def shown_in(page: str) -> list[Shown]:
    """The commands of a page, which are indented and begin with a dollar sign."""
    found = []
    for block in re.findall(r"(?m)^ {4}\$ .*\n(?:^ {4}(?!\$ ).*\n)*", page):
        first, *lines = [line[4:] for line in block.splitlines()]
        status = re.fullmatch(r"\[(\d+)\]", lines[-1]) if lines else None
        printed = "".join(f"{line}\n" for line in (lines[:-1] if status else lines))
        found.append(Shown(first.removeprefix("$ "), printed, int(status[1]) if status else 0))
    return found


def by_sqlite(folder: Path, store: str, query: str) -> str:
    """What the program `sqlite3` prints of a query, by Python's own."""
    with contextlib.closing(sqlite3.connect(folder / store)) as conn:
        return "".join("|".join(map(str, row)) + "\n" for row in conn.execute(query))


def run(program: Path, folder: Path, command: str) -> tuple[str, int]:
    """What a command prints in a folder, and how it ends."""
    name, *words = shlex.split(command)
    if name == "sqlite3":
        return by_sqlite(folder, *words), 0
    ran = subprocess.run(
        [program if name == "gazhub" else name, *words],
        cwd=folder,
        stdin=subprocess.DEVNULL,
        stdout=subprocess.PIPE,
        stderr=subprocess.STDOUT,
        timeout=DEADLINE,
    )
    return ran.stdout.decode("utf-8", "replace"), ran.returncode


def fault_of(program: Path, folder: Path, shown: Shown) -> str | None:
    """What is wrong with a command."""
    try:
        printed, status = run(program, folder, shown.command)
    except subprocess.TimeoutExpired:
        return f"didn't end within {DEADLINE:g} s"
    faults = (
        f"exit status {status}, wanted {shown.status}" if status != shown.status else None,
        difference(shown.printed.encode(), printed.encode()),
    )
    return "; ".join(fault for fault in faults if fault) or None


def run_page(program: Path, root: Path, page: Path) -> Iterator[tuple[str, str | None]]:
    """Each command of a page, in a copy of the tour's folder, and what is wrong with it."""
    with tempfile.TemporaryDirectory(prefix="check-tour-") as made:
        folder = Path(made) / "tour"
        shutil.copytree(root / FILES, folder)
        for at, shown in enumerate(shown_in(page.read_text()), 1):
            yield f"{page.stem} {at}, {shown.command}", fault_of(program.resolve(), folder, shown)


def run_all(program: Path, root: Path) -> Iterator[tuple[str, str | None]]:
    """Each command of each page, and what is wrong with it."""
    for page in PAGES:
        yield from run_page(program, root, root / page)
