"""A store that takes long to open: what a person at a terminal is told meanwhile, and that nobody else is."""

import os
import pty
import subprocess
import tempfile
from pathlib import Path

from checks.conversations import DEADLINE
from checks.stores import SAMPLE

SAID = b"opening ..\r\n"  # as a terminal shows it
LARGE = 21_000_000  # bytes; a file of over 20,000,000 takes about a second


def said_at_terminal(words: list[str]) -> bytes:
    """What a command says on standard error, where that is a terminal."""
    master, slave = pty.openpty()
    try:
        subprocess.run(words, stdout=subprocess.DEVNULL, stderr=slave, timeout=DEADLINE)
        os.write(slave, b"\n")  # so that there is something to read
        return os.read(master, 1 << 16)
    finally:
        os.close(master)
        os.close(slave)


def run_all(program: Path) -> list[tuple[str, str | None]]:
    """Each case, and what is wrong with it."""
    with tempfile.TemporaryDirectory(prefix="check-opening-") as made:
        register, store = Path(made) / "r.toml", Path(made) / "s.db"
        register.write_text(SAMPLE)
        places = ["--store", str(store), "--register", str(register)]
        subprocess.run([str(program), "init", *places], check=True, stdout=subprocess.DEVNULL)
        status = [str(program), "status", *places, "1001"]
        small = said_at_terminal(status)
        os.truncate(store, LARGE)
        large = said_at_terminal(status)
        unseen = subprocess.run(status, capture_output=True, timeout=DEADLINE).stderr
    return [
        ("a small store at a terminal", None if small == b"\r\n" else f"it says {small!r}"),
        ("a large store at a terminal", None if large.startswith(SAID) else f"it says {large!r}"),
        ("a large store without a terminal", f"it says {unseen!r}" if SAID.strip() in unseen else None),
    ]
