"""What an earlier run on this machine refused of a crate's must-fail edits, so that they aren't tried again: kept by the checksum of all that trying them reads."""

import hashlib
import os
from dataclasses import dataclass
from pathlib import Path

from checks import kit

# What tries them: where one of these files changes, all are tried again.
TRYING = ("edits.py", "holes.py", "kit.py", "measure.py", "refused.py", "source.py", "trying.py")


def store() -> Path:
    """Beside the kit, so that it lasts as long as the machine."""
    return kit.folder().parent / "gomsverk-edits"


def texts_of(crate) -> list[tuple[str, bytes]]:
    """The files of a crate, by their paths in it."""
    return [(str(it.relative_to(crate.folder)), it.read_bytes()) for it in crate.files()]


def key_of(crate, edits: Path) -> str:
    """The checksum of a crate, of those below it, of its edits and of what tries them."""
    texts = [(it.name, it.of_kit, [lower.name for lower in it.named], texts_of(it)) for it in (*crate.below(), crate)]
    found = sorted((it.name, it.read_bytes()) for it in edits.glob("*.edit"))
    ours = [(name, (Path(__file__).parent / name).read_bytes()) for name in TRYING]
    return hashlib.sha256(repr((kit.version(), texts, found, ours)).encode()).hexdigest()


@dataclass(frozen=True)
class Refused:
    """A place for what was refused. An entry's name is the checksum of all that it was found from, so it never goes stale."""

    at: Path

    def place(self, crate, edits: Path) -> Path:
        return self.at / f"{crate.name}-{key_of(crate, edits)}"

    def names(self, crate, edits: Path) -> list[str]:
        """The edits of this crate, where an earlier run refused all of them; else none."""
        try:
            return self.place(crate, edits).read_text().split()
        except OSError:
            return []

    def note(self, crate, edits: Path, names: list[str]) -> None:
        """Notes that all of a crate's edits, which are these, were refused. Where there is no room to note it, they are tried again."""
        try:
            self.at.mkdir(mode=0o700, exist_ok=True)
            made = self.at / f"new-{os.getpid()}-{crate.name}"
            made.write_text("\n".join(names) + "\n")
            made.rename(self.place(crate, edits))
        except OSError:
            pass
