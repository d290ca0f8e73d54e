"""What the gate asks of the kit by what anybody may: where it lies (`rt doc`), its version, and the words of a check by `rattle`, for the crates that crates.txt names."""

import functools
import re
import shutil
import subprocess
from dataclasses import dataclass
from pathlib import Path

TEST = re.compile(r"^\s*#\[test\]", re.M)


class NoKit(Exception):
    """There is no `rt` on the path."""


def said_by(word: str) -> str:
    """What `rt` says to a word."""
    if shutil.which("rt") is None or shutil.which("rattle") is None:
        raise NoKit("there is no rt on the path: it comes with the kit that the README names")
    return subprocess.run(["rt", word], capture_output=True, text=True, check=True).stdout.strip()


@functools.cache
def folder() -> Path:
    """The kit's folder, in which the page stands that is to be read first."""
    return Path(said_by("doc")).parent


@functools.cache
def version() -> str:
    return said_by("version")


@dataclass(eq=False)
class Crate:
    """A crate of the repository, the crates of it that it names, and the kit's libraries that it names."""

    name: str
    folder: str
    named: list["Crate"]
    of_kit: list[str]

    def below(self) -> list["Crate"]:
        """All that it stands on, each once, behind those that it stands on."""
        found: list[Crate] = []
        for it in self.named:
            found += [lower for lower in (*it.below(), it) if lower not in found]
        return found

    def files(self) -> list[Path]:
        """What a check of it reads."""
        parts = (Path(self.folder) / part for part in ("src", "specs", "proofs"))
        return sorted(it for part in parts for it in part.rglob("*") if it.is_file())

    def lines(self, suffix: str) -> int:
        return sum(it.read_bytes().count(b"\n") for it in self.files() if it.suffix == suffix)

    def root(self) -> str:
        """The file that its others belong to."""
        return "src/main.rt" if (Path(self.folder) / "src" / "main.rt").is_file() else "src/lib.rt"

    def rlib(self) -> str:
        """Where its library stands once it is built."""
        return f"{self.folder}/out/rlib/{self.name}.rlib"

    def has_tests(self) -> bool:
        return any(TEST.search(it.read_text(encoding="utf-8")) for it in self.files() if it.suffix == ".rt")

    def need(self) -> int:
        """The bytes of memory that a check of it is likely to take, as measured: what it reads of libraries, and what it makes of its own lines."""
        below = sum(it.lines(".rt") for it in self.below())
        return 3_000_000_000 + 1_000_000 * self.lines(".rt") + 200_000 * self.lines(".antt") + 80_000 * below


def crates(root: Path) -> list[Crate]:
    """The repository's crates, each after those that it stands on."""
    said = [it.partition(":") for it in (root / "crates.txt").read_text().split("\n") if it and not it.startswith("#")]
    found = {name: Crate(name, str(root / "crates" / name), [], []) for name, _, _ in said}
    for name, _, words in said:
        found[name].named = [found[it] for it in words.split() if it in found]
        found[name].of_kit = ["std", *(it for it in words.split() if it not in found)]
    return sorted(found.values(), key=lambda it: len(it.below()))


def check_words(crate: Crate, only: list[str], kept: Path | None) -> list[str]:
    """The command that checks a crate, from nothing or over what `kept` holds: the whole crate, or only the functions that `only` names, past holes."""
    libraries = folder() / "rlibs"
    words = ["rattle", "check", "--crate-name", crate.name, crate.root()]
    for name in crate.of_kit:
        words += ["--extern", f"{name}={libraries / name}.rlib"]
    words += ["-L", f"dependency={libraries}"]
    for it in crate.named:
        words += ["--extern", f"{it.name}={it.rlib()}"]
    for it in crate.below():
        words += ["-L", f"dependency={Path(it.rlib()).parent}"]
    words += ["--antt-project", str(folder() / "rattle" / "logic" / "antt-project.json"), "--logic-built", str(folder() / "logic_built")]
    words += ["--links", f"{crate.name}=", "--jobs", "1"]
    words += ["--allow-holes"] if only else []
    for path in only:
        words += ["--only", path]
    return words if kept is None else [*words, "--incremental", str(kept)]
