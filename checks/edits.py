"""Edits that must fail: what each changes, in which functions, and which of them can be tried in one check."""

import difflib
import re
from dataclasses import dataclass, field, replace
from pathlib import Path

from checks.source import Function, constant_at, functions, names

USE = re.compile(r"(pub )?(ghost )?use ")
NAME = re.compile(r"[A-Za-z0-9_-][A-Za-z0-9_.-]*\.edit")


class BadEdit(Exception):
    """An edit that can't be applied: why."""


@dataclass(frozen=True)
class Hunk:
    """Lines `first` to `last` - 1 of a file, from 0, are replaced by these."""

    file: str
    first: int
    last: int
    lines: tuple[str, ...]


@dataclass
class Edit:
    """An edit that can be applied, and the functions that it changes: none where it changes what is in none."""

    name: str
    hunks: list[Hunk]
    places: set[Function] = field(default_factory=set)

    def files(self) -> list[str]:
        return sorted({it.file for it in self.hunks})


def pairs_in(text: str) -> list[tuple[str, str, str]]:
    """The replacements of an edit in their order: file, old text, new text."""
    path, old, found = "", None, []
    for line in text.split("\n"):
        if line.startswith("file: "):
            path = line.removeprefix("file: ").strip()
        elif line.startswith("old: "):
            old = line.removeprefix("old: ")
        elif line.startswith("new:"):
            if not path or old is None:
                raise BadEdit("a 'new:' line stands before any 'file:' or 'old:' line")
            found.append((path, old, line.removeprefix("new:").removeprefix(" ")))
            old = None
    if not found:
        raise BadEdit("it has no 'old:' and 'new:' pair")
    return found


def applied(text: str, sources: dict[str, str]) -> dict[str, str]:
    """The texts of the files that an edit changes, as it makes them: each replacement applies to what those before it made."""
    made: dict[str, str] = {}
    for path, old, new in pairs_in(text):
        if path not in sources:
            raise BadEdit(f"there is no {path}")
        now = made.get(path, sources[path])
        if now.count(old) != 1:
            raise BadEdit(f"an 'old:' text is in {path} {now.count(old)} times, and not once")
        made[path] = now.replace(old, new)
    return made


def hunks_between(file: str, old: str, new: str) -> list[Hunk]:
    """What turns the old text of a file into the new one, as lines that are replaced."""
    before, after = old.split("\n"), new.split("\n")
    steps = difflib.SequenceMatcher(None, before, after, autojunk=False).get_opcodes()
    return [Hunk(file, a, b, tuple(after[c:d])) for what, a, b, c, d in steps if what != "equal"]


def users(name: str, sources: dict[str, str]) -> set[Function]:
    """The functions that name a constant."""
    found = set()
    for file, text in sources.items():
        if file.startswith("src/"):
            found |= {it for it in functions(file, text) if names(text, it, name)}
    return found


def places_of(hunk: Hunk, sources: dict[str, str]) -> set[Function] | None:
    """The functions that hold the replaced lines; for a constant, those that name it; None where neither is so. An import is in none."""
    text = sources[hunk.file]
    if not hunk.file.startswith("src/"):
        return None
    if all(USE.match(it) for it in (*text.split("\n")[hunk.first : hunk.last], *hunk.lines)):
        return set()
    found = set()
    for line in range(hunk.first + 1, max(hunk.last, hunk.first + 1) + 1):
        holding = [it for it in functions(hunk.file, text) if it.holds(line)]
        constant = "" if holding else constant_at(text, line)
        more = {holding[-1]} if holding else users(constant, sources) if constant else set()
        if not more:
            return None
        found |= more
    return found


def edit_of(name: str, text: str, sources: dict[str, str]) -> Edit:
    """Reads an edit over the crate's texts. Raises BadEdit where it can't be applied."""
    made = applied(text, sources)
    hunks = [it for file in sorted(made) for it in hunks_between(file, sources[file], made[file])]
    if not hunks:
        raise BadEdit("it changes nothing")
    found = [places_of(it, sources) for it in hunks]
    places = set() if None in found else set().union(*found)
    return Edit(name, hunks, places)


def sources_of(folder: Path) -> dict[str, str]:
    """The texts that edits may change, by their paths in the crate."""
    found = [it for part in ("src", "specs", "proofs") for it in sorted((folder / part).rglob("*")) if it.is_file()]
    return {str(it.relative_to(folder)): it.read_text(encoding="utf-8") for it in found}


def read_edits(folder: Path, sources: dict[str, str]) -> tuple[list[Edit], list[tuple[str, str]]]:
    """The edits of a crate, and those that can't be applied with the reason."""
    good, bad = [], []
    for file in sorted((folder / "must-fail").rglob("*")):
        if file.is_dir() or file.suffix == ".md":
            continue
        try:
            if file.parent.name != "must-fail" or not NAME.fullmatch(file.name):
                raise BadEdit("an edit stands right in must-fail/, and its name ends in .edit")
            good.append(edit_of(file.stem, file.read_text(encoding="utf-8", errors="replace"), sources))
        except BadEdit as why:
            bad.append((file.stem, str(why)))
    return good, bad


def groups(edits: list[Edit]) -> list[list[Edit]]:
    """Edits that can be tried in one check stand together: no two of them change one function. What is in no function stands alone."""
    found: list[tuple[list[Edit], set[Function]]] = []
    for edit in edits:
        free = (it for it in found if it[1] and not it[1] & edit.places)
        group = next(free, None) if edit.places else None
        if group is None:
            found.append(([edit], set(edit.places)))
        else:
            group[0].append(edit)
            group[1].update(edit.places)
    return [it[0] for it in found]


def merged(edits: list[Edit], sources: dict[str, str]) -> dict[str, str]:
    """The texts of the files that these edits change, with all of them applied."""
    made = {}
    for file in sorted({it for edit in edits for it in edit.files()}):
        lines = sources[file].split("\n")
        hunks = [it for edit in edits for it in edit.hunks if it.file == file]
        for hunk in sorted(hunks, key=lambda it: -it.first):
            lines[hunk.first : hunk.last] = hunk.lines
        made[file] = "\n".join(lines)
    return made


def moved(function: Function, hunks: list[Hunk]) -> Function:
    """Where a function stands once these lines are replaced."""
    first, last = function.first, function.last
    for hunk in hunks:
        if hunk.file == function.file:
            more = len(hunk.lines) - (hunk.last - hunk.first)
            first += more * (hunk.last < function.first)
            last += more * (hunk.first < function.last)
    return replace(function, first=first, last=last)


def paths(edits: list[Edit]) -> list[str]:
    """What a check has to name so that it looks at each function that these edits change, and at those that it calls."""
    return sorted({place.path() for edit in edits for place in edit.places})
