"""Tries must-fail edits, those of different functions in one check. Each must be refused by a fault inside what it changes."""

import re
import shutil
import tempfile
from dataclasses import dataclass, field
from pathlib import Path
from typing import Callable

from checks import kit, measure
from checks.edits import Edit, groups, merged, moved, paths, read_edits, sources_of
from checks.holes import holes
from checks.source import Function

PARTS = ("src", "specs", "proofs")
PLACE = re.compile(r"(?:note: )?(?:\./)?(\S+?):(\d+):\d+: (.*)")
# (a proof that names what an edit took away, and what cites that proof, says little of a contract)
GONE = re.compile(r"has no field|is not in scope|has no `|was not admitted")
IS_FAULT = re.compile(r"error\b|it is not proved that|`search` found no proof")
# An error of a declaration names it, and is of what it says, unless it says that it can't be read.
ERROR = re.compile(r"error: (?:(`[^`]*`): )?(.*)")
NAMED = re.compile(r"`[^`]*`")
UNREAD = re.compile(r"is not in scope|has no field|is no name|operand is missing|expected the end|cannot continue")


@dataclass(frozen=True)
class Fault:
    """A place that the prover named, and what it said of it."""

    file: str
    line: int
    said: str
    is_unreadable: bool

    def text(self) -> str:
        return f"{self.file}:{self.line}: {self.said}"[:160]


@dataclass(frozen=True)
class Tried:
    """What came of an edit."""

    name: str
    is_refused: bool
    why: str


@dataclass
class Bench:
    """A crate whose edits are tried; `kept` holds what checks of the whole crate keep."""

    crate: object
    sources: dict[str, str]
    kept: Path
    began_over: bool = False  # the first check of the whole crate had something to begin with
    is_odd: bool = False  # a check named a place that no edit changed
    wholes: int = 0  # how many checks of the whole crate there were
    over: list[Edit] = field(default_factory=list)  # the edits that were tried over what earlier ones kept
    seconds: float = 0.0
    peak: int = 0
    checks: int = 0

    def check(self, texts: dict[str, str | None], only: list[str], kept: Path | None = None) -> measure.Ran:
        """Checks a copy of the crate with these texts in place of its own, none where a file goes, over what `kept` holds, if anything."""
        with tempfile.TemporaryDirectory(prefix="check-edit-") as made:
            room = Path(made)
            for part in PARTS:
                if (Path(self.crate.folder) / part).is_dir():
                    shutil.copytree(Path(self.crate.folder) / part, room / part)
            for path, text in texts.items():
                put(room / path, text)
            ran = measure.run(kit.check_words(self.crate, only, kept), room, is_apart=True)
        self.seconds, self.peak, self.checks = self.seconds + ran.seconds, max(self.peak, ran.peak), self.checks + 1
        return ran

    def try_some(self, edits: list[Edit]) -> tuple[measure.Ran, list[Fault]]:
        """Checks what these edits change, by the contracts of all else, and tells the faults that were named."""
        changed = {place for edit in edits for place in edit.places}
        open_ones = holes(self.crate.name, self.sources, changed)
        texts = merged(edits, self.sources | {it: text for it, text in open_ones.items() if text is not None})
        ran = self.check(open_ones | texts, paths(edits))
        return ran, faults_in(ran.text, list(texts))

    def try_whole(self, edits: list[Edit]) -> tuple[measure.Ran, list[Fault]]:
        """Checks the whole crate with these edits applied, and tells the faults that were named."""
        if self.wholes or self.began_over:
            self.over = [*self.over, *edits]
        self.wholes += 1
        texts = merged(edits, self.sources)
        ran = self.check(texts, [], self.kept)
        return ran, faults_in(ran.text, list(texts))


def put(file: Path, text: str | None) -> None:
    """Gives a file this text, or takes it away where there is none."""
    if text is None:
        file.unlink()
    else:
        file.parent.mkdir(parents=True, exist_ok=True)
        file.write_text(text, encoding="utf-8")


def is_unread(said: str) -> bool:
    """Whether an error says that a text can't be read, or that a name in it is gone."""
    error = ERROR.match(said)
    return bool(error) and (error[1] is None or bool(UNREAD.search(NAMED.sub("", error[2]))))


def faults_in(text: str, changed: list[str]) -> list[Fault]:
    """The places that the prover named as faulty."""
    found = []
    for line in text.split("\n"):
        at = PLACE.match(line)
        if at and IS_FAULT.match(at[3]):
            # (an error with its name in brackets comes before any proof)
            is_unreadable = at[3].startswith("error[") or (at[1] in changed or at[1].startswith(("src/", "specs/"))) and is_unread(at[3])
            found.append(Fault(at[1], int(at[2]), at[3], is_unreadable))
    return found


def is_inside(fault: Fault, places: list[Function]) -> bool:
    """Whether a fault is inside one of these functions, or in a file of its proofs."""
    return any(it.owns(fault.file) or it.file == fault.file and it.holds(fault.line) for it in places)


def is_answer(ran: measure.Ran) -> bool:
    """Whether the prover came to an end and refused something."""
    return ran.status == 1 and ran.text.rstrip("\n").split("\n")[-1].startswith(("logic=not-proved", "only="))


def places_in(edit: Edit, together: list[Edit]) -> list[Function]:
    """Where the functions that an edit changes stand once these edits are applied."""
    hunks = [it for other in together for it in other.hunks]
    return [moved(it, hunks) for it in edit.places]


def judged(edit: Edit, together: list[Edit], faults: list[Fault]) -> Fault | None:
    """The fault that refuses an edit: the first inside what it changes that isn't only of a name that is gone."""
    places = places_in(edit, together)
    inside = [it for it in faults if not it.is_unreadable and not GONE.search(it.said) and is_inside(it, places)]
    return inside[0] if inside else None


def unreadable(edits: list[Edit], faults: list[Fault]) -> list[tuple[Edit, Fault]]:
    """The edits inside whose functions a text can't be read."""
    bad = [it for it in faults if it.is_unreadable]
    found = []
    for edit in edits:
        places = places_in(edit, edits)
        first = next((it for it in bad if is_inside(it, places)), None)
        if first:
            found.append((edit, first))
    return found


def try_alone(bench: Bench, edit: Edit) -> Tried:
    """Tries an edit by itself, on the whole crate."""
    ran, faults = bench.try_whole([edit])
    bad = next((it for it in faults if it.is_unreadable), None)
    if bad:
        return Tried(edit.name, False, f"the edited text can't be read, so no contract was tried: {bad.text()}")
    if ran.status == 0:
        return Tried(edit.name, False, "NOT REFUSED: the crate is still proved with this edit")
    if not is_answer(ran):
        return Tried(edit.name, False, f"it did not reach the prover: {ran.text.strip()[-300:]}")
    first = next((it for it in faults if not GONE.search(it.said)), None)
    how = first.text() if first else "only by proofs that name what the edit took away, which says little of the contract"
    return Tried(edit.name, True, f"alone: {how}")


def try_together(bench: Bench, edits: list[Edit]) -> list[Tried]:
    """Tries edits of different functions in one check. Those that it doesn't refuse in their place are tried together once more, since
    one may call what another changes, and alone where nothing is left out."""
    if not edits[0].places:
        return [try_alone(bench, edits[0])]
    ran, faults = bench.try_some(edits)
    bad = unreadable(edits, faults)
    if ran.status == 2 or not bad and not is_answer(ran):
        # (a name that no check knows, or a text that isn't read without what its functions do)
        ran, faults = bench.try_whole(edits)
        bad = unreadable(edits, faults)
    if bad and len(bad) < len(edits):
        left = [it for it in edits if all(it is not edit for edit, _ in bad)]
        return [try_alone(bench, edit) for edit, _ in bad] + try_together(bench, left)
    places = [place for edit in edits for place in places_in(edit, edits)]
    bench.is_odd = bench.is_odd or not all(is_inside(it, places) for it in faults)
    found = [(edit, judged(edit, edits, faults) if is_answer(ran) else None) for edit in edits]
    refused = [Tried(edit.name, True, fault.text()) for edit, fault in found if fault]
    left = [edit for edit, fault in found if not fault]
    if refused and left:
        return refused + try_together(bench, left)
    return refused + [try_alone(bench, edit) for edit in left]


@dataclass
class Outcome:
    """What came of all edits of a crate, and what it cost."""

    name: str
    tried: list[Tried] = field(default_factory=list)
    seconds: float = 0.0
    peak: int = 0
    checks: int = 0


def plain_fault(bench: Bench, edits: list[Edit]) -> str:
    """What keeps the crate from being proved once no edit is applied, if anything does. A check from nothing that named no place but
    those that were edited has shown that there is nothing."""
    if not bench.is_odd and not bench.over:
        return ""
    ran = bench.check({}, [], bench.kept) if bench.over else bench.check({}, paths(edits))
    return "" if ran.status == 0 else ran.text.strip()[-300:]


def try_crate(crate, edits: Path, kept: Path, say: Callable[[str], None]) -> Outcome:
    """Tries the edits, which stand under `edits`, of a crate whose libraries are built. Where the crate isn't proved without them, none
    counts as refused."""
    sources = sources_of(Path(crate.folder))
    good, bad = read_edits(edits, sources)
    outcome = Outcome(crate.name, [Tried(name, False, f"BAD EDIT: {why}") for name, why in bad])
    bench = Bench(crate, sources, kept, began_over=any(kept.iterdir()))
    tried = [it for group in groups(good) for it in try_together(bench, group)]
    fault = plain_fault(bench, good) if good else ""
    if fault:
        tried = [Tried(it.name, False, f"the crate isn't proved without any edit, so this shows nothing: {fault}") for it in good]
    outcome.tried += tried
    outcome.seconds, outcome.peak, outcome.checks = bench.seconds, bench.peak, bench.checks
    say(f"{crate.name}: {len(outcome.tried)} edits in {bench.checks} checks, {bench.seconds:.0f} s of a processor")
    return outcome
