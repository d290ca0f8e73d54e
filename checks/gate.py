"""The steps of the gate: proofs, tests and programs; conversations; edits that must fail; and what all of it cost."""

import os
import re
import shutil
import subprocess
import sys
import tempfile
import threading
from dataclasses import dataclass, field
from pathlib import Path
from typing import Callable

from checks import kit, measure, outside, pages, refused, stores, trying
from checks.beside import Beside, free, side_by_side
from checks.refused import Refused

SAYING = threading.Lock()
# (what an earlier run on this machine proved of the same text is proved)
PROVED = re.compile(r"^rt: (\w+) (?:proved$|is kept: )")
# What edits leave free beside proofs, which grow once they have begun: bytes.
SPARE = 4_000_000_000


def say(text: str) -> None:
    with SAYING:
        print(text, flush=True)


class Usage(Exception):
    """The gate can't begin: what is wrong, in a line."""


@dataclass
class Account:
    """What each crate cost, in seconds of a processor, and what passed."""

    proof: dict[str, float] = field(default_factory=dict)
    tests: dict[str, float] = field(default_factory=dict)
    edits: dict[str, float] = field(default_factory=dict)
    rest: float = 0.0
    peak: int = 0
    passed: int = 0
    failed: list[str] = field(default_factory=list)

    def count(self, name: str, is_well: bool) -> None:
        self.passed += is_well
        self.failed += [] if is_well else [name]

    def total(self) -> float:
        return sum(self.proof.values()) + sum(self.tests.values()) + sum(self.edits.values()) + self.rest

    def rows(self, names: list[str]) -> list[str]:
        """A row a crate, in minutes, and the sums."""
        columns = (self.proof, self.tests, self.edits)
        rows = [f"{'processor minutes':22}{'proof':>8}{'tests':>8}{'edits':>8}{'sum':>8}"]
        for name in names:
            cost = [it.get(name, 0.0) / 60 for it in columns]
            rows.append(f"{name:22}" + "".join(f"{it:8.1f}" for it in (*cost, sum(cost))))
        sums = [sum(it.values()) / 60 for it in columns]
        rows.append(f"{'all crates':22}" + "".join(f"{it:8.1f}" for it in (*sums, sum(sums))))
        rows.append(f"{'builds, runs, the rest':46}{self.rest / 60:8.1f}")
        return [*rows, f"{'all':46}{self.total() / 60:8.1f}"]


def copy_of(root: Path, room: Path) -> None:
    """Copies the files that the repository keeps, or would keep, but no must-fail edits."""
    words = ["git", "ls-files", "-z", "--cached", "--others", "--exclude-standard"]
    listed = subprocess.run(words, cwd=root, capture_output=True, check=True).stdout.decode().split("\0")
    for name in listed:
        if name and "/must-fail/" not in name and (root / name).is_file():
            (room / name).parent.mkdir(parents=True, exist_ok=True)
            shutil.copy2(root / name, room / name)


def own_tests(root: Path, account: Account) -> None:
    """Tests of the gate itself, since a gate that can't fail is worth nothing."""
    ran, _ = measure.watch([sys.executable, "-m", "unittest", "discover", "-s", "checks", "-t", "."], root, say)
    account.rest += ran.seconds
    account.count("the gate's own tests", ran.status == 0)


def lanes() -> int:
    """How many checks there are at a time, each of one job, since one of four jobs costs a third more. One processor of more than two is
    left to edits, and memory for three checks is there."""
    return min(max(len(os.sched_getaffinity(0)) - 1, 2), 3)


def prove(room: Path, account: Account, proved: set[str], is_anew: bool) -> None:
    """Everything, by the kit's own gate: HANDLES, layout, proofs, tests, and the programs by two compilers; anew, also what
    an earlier run on this machine proved. The name of each crate is among the proved ones once it is."""

    def hear(line: str) -> None:
        say(line)
        proved.update(PROVED.findall(line))

    ran, costs = measure.watch(["env", f"RT_JOBS={lanes()}", "rt", "ci", *["--anew"] * is_anew], room, hear)
    for (name, tests), seconds in costs.seconds.items():
        column = account.tests if tests else account.proof
        column[name] = column.get(name, 0.0) + seconds
    account.rest += max(ran.seconds - sum(costs.seconds.values()), 0.0)
    account.peak = max(account.peak, costs.peak)
    passed, _, failed = ran.text.rstrip("\n").rpartition("\n")[2].partition(" passed, ")
    account.passed += int(passed) if passed.isdigit() else 0
    account.count("rt ci", ran.status == 0 and failed == "0 failed")


def tell(name: str, fault: str | None, account: Account) -> None:
    """Counts what passed where there is no fault, and says what is wrong where there is one."""
    account.count(name, fault is None)
    if fault:
        say(f"{name}: {fault}")


def read_pages(root: Path, account: Account) -> None:
    """Each page of the repository: whether its links and names are there."""
    before = measure.spent()
    for name, fault in pages.run_all(root):
        tell(f"page {name}", fault, account)
    account.rest += measure.spent() - before


def converse(room: Path, root: Path, account: Account) -> None:
    """What `gazhub` is asked and told, and how it ends."""
    program, before = stores.built(room, "gazhub"), measure.spent()
    if not program.is_file():
        return
    for name, fault in outside.of_program(program, root):
        tell(name, fault, account)
    account.rest += measure.spent() - before


def keep(room: Path, root: Path, account: Account) -> None:
    """Stores from outside, and random streams."""
    if not all(stores.built(room, name).is_file() for name in ("gazhub", "gaz_bench")):
        return tell("stores from outside", "gazhub or gaz_bench isn't built", account)
    before = measure.spent()
    for name, fault in outside.of_stores(root, room):
        tell(name, fault, account)
    account.rest += measure.spent() - before


@dataclass
class Edits:
    """The must-fail edits of crates: where those of a crate stand, how its folder of kept work begins, and what they cost."""

    folder_of: Callable[[object], Path]
    begin: Callable[[object, Path], None]
    account: Account
    before: Refused  # what an earlier run refused
    tries_again: bool = False  # that too

    def have(self, crates: list) -> list:
        """Those of the crates that have edits."""
        return [it for it in crates if (self.folder_of(it) / "must-fail").is_dir()]

    def try_crate(self, crate) -> None:
        """Tries the edits of a crate, unless an earlier run on this machine refused all of them."""
        edits = self.folder_of(crate) / "must-fail"
        names = [] if self.tries_again else self.before.names(crate, edits)
        if not names:
            return self.try_anew(crate, edits)
        with SAYING:
            for it in names:
                self.account.count(f"{crate.name}/{it}", True)
        say(f"must-fail {crate.name}: {len(names)} edits, which an earlier run on this machine refused")

    def try_anew(self, crate, edits: Path) -> None:
        with tempfile.TemporaryDirectory(prefix="check-kept-") as kept:
            self.begin(crate, Path(kept))
            outcome = trying.try_crate(crate, self.folder_of(crate), Path(kept), say)
        with SAYING:
            self.account.edits[crate.name] = outcome.seconds
            self.account.peak = max(self.account.peak, outcome.peak)
            for it in outcome.tried:
                self.account.count(f"{crate.name}/{it.name}", it.is_refused)
        if outcome.tried and all(it.is_refused for it in outcome.tried):
            self.before.note(crate, edits, [it.name for it in outcome.tried])
        for it in outcome.tried:
            say(f"must-fail {crate.name}/{it.name}: {'refused' if it.is_refused else 'FAILED'}: {it.why}")

    def try_all(self, crates: list) -> None:
        """Tries those of these crates side by side."""
        side_by_side(sorted(crates, key=lambda it: -it.lines(".rt")), lambda it: it.need(), free(), self.try_crate)

    def beside(self, crates: list, proved: set[str]) -> Beside:
        """Tries those of each crate that is proved beside other work, in what that leaves idle."""
        return Beside(crates, lambda it: it.name in proved, lambda it: it.need() + SPARE < free(), self.try_crate)


def close(names: list[str], account: Account, clock: measure.Clock) -> int:
    """The last account, and the closing line."""
    for row in account.rows(names):
        say(row)
    cores = len(os.sched_getaffinity(0))
    say(f"{clock.minutes():.0f} minutes by the clock on {cores} processors; a check took {account.peak / 1e9:.1f} GB at most; {kit.version()}")
    for it in account.failed:
        say(f"FAILED: {it}")
    say(f"{account.passed} passed, {len(account.failed)} failed")
    return 1 if account.failed else 0


def copy_edits(root: Path, room: Path) -> None:
    """Copies the must-fail edits alone, a folder a crate."""
    for edits in (root / "crates").glob("*/must-fail"):
        shutil.copytree(edits, room / edits.parent.name / "must-fail")


def whole(root: Path, is_anew: bool) -> int:
    """The gate: all of it, in a copy of the tree."""
    clock, account, proved = measure.Clock(), Account(), set()
    read_pages(root, account)
    # (beside the first proofs, which leave a processor idle)
    own = threading.Thread(target=own_tests, args=(root, account))
    own.start()
    with tempfile.TemporaryDirectory(prefix="check-tree-") as made, tempfile.TemporaryDirectory(prefix="check-edits-") as apart:
        room = Path(made)
        copy_of(root, room)
        copy_edits(root, Path(apart))
        crates = kit.crates(room)
        edits = Edits(lambda crate: Path(apart) / crate.name, lambda crate, kept: None, account, Refused(refused.store()), is_anew)
        beside = edits.beside(edits.have(crates), proved)
        beside.start()
        prove(room, account, proved, is_anew)
        own.join()
        converse(room, root, account)
        keep(room, root, account)
        edits.try_all([it for it in beside.end() if it.name in proved])
        beside.wait()
    return close([it.name for it in crates], account, clock)


def chosen(root: Path, names: list[str]) -> list:
    """The crates of these names. Raises Usage where there is no such crate."""
    crates = kit.crates(root)
    unknown = sorted(set(names) - {it.name for it in crates})
    if unknown:
        raise Usage(f"crates.txt names no crate {unknown[0]}")
    return [it for it in crates if it.name in names]


def kept_of(crate, kept: Path) -> None:
    """Begins over a copy of what the crate's own checks kept."""
    own = Path(crate.folder) / "out" / "incremental"
    if own.is_dir():
        shutil.copytree(own, kept, dirs_exist_ok=True)


def build_below(crates: list) -> None:
    """Builds the libraries that these crates stand on, where they have changed: a check does, before it looks at no function."""
    for crate in (it for it in crates if it.named):
        if measure.run(["rt", "check", "--only", ""], Path(crate.folder)).status != 0:
            raise Usage(f"{crate.name} can't be read, or what it stands on isn't proved")


def prove_one(crate, account: Account) -> None:
    """Checks a crate and its tests over what its out/ keeps, and runs what it runs."""
    steps = [(account.proof, ["rt", "check"])]
    steps += [(account.tests, ["rt", "test"])] if crate.has_tests() else []
    for column, words in steps:
        ran, _ = measure.watch(words, Path(crate.folder), say)
        column[crate.name] = column.get(crate.name, 0.0) + ran.seconds
        account.peak = max(account.peak, ran.peak)
        account.count(f"{crate.name}: {' '.join(words)}", ran.status == 0)


def some(root: Path, names: list[str], edits_alone: bool) -> int:
    """The gate for some crates, or for their edits alone, over what their out/ keeps."""
    clock, account = measure.Clock(), Account()
    crates = chosen(root, names)
    if not edits_alone:
        for crate in crates:
            prove_one(crate, account)
    for name, needs, run in (
        ("gazhub", ("gazhub",), converse),
        ("gaz_bench", ("gazhub", "gaz_bench"), keep),
    ):
        if not edits_alone and name in names:
            for program in needs:
                ran, _ = measure.watch(["rt", "run"], root / "crates" / program, lambda line: None)
                account.count(f"{program}: rt run", ran.status == 0)
            run(root, root, account)
    build_below(crates)
    edits = Edits(lambda crate: Path(crate.folder), kept_of, account, Refused(refused.store()), tries_again=True)
    edits.try_all(edits.have(crates))
    return close(names, account, clock)
