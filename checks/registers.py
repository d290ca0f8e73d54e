"""Texts of registers, from outside: with which fault the program refuses each, or that it reads it; and the text that a store has of one."""

import subprocess
import tempfile
from dataclasses import dataclass
from pathlib import Path

from checks.conversations import DEADLINE, difference
from checks.sample import SAMPLE, TEXT
from checks.sessions import fails
from checks.tables import opened

# Parts of the sample that are edited, each where it first stands.
CODE = "code = 1001"
NAME = '"Lower District"'
UPRNS = "[[200000, 299999]]"
USRNS = "[[300, 399]]"
FIRST_UPRNS = "[[1, 99999], "
FIRST_USRNS = "[[100, 199], "

NINE = [[number, number] for number in range(1, 10)]
NINE_OF_UPRNS = [[number, number] for number in range(300_001, 300_010)]
EIGHT_OF_UPRNS = [*NINE_OF_UPRNS[:7], [300_008, 300_009]]

# The first custodian has a bad block, the second a bad code.
TWO_FAULTS = b"""custodian = [
    { code = 1, name = "A", uprn = [[2, 1]], usrn = [] },
    { code = 0, name = "B", uprn = [], usrn = [] },
]"""

# Two custodians, neither they nor their blocks by rising number, and how a store has them.
TWO = """custodian = [
    { code = 7, name = "Q, \\"x\\"", uprn = [[5, 6], [1, 1]], usrn = [] },
    { code = 3, name = "é", uprn = [], usrn = [[2, 2]] },
]"""
TWO_IN_ORDER = '3,é,,2-2\n7,"Q, ""x""",1-1 5-6,\n'

STORE = ("--store", "s.db", "--register", "r.toml")
WORDS = ("status", *STORE, "1001")


@dataclass(frozen=True)
class Case:
    """The text of a register, and the fault with which it is refused; none where it is read."""

    name: str
    text: bytes
    fault: str | None


@dataclass(frozen=True)
class Kept:
    """The text of a register, and the text of it that a store has which is made under it."""

    name: str
    text: str
    kept: str


def edited(name: str, old: str, new: str, fault: str | None) -> Case:
    """The sample with another text in place of one of its parts."""
    before, found, after = SAMPLE.partition(old)
    if not found:
        raise ValueError(f"{name}: {old!r} is no part of the sample")
    return Case(name, f"{before}{new}{after}".encode(), fault)


def many(count: int) -> bytes:
    """A register of so many custodians, with the codes from 1 on and no blocks."""
    return "".join(f'[[custodian]]\ncode = {code}\nname = "C"\nuprn = []\nusrn = []\n' for code in range(1, count + 1)).encode()


NO_CUSTODIANS = (
    Case("a text that breaks off", b"[[custodian]", "NotToml"),
    Case("a byte that is no UTF-8", b'custodian = "\xff"', "NotToml"),
    Case("two byte order marks", b"\xef\xbb\xbf\xef\xbb\xbfcustodian = 3", "NotToml"),
    Case("a number of over 64 bits", b"custodian = 9223372036854775808", "NotToml"),
    Case("the last number of 64 bits", b"custodian = 9223372036854775807", "Shape"),
    Case("a number behind a byte order mark", b"\xef\xbb\xbfcustodian = 3", "Shape"),
    Case("no text", b"", "Shape"),
    Case("a number for all custodians", b"custodian = 3", "Shape"),
    Case("no custodian", b"custodian = []", "Shape"),
    Case("a number for a custodian", b"custodian = [3]", "Shape"),
)

SHAPES = (
    edited("a key more", CODE, f"{CODE}\nkind = 1", "Shape"),
    edited("a block of one number", FIRST_UPRNS, "[[1], ", "Shape"),
    edited("a block of three numbers", FIRST_UPRNS, "[[1, 2, 3], ", "Shape"),
    edited("a block that begins with a text", FIRST_UPRNS, '[["a", 2], ', "Shape"),
    edited("a number among blocks", FIRST_UPRNS, "[1, ", "Shape"),
    edited("a code that is a truth value", CODE, "code = true", "Shape"),
    edited("a code with a fraction", CODE, "code = 1001.0", "Shape"),
    edited("a name that is a number", '"Upper County"', "1001", "Shape"),
    edited("a number for all blocks", "[[200, 299]]", "200", "Shape"),
    edited("a key less", f"{CODE}\n", "", "Shape"),
    edited("a key beside the custodians", "[[custodian]]", "kind = 1\n[[custodian]]", "Shape"),
)

CODES = (
    edited("code 0", CODE, "code = 0", "BadCode"),
    edited("code 1", CODE, "code = 1", None),
    edited("code 9999", CODE, "code = 9999", None),
    edited("code 10000", CODE, "code = 10000", "BadCode"),
    edited("code -1", CODE, "code = -1", "BadCode"),
    edited("the last code of 64 bits", CODE, "code = 9223372036854775807", "BadCode"),
    edited("a code of over 64 bits", CODE, "code = 9223372036854775808", "NotToml"),
    edited("code 1001 and 2 to the 64th", CODE, "code = 18446744073709552617", "NotToml"),
    edited("a code that two have", "code = 1002", CODE, "SameCode"),
)

NAMES = (
    edited("a name of 60 characters", NAME, f'"{"é" * 60}"', None),
    edited("a name of 61 characters", NAME, f'"{"é" * 61}"', "BadName"),
    edited("a name of none", NAME, '""', "BadName"),
    edited("a name that ends with a space", NAME, '"Lower District "', "BadName"),
    edited("a name that begins with a space", NAME, '" Lower District"', "BadName"),
    edited("a name with a tab", NAME, '"Lower\\tDistrict"', "BadName"),
    edited("a name with U+007F", NAME, '"Lower\\u007FDistrict"', "BadName"),
)

BLOCKS = (
    edited("a block of a number", USRNS, "[[300, 300]]", None),
    edited("a block that ends before it begins", USRNS, "[[300, 299]]", "BadBlock"),
    edited("eight blocks of USRNs", USRNS, f"{NINE[:8]}", None),
    edited("nine blocks of USRNs", USRNS, f"{NINE}", "BadBlock"),
    edited("eight blocks of UPRNs", UPRNS, f"{EIGHT_OF_UPRNS}", None),
    edited("nine blocks of UPRNs", UPRNS, f"{NINE_OF_UPRNS}", "BadBlock"),
    edited("USRN 0", USRNS, "[[0, 99]]", "BadBlock"),
    edited("all USRNs up to another's", USRNS, "[[300, 99999998]]", None),
    edited("a USRN of nine digits", USRNS, "[[300, 100000000]]", "BadBlock"),
    edited("all UPRNs up to another's", UPRNS, "[[200000, 999999998999]]", None),
    edited("a UPRN of thirteen digits", UPRNS, "[[200000, 1000000000000]]", "BadBlock"),
    edited("a UPRN that two have", "[[100000, 199999]]", "[[99999, 199999]]", "Overlap"),
    edited("a USRN that two have", FIRST_USRNS, "[[100, 200], ", "Overlap"),
    edited("a USRN in two blocks of one", FIRST_USRNS, "[[100, 199], [150, 150], ", "Overlap"),
)

SEVERAL = (
    Case("a bad block before a bad code", TWO_FAULTS, "BadBlock"),
    Case("400 custodians", many(400), None),
    Case("401 custodians", many(401), "TooMany"),
)

CASES = (*NO_CUSTODIANS, *SHAPES, *CODES, *NAMES, *BLOCKS, *SEVERAL)

KEPT = (Kept("custodians and blocks stand in order", TWO, TWO_IN_ORDER), Kept("the sample in a store", SAMPLE, TEXT))


def fault_of(program: Path, case: Case, deadline: float = DEADLINE) -> str | None:
    """What is wrong with how the program ends over a register: where it reads it, it is at a loss for the store, which isn't there."""
    with tempfile.TemporaryDirectory(prefix="check-register-") as made:
        Path(made, "r.toml").write_bytes(case.text)
        try:
            ran = subprocess.run([program, *WORDS], cwd=made, input=b"", capture_output=True, timeout=deadline)
        except subprocess.TimeoutExpired:
            return f"didn't end within {deadline:g} s"
    said = difference(fails(case.fault or "Fault"), ran.stderr)
    written = difference(b"", ran.stdout)
    faults = (
        f"exit status {ran.returncode}, wanted 3" if ran.returncode != 3 else None,
        f"standard error {said}" if said else None,
        f"standard output {written}" if written else None,
    )
    return "; ".join(fault for fault in faults if fault) or None


def kept_fault(program: Path, case: Kept) -> str | None:
    """What is wrong with a store that the program makes under a register."""
    with tempfile.TemporaryDirectory(prefix="check-register-") as made:
        Path(made, "r.toml").write_text(case.text)
        ran = subprocess.run(["timeout", f"{DEADLINE:g}", program, "init", *STORE], cwd=made, input=b"", capture_output=True)
        if (ran.returncode, ran.stdout, ran.stderr) != (0, b"ready\n", b""):
            return f"exit status {ran.returncode}, said {ran.stdout + ran.stderr!r}"
        with opened(Path(made, "s.db")) as conn:
            found = conn.execute("SELECT register FROM meta").fetchall()
    return None if found == [(case.kept,)] else f"the store has {found!r}"


def run_all(program: Path) -> list[tuple[str, str | None]]:
    """Each text, and what is wrong with what the program makes of it."""
    program = program.resolve()
    return [(case.name, fault_of(program, case)) for case in CASES] + [(case.name, kept_fault(program, case)) for case in KEPT]
