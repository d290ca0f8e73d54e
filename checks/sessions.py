"""Commands over a store's file, one after another: what each prints and how it ends, and which files there are afterwards."""

import subprocess
import tempfile
from dataclasses import dataclass
from hashlib import sha256
from pathlib import Path

from checks.conversations import DEADLINE, difference
from checks.stores import register_of

REGISTER = b"""[[custodian]]
code = 1001
name = "Upper County"
uprn = [[1, 99999]]
usrn = [[100, 199]]

[[custodian]]
code = 1002
name = "Lower District"
uprn = [[100000, 199999]]
usrn = [[200, 299]]
"""

NEW_TOWN = b"""
[[custodian]]
code = 1004
name = "New Town"
uprn = [[300000, 399999]]
usrn = [[400, 499]]
"""

STREET = b"10,1,1001,1,2024-01-02\n11,I,1,101,1,2001-04-01,\n99,1\n"
DESCRIPTOR = b"10,1,1001,2,2024-02-01\n15,I,1,101,ENG,High Street,,Arden,Arden\n99,1\n"
FLAT = (
    b"10,1,1001,3,2024-03-01\n21,I,1,42,1,450000,250000,,AR1 2DN,2001-04-01,\n"
    b"24,I,2,L1,42,ENG,1,101,,,,,Flat 2,12,A,14,,,2001-04-01,\n99,2\n"
)
# The last numbers of the last block of the last of 400 custodians.
LAST_NUMBERS = (
    b"10,1,400,1,2024-01-02\n11,I,1,96000000,1,2001-04-01,\n15,I,2,96000000,ENG,Last Street,,Arden,Arden\n"
    b"21,I,3,960000000000,1,450000,250000,,,2001-04-01,\n24,I,4,L1,960000000000,ENG,1,96000000,,,,,,7,,,,,2001-04-01,\n99,4\n"
)
GIVEN_UP = b"10,2,1001,4,2025-01-02\n24,D,1,L1,42,ENG,1,101,,,,,Flat 2,12,A,14,,,2001-04-01,\n91,I,2,42,1002,1\n99,2\n"
ADOPTED = b"10,2,1002,1,2025-01-03\n90,1001,4\n92,I,1,42,1001,1,1,450000,250000,,AR1 2DN,2001-04-01,\n99,1\n"
ADDRESSED = b"10,1,1002,2,2025-01-06\n90,1001,2\n24,I,1,K1,42,ENG,1,101,,,,,,14,,,,,2025-01-06,\n99,1\n"
STILL_OURS = b"10,1,1001,5,2025-02-01\n21,U,1,42,8,450000,250000,,AR1 2DN,2001-04-01,2025-01-31\n99,1\n"
EXTRACT = b"10,E,1001,2\n11,I,1,101,1,2001-04-01,\n15,I,2,101,ENG,High Street,,Arden,Arden\n99,2\n"

FILES = {
    "r.toml": REGISTER,
    "other.toml": REGISTER.replace(b"Upper", b"Lower"),
    "grown.toml": REGISTER + NEW_TOWN,
    "smaller.toml": REGISTER[: REGISTER.index(b"\n[[custodian]]", 1)],
    "changed.toml": REGISTER.replace(b"299]]", b"298]]"),
    "both.toml": (REGISTER[: REGISTER.index(b"\n[[custodian]]", 1)] + NEW_TOWN).replace(b"199]]", b"198]]"),
    "based.csv": b"10,1,1002,1,2024-06-01\n90,1004,1\n99,0\n",
    "town.csv": b"10,1,1004,1,2024-06-01\n99,0\n",
    "no.toml": b"[[custodian",
    "empty.toml": b"",
    "400.toml": register_of(400).encode(),
    "street.csv": STREET,
    "descriptor.csv": DESCRIPTOR,
    "flat.csv": FLAT,
    "given.csv": GIVEN_UP,
    "adopted.csv": ADOPTED,
    "addressed.csv": ADDRESSED,
    "ours.csv": STILL_OURS,
    "last.csv": LAST_NUMBERS,
    "again.csv": STREET.replace(b"-02", b"-03"),
    "profile.csv": b"10,7,x",
    "large.csv": b"a" * 1_048_577,
    "no.db": b"This is no database, and its first bytes say so. " * 40,
}


@dataclass(frozen=True)
class Step:
    """The words of a run, after which it has to end so."""

    words: str
    status: int
    written: bytes = b""  # on standard output
    said: bytes | None = b""  # on standard error; None: whatever `clap` says


@dataclass(frozen=True)
class Session:
    """Steps in a folder of their own, in which the files named are then there and those aren't."""

    name: str
    steps: tuple[Step, ...]
    there: tuple[str, ...] = ()
    not_there: tuple[str, ...] = ()


def fails(name: str) -> bytes:
    return f"gazhub: {name}\n".encode()


STORE = "--store s.db --register r.toml"
GROWN = "--store s.db --register grown.toml"
MANY = "--store s.db --register 400.toml"
INIT = Step(f"init {STORE}", 0, b"ready\n")
FIRST = Step(f"submit {STORE} 1001 1 street.csv", 0, b"new applied\n")
SECOND = Step(f"submit {STORE} 1001 2 descriptor.csv", 0, b"new applied\n")
EXTEND = Step(f"extend {STORE} --grown grown.toml", 0, b"extended\n")

SESSIONS = (
    Session(
        "a street, a repeat and a file that is held",
        (INIT, FIRST, Step(FIRST.words, 0, b"repeat applied\n"), Step(f"submit {STORE} 1001 3 flat.csv", 1, b"new held wants 1001/2\n")),
        there=("s.db",),
    ),
    Session(
        "an address, from nothing",
        (
            INIT,
            Step(f"line {STORE} 42", 1, b"none\n"),
            Step(f"status {STORE} 1001", 0, b"custodian 1001 judged 0 held 0 wants 1001/1\n"),
            Step(f"submit {STORE} 1001 3 flat.csv", 1, b"new held wants 1001/1\n"),
            FIRST,
            Step(f"status {STORE} 1001", 0, b"custodian 1001 judged 1 held 1 wants 1001/2\n"),
            SECOND,
            Step(f"line {STORE} 42", 0, b"Flat 2, 12A-14 High Street, Arden, AR1 2DN\n"),
            Step(f"line {STORE} 000000000042", 0, b"Flat 2, 12A-14 High Street, Arden, AR1 2DN\n"),
            Step(f"line {STORE} 0000000000042", 1, b"none\n"),
            Step(f"extract {STORE} 1001 2", 0, EXTRACT),
            Step(f"extract {STORE} 1001 4", 1, b"none\n"),
        ),
    ),
    Session(
        "a property that passes to a neighbour, who was first to say so",
        (
            INIT,
            FIRST,
            SECOND,
            Step(f"submit {STORE} 1001 3 flat.csv", 0, b"new applied\n"),
            Step(f"submit {STORE} 1002 1 adopted.csv", 1, b"new held wants 1001/4\n"),
            Step(f"line {STORE} 42", 0, b"Flat 2, 12A-14 High Street, Arden, AR1 2DN\n"),
            Step(f"submit {STORE} 1001 4 given.csv", 0, b"new applied\n"),
            Step(f"submit {STORE} 1002 1 adopted.csv", 0, b"repeat applied\n"),
            Step(f"line {STORE} 42", 1, b"none\n"),
            Step(f"submit {STORE} 1002 2 addressed.csv", 0, b"new applied\n"),
            Step(f"line {STORE} 42", 0, b"14 High Street, Arden, AR1 2DN\n"),
            Step(f"submit {STORE} 1001 5 ours.csv", 1, b"new rejected record 2 rule 20\n"),
            Step(f"extract {STORE} 1001 5", 0, EXTRACT.replace(b"1001,2", b"1001,5")),
            Step(f"extract {STORE} 1002 1", 0, b"10,E,1002,1\n21,I,1,42,1,450000,250000,,AR1 2DN,2001-04-01,\n99,1\n"),
        ),
    ),
    Session(
        "what is refused, and what is taken",
        (
            INIT,
            FIRST,
            Step(f"submit {STORE} 1001 1 again.csv", 1, b"taken %s\n" % sha256(STREET).hexdigest().encode()),
            Step(f"submit {STORE} 1001 2 street.csv", 1, b"new rejected record 1 rule 3\n"),
            Step(f"submit {STORE} 1001 2 street.csv", 1, b"repeat rejected record 1 rule 3\n"),
            Step(f"submit {STORE} 1003 1 street.csv", 1, b"refused 11\n"),
            Step(f"submit {STORE} 1001 1000000 street.csv", 1, b"refused 12\n"),
            Step(f"submit {STORE} 1001 3 large.csv", 1, b"refused 13\n"),
            Step(f"submit {STORE} 1001 3 profile.csv", 1, b"refused 16\n"),
            Step(f"status {STORE} 1003", 1, b"refused 11\n"),
            Step(f"extract {STORE} 1001 0", 1, b"refused 12\n"),
        ),
    ),
    Session(
        "a register of 400 custodians with eight blocks each",
        (
            Step(f"init {MANY}", 0, b"ready\n"),
            Step(f"submit {MANY} 400 1 last.csv", 0, b"new applied\n"),
            Step(f"submit {MANY} 399 1 last.csv", 1, b"new rejected record 1 rule 3\n"),
            Step(f"line {MANY} 960000000000", 0, b"7 Last Street, Arden\n"),
            Step(f"line {MANY} 960000000001", 1, b"none\n"),
            Step(f"status {MANY} 400", 0, b"custodian 400 judged 1 held 0 wants 400/2\n"),
            Step(f"status {MANY} 401", 1, b"refused 11\n"),
        ),
    ),
    Session(
        "no file is made but by init",
        (
            Step(f"submit {STORE} 1001 1 street.csv", 3, said=fails("Fault")),
            Step(f"status {STORE} 1001", 3, said=fails("Fault")),
            Step("init --store s.db --register missing.toml", 3, said=fails("Unreadable")),
            Step("init --store s.db --register no.toml", 3, said=fails("NotToml")),
            Step("init --store nowhere/s.db --register r.toml", 3, said=fails("Fault")),
        ),
        not_there=("s.db", "s.db-wal", "nowhere"),
    ),
    Session(
        "a store is made once, and not over another file",
        (
            INIT,
            FIRST,
            Step(INIT.words, 3, said=fails("BadSchema")),
            Step(f"status {STORE} 1001", 0, b"custodian 1001 judged 1 held 0 wants 1001/2\n"),
            Step("init --store no.db --register r.toml", 3, said=fails("Fault")),
            Step("status --store no.db --register r.toml 1001", 3, said=fails("Fault")),
        ),
    ),
    Session(
        "of two faults that come next to each other the first is told",
        (
            Step("submit --store s.db --register missing.toml 1001 1", 2, said=None),
            Step("submit --store s.db --register missing.toml -1 1 street.csv", 2, said=None),
            Step("status --store s.db --register empty.toml x", 3, said=fails("Shape")),
            Step("status --store s.db --register no.toml 1001", 3, said=fails("NotToml")),
            Step("status --store no.db --register missing.toml 1001", 3, said=fails("Unreadable")),
            Step(f"status {STORE} x", 3, said=fails("Fault")),
            Step(f"line {STORE} x", 3, said=fails("Fault")),
            INIT,
            Step("status --store s.db --register other.toml x", 3, said=fails("OtherRegister")),
            Step(f"submit {STORE} 12345 x missing.csv", 1, b"refused 11\n"),
            Step(f"submit {STORE} 9998 x missing.csv", 1, b"refused 12\n"),
            Step(f"submit {STORE} 12345 1 missing.csv", 1, b"refused 11\n"),
            Step(f"submit {STORE} 1001 x missing.csv", 1, b"refused 12\n"),
            Step(f"submit {STORE} 9998 1 missing.csv", 3, said=fails("Unreadable")),
            Step(f"submit {STORE} 9998 1 .", 3, said=fails("Unreadable")),
            Step(f"submit {STORE} 9998 1 large.csv", 1, b"refused 11\n"),
            Step(f"extract {STORE} 12345 x", 1, b"refused 11\n"),
            Step(f"extract {STORE} 9998 x", 1, b"refused 12\n"),
        ),
    ),
    Session(
        "a register that grows by the custodian for whom a file waits",
        (
            INIT,
            Step(f"submit {STORE} 1002 1 based.csv", 1, b"new held wants 1004/1\n"),
            Step(f"submit {STORE} 1004 1 town.csv", 1, b"refused 11\n"),
            EXTEND,
            Step(f"submit {GROWN} 1002 1 based.csv", 1, b"repeat held wants 1004/1\n"),
            Step(f"submit {GROWN} 1004 1 town.csv", 0, b"new applied\n"),
            Step(f"submit {GROWN} 1002 1 based.csv", 0, b"repeat applied\n"),
            Step(f"status {STORE} 1002", 3, said=fails("OtherRegister")),
            Step(EXTEND.words, 3, said=fails("OtherRegister")),
            Step(f"extend {GROWN} --grown grown.toml", 0, b"extended\n"),
            Step(f"extend {GROWN} --grown r.toml", 1, b"refused 61\n"),
        ),
        there=("s.db",),
    ),
    Session(
        "a register that is no growth, and what stays where it is refused",
        (
            INIT,
            FIRST,
            Step(f"extend {STORE} --grown smaller.toml", 1, b"refused 61\n"),
            Step(f"extend {STORE} --grown changed.toml", 1, b"refused 62\n"),
            Step(f"extend {STORE} --grown both.toml", 1, b"refused 61\n"),
            Step(f"status {STORE} 1001", 0, b"custodian 1001 judged 1 held 0 wants 1001/2\n"),
            Step(f"extend {STORE} --grown other.toml", 0, b"extended\n"),
            Step("status --store s.db --register other.toml 1001", 0, b"custodian 1001 judged 1 held 0 wants 1001/2\n"),
        ),
    ),
    Session(
        "of two faults of a growth the first is told, and no file is made",
        (
            Step(f"extend {STORE}", 2, said=None),
            Step("extend --store s.db --register missing.toml --grown no.toml", 3, said=fails("Unreadable")),
            Step("extend --store s.db --register empty.toml --grown missing.toml", 3, said=fails("Shape")),
            Step(f"extend {STORE} --grown missing.toml", 3, said=fails("Unreadable")),
            Step(f"extend {STORE} --grown no.toml", 3, said=fails("NotToml")),
            Step(f"extend {STORE} --grown smaller.toml", 3, said=fails("Fault")),
            Step("extend --store no.db --register r.toml --grown smaller.toml", 3, said=fails("Fault")),
            Step("init --store o.db --register other.toml", 0, b"ready\n"),
            Step("extend --store o.db --register r.toml --grown smaller.toml", 3, said=fails("OtherRegister")),
        ),
        not_there=("s.db", "s.db-wal"),
    ),
    Session(
        "of two faults of a migration the first is told, and no file is made",
        (
            Step(f"migrate {STORE} 1001", 2, said=None),
            Step("migrate --store s.db --register missing.toml", 3, said=fails("Unreadable")),
            Step("migrate --store no.db --register no.toml", 3, said=fails("NotToml")),
            Step(f"migrate {STORE}", 3, said=fails("Fault")),
            Step("migrate --store no.db --register r.toml", 3, said=fails("Fault")),
        ),
        not_there=("s.db", "s.db-wal"),
    ),
    Session(
        "a store that is current, and one that has grown",
        (
            INIT,
            FIRST,
            Step(f"migrate {STORE}", 0, b"current\n"),
            Step("migrate --store s.db --register other.toml", 3, said=fails("OtherRegister")),
            EXTEND,
            Step(f"migrate {STORE}", 3, said=fails("OtherRegister")),
            Step(f"migrate {GROWN}", 0, b"current\n"),
            Step(f"status {GROWN} 1001", 0, b"custodian 1001 judged 1 held 0 wants 1001/2\n"),
        ),
    ),
)


def fault_of(program: Path, session: Session, deadline: float = DEADLINE) -> str | None:
    """What is wrong with a session: the first step that is, else a file that is or isn't there."""
    with tempfile.TemporaryDirectory(prefix="check-session-") as made:
        for name, text in FILES.items():
            Path(made, name).write_bytes(text)
        for step in session.steps:
            fault = _fault_of(program, step, made, deadline)
            if fault:
                return f"{step.words}: {fault}"
        for name in session.there:
            if not Path(made, name).exists():
                return f"{name} isn't there"
        for name in session.not_there:
            if Path(made, name).exists():
                return f"{name} was made"
    return None


def _fault_of(program: Path, step: Step, folder: str, deadline: float) -> str | None:
    try:
        ran = subprocess.run([program, *step.words.split()], cwd=folder, input=b"", capture_output=True, timeout=deadline)
    except subprocess.TimeoutExpired:
        return f"didn't end within {deadline:g} s"
    said = difference(step.said if step.said is not None else ran.stderr or b"error", ran.stderr)
    written = difference(step.written, ran.stdout)
    faults = (
        f"exit status {ran.returncode}, wanted {step.status}" if ran.returncode != step.status else None,
        f"standard error {said}" if said else None,
        f"standard output {written}" if written else None,
    )
    return "; ".join(fault for fault in faults if fault) or None


def run_all(program: Path) -> list[tuple[str, str | None]]:
    """Each session, and what is wrong with it."""
    return [(session.name, fault_of(program.resolve(), session)) for session in SESSIONS]
