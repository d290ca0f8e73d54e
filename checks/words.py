"""The words of the command line: what is said of usage, what help shows, and that words stay texts."""

import os
import subprocess
import tempfile
from dataclasses import dataclass
from pathlib import Path

from checks import sessions
from checks.conversations import DEADLINE, difference
from checks.sessions import EXTRACT, INIT, Session, Step

STORE = sessions.STORE
UNEXPECTED = "error: unexpected argument "
INVALID = "error: invalid value "
MISSING = "error: the following required arguments were not provided:\n"


@dataclass(frozen=True)
class Told:
    """Words that ask for nothing that there is, that name no register that there is, or that ask for help, and the text with which the answer begins."""

    words: str
    begins: str
    status: int  # 2: usage, 3: a fault, both told on standard error; 0: help, told on standard output
    shows: str = ""  # a part of the answer
    most: int | None = None  # lines

    def misses(self, answer: bytes) -> str | None:
        """What is wrong with an answer: how it begins, what it doesn't show, that it is too long."""
        begins, lines = self.begins.encode(), len(answer.splitlines())
        faults = (
            difference(begins, answer[: len(begins)]),
            f"doesn't show {self.shows!r}" if self.shows.encode() not in answer else None,
            f"has {lines} lines, at most {self.most} fit" if self.most is not None and lines > self.most else None,
        )
        return "; ".join(fault for fault in faults if fault) or None


def usage(words: str, begins: str) -> Told:
    return Told(words, begins, 2)


def helps(command: str, does: str, statuses: str) -> Told:
    """The help of a command: what it does, and the exit statuses that it names."""
    usage = f"gazhub {command}\n" if command == "play" else f"gazhub {command} --"
    return Told(f"help {command}", f"{does}\n\nUsage: {usage}", 0, shows=f"\nExit status: {statuses}\n")


TOLD = (
    usage("play 1001", f"{UNEXPECTED}'1001'"),
    usage("play --store s.db", f"{UNEXPECTED}'--store'"),
    usage("--store s.db", f"{UNEXPECTED}'--store'"),
    usage("init --register r.toml", f"{MISSING}  --store <STORE>\n"),
    usage("init --store s.db", f"{MISSING}  --register <REGISTER>\n"),
    usage(
        "init --store s.db --store t.db --register r.toml",
        "error: the argument '--store <STORE>' cannot be used multiple times",
    ),
    usage(f"submit {STORE} 1001 1", f"{MISSING}  <FILE>\n"),
    usage(f"submit {STORE} -1 1 a.csv", f"{UNEXPECTED}'-1'"),
    usage(f"status {STORE}", f"{MISSING}  <CODE>\n"),
    usage(f"line {STORE} 42 43", f"{UNEXPECTED}'43'"),
    usage(f"extract {STORE} 1001", f"{MISSING}  <VOLUME>\n"),
    usage(f"extend {STORE}", f"{MISSING}  --grown <GROWN>\n"),
    usage("migrate --store s.db", f"{MISSING}  --register <REGISTER>\n"),
    usage(f"migrate {STORE} 1001", f"{UNEXPECTED}'1001'"),
    usage(f"serve {STORE} --port 0", f"{MISSING}  --connections <CONNECTIONS>\n"),
    usage(f"serve {STORE} --port x --connections 1", f"{INVALID}'x' for '--port <PORT>'"),
    usage(f"serve {STORE} --port 65536 --connections 1", f"{INVALID}'65536' for '--port <PORT>'"),
    usage(f"serve {STORE} --port 0 --connections 1000001", f"{INVALID}'1000001' for '--connections <CONNECTIONS>'"),
    Told(f"serve {STORE} --port 65535 --connections 1000000", "gazhub: Unreadable\n", 3, most=1),
    Told("--help", "A hub for street and property gazetteers\n\nUsage: gazhub [COMMAND]\n", 0, most=24),
    Told(
        "help submit",
        "Submits a change file\n\nUsage: gazhub submit --store <STORE> --register <REGISTER> <CODE> <VOLUME> <FILE>\n",
        0,
        shows="\nExample: gazhub submit --store hub.db --register register.toml 1001 1 streets.csv\n",
    ),
    helps("play", "Answers HTTP requests on standard input, over a store in memory [default]", "0 all were answered, 2 usage, 3 fault"),
    helps("init", "Makes a store", "0 made, 2 usage, 3 fault"),
    helps("status", "Says how far a custodian's files are judged", "0 known, 1 refused, 2 usage, 3 fault"),
    helps("line", "Prints the address line of a property", "0 printed, 1 none, 2 usage, 3 fault"),
    helps("extract", "Prints a custodian's gazetteer after a volume", "0 printed, 1 none or refused, 2 usage, 3 fault"),
    helps("extend", "Gives a store a register that grew", "0 extended, 1 refused, 2 usage, 3 fault"),
    helps("migrate", "Brings a store of schema 1 up to date", "0 migrated or current, 2 usage, 3 fault"),
    helps("serve", "Answers HTTP requests on 127.0.0.1, over a store", "0 all were answered, 2 usage, 3 fault"),
)

# A CODE has at most 4 digits and a VOLUME 6: as numbers these words would be a custodian and a volume that are there.
AS_WRITTEN = Session(
    "words stay as they were written, in any order of the options",
    (
        INIT,
        Step("submit 01001 --register=r.toml x --store=s.db -- street.csv", 1, b"refused 11\n"),
        Step("submit 1001 --register=r.toml 0000001 --store=s.db -- street.csv", 1, b"refused 12\n"),
        Step("submit 1001 --register=r.toml 000001 --store=s.db -- street.csv", 0, b"new applied\n"),
        Step(f"submit {STORE} 1001 2 descriptor.csv", 0, b"new applied\n"),
        Step("status --register r.toml --store s.db 01001", 1, b"refused 11\n"),
        Step("status --register r.toml --store s.db 1001", 0, b"custodian 1001 judged 2 held 0 wants 1001/3\n"),
        Step(f"line {STORE} 12345678901234", 1, b"none\n"),
        Step(f"extract {STORE} 01001 x", 1, b"refused 11\n"),
        Step(f"extract {STORE} 1001 0000002", 1, b"refused 12\n"),
        Step(f"extract 1001 {STORE} 000002", 0, EXTRACT),
    ),
)


def fault_of(program: Path, told: Told, deadline: float = DEADLINE) -> str | None:
    """What is wrong with what is told of these words in an empty folder, which has to stay so."""
    with tempfile.TemporaryDirectory(prefix="check-words-") as made:
        try:
            ran = subprocess.run([program, *told.words.split()], cwd=made, input=b"", capture_output=True, timeout=deadline)
        except subprocess.TimeoutExpired:
            return f"didn't end within {deadline:g} s"
        left = sorted(os.listdir(made))
    streams = (("standard output", ran.stdout), ("standard error", ran.stderr))
    (name, answer), (other, rest) = reversed(streams) if told.status else streams
    missed, more = told.misses(answer), difference(b"", rest)
    faults = (
        f"exit status {ran.returncode}, wanted {told.status}" if ran.returncode != told.status else None,
        f"{name} {missed}" if missed else None,
        f"{other} {more}" if more else None,
        f"{', '.join(left)} was made" if left else None,
    )
    return "; ".join(fault for fault in faults if fault) or None


def run_all(program: Path) -> list[tuple[str, str | None]]:
    """What is told of usage, of words that are taken and of help, and the words that stay texts, with what is wrong with each."""
    path = program.resolve()
    ran = [(told.words, fault_of(path, told)) for told in TOLD]
    return [*ran, (AS_WRITTEN.name, sessions.fault_of(path, AS_WRITTEN))]
