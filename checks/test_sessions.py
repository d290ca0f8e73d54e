"""Tests of `sessions`, over small programs in a temporary folder."""

import unittest

from checks.in_folder import InAFolder
from checks.sessions import SESSIONS, Session, Step, fault_of

# Makes the store that is named, says that it is ready, and knows the file of its register.
RIGHT = """#!/bin/sh
[ "$4" = --register ] || { echo "error: usage" >&2; exit 2; }
[ -f "$5" ] || { echo "gazhub: Unreadable" >&2; exit 3; }
: > "$3"
echo ready
"""
SESSION = Session(
    "two steps",
    (
        Step("init --store s.db --register missing.toml", 3, said=b"gazhub: Unreadable\n"),
        Step("init", 2, said=None),
        Step("init --store s.db --register r.toml", 0, b"ready\n"),
    ),
    there=("s.db",),
    not_there=("s.db-wal",),
)


class Sitting(InAFolder):
    def fault(self, text: str, session: Session = SESSION, deadline: float = 60) -> str | None:
        return fault_of(self.program(text), session, deadline)

    def test_a_right_program_passes(self) -> None:
        self.assertIsNone(self.fault(RIGHT))

    def test_the_first_step_at_fault_is_reported(self) -> None:
        fault = self.fault(RIGHT.replace("exit 3", "exit 1"))
        self.assertEqual(fault, "init --store s.db --register missing.toml: exit status 1, wanted 3")

    def test_another_output_is_reported(self) -> None:
        self.assertIn("standard output differs", self.fault(RIGHT.replace("echo ready", "echo steady")))

    def test_another_line_is_reported(self) -> None:
        self.assertIn("standard error differs", self.fault(RIGHT.replace("Unreadable", "Fault")))

    def test_usage_has_to_be_said(self) -> None:
        self.assertIn("standard error", self.fault(RIGHT.replace('echo "error: usage" >&2;', "")))

    def test_a_file_that_is_missing_is_reported(self) -> None:
        self.assertEqual(self.fault(RIGHT.replace(': > "$3"', "")), "s.db isn't there")

    def test_a_file_that_was_made_is_reported(self) -> None:
        self.assertEqual(self.fault(RIGHT.replace(': > "$3"', ': > "$3"; : > "$3-wal"')), "s.db-wal was made")

    def test_a_program_that_does_not_end_is_reported(self) -> None:
        self.assertIn("didn't end within 1 s", self.fault("#!/bin/sh\nexec sleep 60\n", deadline=1))

    def test_each_session_has_its_name(self) -> None:
        self.assertEqual(len(SESSIONS), len({session.name for session in SESSIONS}))


if __name__ == "__main__":
    unittest.main()
