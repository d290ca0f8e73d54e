"""Tests of `in_turn`, over small programs in a temporary folder."""

import sys
import unittest
from pathlib import Path

from checks.in_folder import InAFolder, small_program
from checks.in_turn import BROKEN, refused, run_all
from checks.stores import built

TOP = Path(__file__).resolve().parent.parent

# The plain hub receives none of these files, so it needs no store to tell it.
RIGHT = f"""#!/bin/sh
exec {sys.executable} -S {TOP}/bench/hub.py
"""
# Has received whatever came before.
RECEIVING = f"""#!/bin/sh
if test -e "$2"; then printf 'HTTP/1.1 200 OK\\r\\n\\r\\n'; exit; fi
touch "$2"
exec {sys.executable} -S {TOP}/bench/hub.py
"""
FAILING = f"""#!/bin/sh
{sys.executable} -S {TOP}/bench/hub.py
echo "gaz_bench: Store" >&2
exit 3
"""
SILENT = "#!/bin/sh\nexec cat > /dev/null\n"


class InTurn(InAFolder):
    def faults(self, text: str) -> list[str | None]:
        small_program(built(self.folder, "gaz_bench"), text)
        ran = run_all(TOP, self.folder)
        self.assertEqual([broken.name for broken in BROKEN], [name for name, _, _ in ran])
        return [fault for _, _, fault in ran]

    def test_a_right_program_passes(self) -> None:
        self.assertEqual([None] * len(BROKEN), self.faults(RIGHT))

    def test_what_was_received_is_found_by_the_second(self) -> None:
        for fault in self.faults(RECEIVING):
            self.assertIn("the second conversation: differs at byte 9, in line 1: wanted 'HTTP/1.1 404 Not Found", fault)

    def test_the_first_has_to_end_well(self) -> None:
        self.assertEqual(["the first conversation: exit status 3, gaz_bench: Store"] * len(BROKEN), self.faults(FAILING))

    def test_the_first_has_to_be_refused(self) -> None:
        for fault in self.faults(SILENT):
            self.assertIn("the first conversation: differs at byte 0", fault)

    def test_only_the_last_reply_says_close(self) -> None:
        self.assertIn(b"\r\nConnection: close\r\n\r\n", refused("400 Bad Request", 40, True))
        self.assertNotIn(b"Connection", refused("404 Not Found", 17, False))


if __name__ == "__main__":
    unittest.main()
