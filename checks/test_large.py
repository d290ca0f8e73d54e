"""Tests of `large`, over small programs in a temporary folder."""

import hashlib
import sys
import unittest
from pathlib import Path

from checks.conversations import replies_in, requests_in, run_whole
from checks.in_folder import InAFolder
from checks.large import cases, chain, largest_file, limit_first, run_all

TOP = Path(__file__).resolve().parent.parent

PLAIN = f"""#!/bin/sh
exec {sys.executable} -S {TOP}/bench/hub.py
"""
SILENT = "#!/bin/sh\nexec cat > /dev/null\n"
FAILING = "#!/bin/sh\ncat > /dev/null\nexit 3\n"


class Generated(unittest.TestCase):
    def test_the_largest_file_is_the_known_one(self) -> None:
        file = largest_file()
        self.assertEqual(1_048_576, len(file))
        # What `sha256sum` prints of it.
        self.assertEqual("43d3316140e2e89539ead882e7c0602c3155255730a2c439487d16084a7a1690", hashlib.sha256(file).hexdigest())

    def test_each_property_is_a_part_of_the_next(self) -> None:
        wanted = b"10,1,1001,7,2024-01-02\n21,I,1,2,1,1,1,1,,2020-01-01,\n21,I,2,1,1,1,1,,,2020-01-01,\n99,2\n"
        self.assertEqual(wanted, chain(7, 2, 2))

    def test_each_request_has_a_reply(self) -> None:
        for one in cases():
            self.assertEqual(len(requests_in(one.requests)), len(replies_in(one.replies)), one.name)

    def test_their_names_differ(self) -> None:
        names = [one.name for one in cases()]
        self.assertEqual(len(names), len(set(names)))


class Running(InAFolder):
    def test_a_right_program_passes(self) -> None:
        self.assertIsNone(run_whole(self.program(PLAIN), limit_first()))

    def test_what_is_missing_is_told_of_each(self) -> None:
        ran = list(run_all(self.program(SILENT)))
        self.assertEqual([one.name for one in cases()], [name for name, _ in ran])
        for _, fault in ran:
            self.assertIn("differs at byte 0, in line 1: wanted 'HTTP/1.1 201 Created", fault)

    def test_an_exit_status_is_told(self) -> None:
        for _, fault in run_all(self.program(FAILING)):
            self.assertIn("exit status 3", fault)


if __name__ == "__main__":
    unittest.main()
