"""What the gate says of itself: bad input, an interrupt, and its account."""

import os
import signal
import subprocess
import sys
import threading
import time
import unittest
from pathlib import Path

from checks import gate, measure, outside
from checks.in_folder import InAFolder
from checks.test_trying import RIGHT, small_crate

CHECK = Path(__file__).resolve().parent.parent / "check"


def small_tree(root: Path, edits: dict[str, tuple[str, str]] | None = None) -> None:
    """A repository of one crate with these edits, and no more."""
    small_crate(root, edits or {})
    (root / "HANDLES").write_text("Handles allowed: none.\n")
    subprocess.run(["git", "init", "--quiet"], cwd=root, check=True)


def said(words: list[str], root: Path, path: str | None = None) -> tuple[int, str]:
    env = {**os.environ, **({} if path is None else {"PATH": path})}
    ran = subprocess.run([sys.executable, CHECK, *words], cwd=root, env=env, capture_output=True, text=True, timeout=300)
    return ran.returncode, ran.stderr


class BadInput(InAFolder):
    def test_outside_a_repository(self):
        status, text = said([], self.folder)
        self.assertEqual((2, "check: it runs at the top of the repository, where crates.txt stands\n"), (status, text))

    def test_an_unknown_crate(self):
        small_tree(self.folder)
        for words in (["--crate", "large"], ["--edits", "small", "large"]):
            self.assertEqual((2, "check: crates.txt names no crate large\n"), said(words, self.folder))

    def test_without_the_kit(self):
        small_tree(self.folder)
        status, text = said([], self.folder, path="/nowhere")
        self.assertEqual((2, 1), (status, text.count("\n")))
        self.assertIn("no rt on the path", text)

    def test_words_that_say_nothing(self):
        small_tree(self.folder)
        self.assertEqual(2, said(["--quickly"], self.folder)[0])


def wait_for(happened, seconds: float) -> bool:
    """Whether something happens in so many seconds."""
    last = time.monotonic() + seconds
    while not happened() and time.monotonic() < last:
        time.sleep(0.01)
    return happened()


class Interrupted(InAFolder):
    def test_an_interrupt_leaves_the_tree_as_it_was(self):
        tree, rooms = self.new_folder(), self.new_folder()
        small_tree(tree, RIGHT)
        before = sorted(str(it) for it in tree.rglob("*") if ".git" not in it.parts)
        words = [sys.executable, CHECK, "--edits", "small"]
        env = {**os.environ, "TMPDIR": str(rooms)}
        running = subprocess.Popen(words, cwd=tree, env=env, stdout=subprocess.DEVNULL, stderr=subprocess.PIPE)
        # (its first check has begun once it has a room, and there are three)
        began = wait_for(lambda: any(it.startswith("check-edit-") for it in os.listdir(rooms)), 50)
        running.send_signal(signal.SIGINT)
        _, text = running.communicate(timeout=300)
        after = sorted(str(it) for it in tree.rglob("*") if ".git" not in it.parts)
        left = os.listdir(rooms)
        self.assertTrue(began, text)
        self.assertEqual(130, running.returncode, text)
        self.assertEqual((before, []), (after, left))


class TheSteps(InAFolder):
    def test_programs_that_are_not_built_are_told(self):
        account = gate.Account()
        gate.keep(self.folder, self.folder, account)
        self.assertEqual((0, ["stores from outside"]), (account.passed, account.failed))

    def test_pages_are_counted(self):
        account = gate.Account()
        small_tree(self.folder)
        (self.folder / "docs").mkdir()
        (self.folder / "README.md").write_text("[It](docs/nowhere.md)\n")
        (self.folder / "docs" / "hub.md").write_text("[It](../README.md)\n")
        gate.read_pages(self.folder, account)
        self.assertEqual((1, ["page README.md"]), (account.passed, account.failed))

    def test_a_fault_is_a_failure(self):
        account = gate.Account()
        for fault in (None, "differs"):
            gate.tell(f"it {fault}", fault, account)
        self.assertEqual((1, ["it differs"]), (account.passed, account.failed))


class FromOutside(unittest.TestCase):
    def test_parts_run_beside_each_other_and_their_cases_come_in_order(self):
        both = threading.Barrier(2, timeout=30)

        def part(name: str) -> list[outside.Case]:
            both.wait()
            return [(f"{name} 1", None), (f"{name} 2", name)]

        found = list(outside.in_lanes([lambda: part("a"), lambda: part("b"), lambda: []]))
        self.assertEqual([("a 1", None), ("a 2", "a"), ("b 1", None), ("b 2", "b")], found)

    def test_a_part_that_breaks_off_is_told(self):
        with self.assertRaises(OSError):
            list(outside.in_lanes([lambda: [("a", None)], lambda: os.stat("/nowhere") and []]))


class TheAccount(unittest.TestCase):
    def test_rows_and_sums(self):
        account = gate.Account(proof={"a": 60.0, "b": 30.0}, tests={"b": 90.0}, edits={"a": 6.0}, rest=12.0)
        rows = [row.split() for row in account.rows(["a", "b"])]
        self.assertEqual(["a", "1.0", "0.0", "0.1", "1.1"], rows[1])
        self.assertEqual(["b", "0.5", "1.5", "0.0", "2.0"], rows[2])
        self.assertEqual(["all", "crates", "1.5", "1.5", "0.1", "3.1"], rows[3])
        self.assertEqual(["all", "3.3"], rows[-1])

    def test_a_command_costs_what_it_uses(self):
        ran = measure.run([sys.executable, "-c", "sum(range(10**7)); print('done')"], Path("/"))
        self.assertEqual((0, "done\n"), (ran.status, ran.text))
        self.assertTrue(0.05 < ran.seconds < 60 and ran.peak > 1_000_000, ran)

    def test_a_check_and_its_forks_are_counted_once(self):
        work = "import os, time; here = os.fork(); sum(range(3 * 10**7)); here and os.wait(); time.sleep(2 if here else 0)"
        check = f"bash -c 'exec -a rattle {sys.executable} -c \"{work}\" --crate-name low'"
        ran, costs = measure.watch(["bash", "-c", f"{check}; {check}; true"], Path("/"), lambda line: None)
        self.assertEqual([("low", False)], list(costs.seconds))
        self.assertAlmostEqual(1, costs.seconds["low", False] / ran.seconds, delta=0.2)

    def test_what_has_ended_is_no_longer_running(self):
        measure.run(["true"], Path("/"))
        self.assertEqual(set(), measure.RUNNING.groups)


if __name__ == "__main__":
    unittest.main()
