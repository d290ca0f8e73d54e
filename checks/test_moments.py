"""Tests of `moments`: what a stop leaves is what the library leaves that stops a process; and of what is asked once."""

import os
import subprocess
import sys
import unittest
from dataclasses import replace
from pathlib import Path

from checks import moments
from checks.failing import SOURCE, Room
from checks.in_folder import InAFolder
from checks.moments import NONE, Watched, calls_in
from checks.preloading import library
from checks.test_troubled import WRITING

LEFT = {"all": None, "0 0": (0, 0), "1 0": (1, 0), "0 2": (0, 2), "9 9": (9, 9)}


class Moments(InAFolder):
    def setUp(self) -> None:
        super().setUp()
        self.failing = library(SOURCE, self.folder)

    def place(self) -> Path:
        return self.new_folder() / "store"

    def ran(self, store: Path, **env: str) -> None:
        env |= {"LD_PRELOAD": str(self.failing), "FAILING_STORE": str(store)}
        subprocess.run([sys.executable, "-S", "-c", WRITING, str(store.parent)], env=os.environ | env, capture_output=True)

    def watched(self) -> Watched:
        store, seen = self.place(), self.folder / "seen"
        self.ran(store, FAILING_SEEN=str(seen))
        return Watched(NONE, NONE, calls_in(seen.read_bytes()), b"", moments.held(store))

    def stopped(self, calls: str, left: str) -> moments.Files:
        store = self.place()
        self.ran(store, FAILING_CALLS=calls, FAILING_LEFT=left, FAILING_SYNCED=str(store.parent))
        return moments.held(store)

    def test_what_a_stop_leaves_is_known_from_a_run_without_one(self) -> None:
        watched = self.watched()
        self.assertTrue(watched.is_true)
        for which, count, them in (("both", 10, LEFT), ("log", 4, ["0 0"]), ("file", 6, ["0 0"])):
            for number in range(count):
                place = watched.call_behind(number, which)
                for left, blocks in ((it, LEFT[it]) for it in them):
                    self.assertEqual(self.stopped(f"{which} {number}", left), watched.left_at(place, blocks), (which, number, left))
            self.assertIsNone(watched.call_behind(count, which))

    def test_a_file_is_longer_where_it_is_written_behind_its_end(self) -> None:
        seen = b"w 1 0 3 2 2\nabc 1 0 1 0 2\nw 0 7 0 1 3\nxr 1 9 0 4 3\n"
        watched = Watched(NONE, NONE, calls_in(seen), b"told so far", (b"x", b"\0"))
        self.assertEqual([(None, b"\0\0\0ab"), (b"", b"\0"), (b"x", b"\0")], [watched.left_at(place, None) for place in (1, 2, 3)])
        self.assertEqual(b"told so f", watched.told_at(3))
        self.assertEqual([True, False], [replace(watched, last=(log, b"\0")).is_true for log in (b"x", b"y")])

    def test_what_was_there_at_first_is_put_back(self) -> None:
        first = (None, b"a" * 1024)
        watched = Watched(first, (b"", first[1]), calls_in(b"w 1 0 0 2 2\nbbr 1 0 0 0 2\n"), b"", NONE)
        self.assertEqual([first, (None, b"bb" + b"a" * 1022)], [watched.left_at(1, blocks) for blocks in ((0, 0), None)])

    def test_stores_that_were_left_alike_are_asked_once(self) -> None:
        room, asked = Room(*[self.folder] * 4), []
        stores = [self.place() for _ in range(3)]
        for store, files in zip(stores, ((b"", b"a"), (b"", b"a"), (None, b"a"))):
            moments.write(store, files)
            room.once(moments.digests(moments.held(store)), lambda: asked.append(files))
        self.assertEqual([(b"", b"a"), (None, b"a")], asked)


if __name__ == "__main__":
    unittest.main()
