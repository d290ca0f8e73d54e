"""Tests of how `bench/agree` makes a stream shorter that shows a difference."""

import unittest

from bench.shrinking import counted, shortest, with_body, without_parts
from checks.stores import get, post


class Shrinking(unittest.TestCase):
    def test_what_is_needed_is_left(self) -> None:
        for needed in ({0}, {99}, {3, 4}, {0, 50, 99}, set(range(0, 100, 7))):
            left = without_parts(list(range(100)), lambda some: needed <= set(some))
            self.assertEqual(sorted(needed), left)

    def test_where_all_are_needed_all_are_left(self) -> None:
        self.assertEqual([1, 2, 3], without_parts([1, 2, 3], lambda some: len(some) == 3))

    def test_nothing_is_left_where_nothing_is_needed(self) -> None:
        self.assertEqual([], without_parts([1, 2, 3], lambda some: True))

    def test_a_body_and_its_length(self) -> None:
        self.assertEqual(post(1001, 1, b"abc"), with_body(post(1001, 1, b"a longer one"), b"abc"))

    def test_lines_are_counted(self) -> None:
        given = [b"10,1,1001,1,2024-01-02\n", b"90,1002,1\n", b"11,I,2,101,1,2001-04-01,\n", b"24,D,5,L1\n", b"99,7\n", b"x"]
        wanted = [*given[:2], b"11,I,1,101,1,2001-04-01,\n", b"24,D,2,L1\n", b"99,2\n", b"x"]
        self.assertEqual(wanted, counted(given))

    def test_the_count_stays_where_the_difference_needs_it(self) -> None:
        file = b"11,I,1,101,1\n11,I,2,102,1\n99,9\n"
        left = shortest([post(1001, 1, file)], lambda some: b"99,9\n" in b"".join(some))
        self.assertEqual([post(1001, 1, b"99,9\n")], left)

    def test_requests_and_lines_go(self) -> None:
        requests = [get("/closed"), post(1001, 1, b"a\nb\nc\n"), get("/closed"), post(1001, 2, b"d\n"), get("/uprn/1")]
        left = shortest(requests, lambda some: b"b\n" in b"".join(some) and get("/uprn/1") in some)
        self.assertEqual([post(1001, 1, b"b\n"), get("/uprn/1")], left)


if __name__ == "__main__":
    unittest.main()
