"""Work beside other work: what may begin is begun where there is room, the rest is left, and what fails is told."""

import threading
import unittest

from checks.beside import Beside, Idle, side_by_side
from checks.test_gate import wait_for


class Steady:
    """A machine of which so many processors are always idle."""

    def __init__(self, idle: float) -> None:
        self.idle = idle

    def processors(self) -> float:
        return self.idle


def over(pieces: list, idle: float, work, has_room=lambda piece: True) -> Beside:
    """Work on these pieces, of which `b` may never begin."""
    beside = Beside(pieces, lambda piece: piece != "b", has_room, work, every=0.01)
    beside.idle = Steady(idle)
    beside.start()
    return beside


class WorkBeside(unittest.TestCase):
    def test_what_may_begin_is_done_and_the_rest_is_left(self):
        done = []
        beside = over(["a", "b", "c"], 1.5, done.append)
        self.assertTrue(wait_for(lambda: sorted(done) == ["a", "c"], 10), done)
        self.assertEqual(["b"], beside.end())
        beside.wait()

    def test_nothing_begins_on_a_busy_machine_or_without_room(self):
        for idle, has_room in ((0.9, lambda piece: True), (4.0, lambda piece: False)):
            done = []
            beside = over(["a"], idle, done.append, has_room)
            self.assertFalse(wait_for(lambda: done, 0.2))
            self.assertEqual(["a"], beside.end())

    def test_what_fails_is_told(self):
        began = []

        def fail(piece) -> None:
            began.append(piece)
            raise OSError(piece)

        beside = over(["a"], 1.0, fail)
        self.assertTrue(wait_for(lambda: began, 10))
        beside.end()
        self.assertRaises(OSError, beside.wait)

    def test_idle_processors_are_counted(self):
        idle = Idle()
        wait_for(lambda: False, 0.1)
        self.assertTrue(0 <= idle.processors() < 10_000)


class SideBySide(unittest.TestCase):
    def test_all_is_done_and_no_more_at_a_time_than_memory_holds(self):
        lock, now, most, done = threading.Lock(), [0], [0], []

        def work(piece: int) -> None:
            with lock:
                now[0] += piece
                most[0] = max(most[0], now[0])
            threading.Event().wait(0.02)
            with lock:
                now[0] -= piece
                done.append(piece)

        side_by_side([8, 4, 4, 3, 1], lambda piece: piece, 10, work)
        self.assertEqual([1, 3, 4, 4, 8], sorted(done))
        self.assertLessEqual(most[0], 8.5)

    def test_what_no_memory_holds_is_done_alone(self):
        done = []
        side_by_side(["large"], lambda piece: 20, 10, done.append)
        self.assertEqual(["large"], done)

    def test_what_fails_is_told(self):
        with self.assertRaises(ZeroDivisionError):
            side_by_side([0], lambda piece: 1, 10, lambda piece: 1 // piece)
