"""Programs of `run` that have had half of their commands: the sessions move to another one, with what is saved in them.

They have 10,000 commands here in place of a million. What is expected is what a session does that has not moved.
"""
import unittest
from unittest import mock
from typing import Any

from ljclient import run, user as users
from support import ARGON, DIMER, EXAMPLES, PROGRAM, go_on_alike, listed


class Moves(unittest.TestCase):
    def setUp(self) -> None:
        stays = run(PROGRAM)
        self.addCleanup(stays.close)
        self.direct = stays.load("argon", EXAMPLES / "argon_256.xyz", **ARGON)
        patch = mock.patch.object(users, "MAX_ITEMS", 10_000)
        patch.start()
        self.addCleanup(patch.stop)
        self.other = run(PROGRAM)
        self.addCleanup(self.other.close)
        self.moving = self.other.load("argon", EXAMPLES / "argon_256.xyz", **ARGON)
        self.first = self.other._wire

    def spend(self, number: int = 5000) -> None:
        self.other.ask_all(["LIST"] * number)

    def same(self, one: Any, other: Any) -> None:
        go_on_alike(self, one, other)

    def test_one_program_after_the_other(self) -> None:
        still = self.other.load("still", EXAMPLES / "argon_256.xyz", **ARGON)
        places, programs = listed(still.places()), set()
        for _ in range(40):
            self.spend(500)
            self.assertEqual(self.moving.advance(1), self.direct.advance(1))
            self.assertEqual([listed(each.places()) for each in (self.moving, still)], [listed(self.direct.places()), places])
            programs.add(self.other._wire)
        self.assertGreater(len(programs), 2)
        self.assertEqual(sum(wire.closed for wire in programs), len(programs) - 1)
        self.assertEqual((still.get_step(), still.measure().kinetic, still.advance(40)), (0, 0, 40))
        self.same(self.moving, self.direct)
        self.same(still, self.direct)

    def test_what_is_saved_comes_along(self) -> None:
        for each in (self.direct, self.moving):
            each.advance(10)
            each.branch("early")
            each.tug(5, (1, 2, 3))
            each.advance(20)
            each.branch("late")
            self.assertEqual((each.reverse(), each.advance(40)), (29, -11))
        self.spend()
        self.same(self.direct, self.moving)
        self.assertIsNot(self.other._wire, self.first)
        self.assertEqual(self.moving.order.on_ring, True)
        self.assertEqual(self.moving.saved(), [("early", 10), ("late", 30)])
        for name in ("early", "late", "early"):
            self.assertEqual(self.moving.restore(name), self.direct.restore(name))
            self.same(self.direct, self.moving)
        self.assertEqual((self.moving.restore("late"), self.direct.restore("late")), (30, 30))
        for each in (self.direct, self.moving):
            each.forget("early")
            self.assertEqual(each.branch("next"), 30)
        self.spend()
        self.assertEqual(self.moving.saved(), self.direct.saved())
        self.assertEqual((self.moving.restore("next"), self.direct.restore("next")), (30, 30))
        self.same(self.direct, self.moving)

    def test_the_new_program_does_not_take_them(self) -> None:
        for each in (self.direct, self.moving):
            each.advance(10)
            each.reverse()
            each.branch("k")
            each.advance(30)
            each.reverse()
        for restart in (lambda: run(PROGRAM, atoms=1)._wire, lambda: run(PROGRAM, branches=0)._wire, lambda: run("/none")):
            with mock.patch.object(self.other, "_restart", restart):
                self.spend()
                self.assertIs(self.other._wire, self.first)
                self.same(self.direct, self.moving)
                self.assertEqual(self.moving.saved(), self.direct.saved())
        self.assertEqual((self.moving.restore("k"), self.direct.restore("k")), (9, 9))
        self.same(self.direct, self.moving)

    def test_sessions_that_the_client_has_not_loaded_stay(self) -> None:
        self.other.ask(f"LOAD a 256 1 131072 rest {len(DIMER)}", DIMER.encode())
        self.spend(9000)
        self.assertEqual((self.other.session("a").advance(2), self.other.session("a").place(0)), (2, (1774, 0, 0)))
        self.assertIs(self.other._wire, self.first)
        self.other.session("a").drop()
        self.other.sessions()
        self.same(self.direct, self.moving)

    def test_what_was_started_is_not_waited_for(self) -> None:
        self.moving.start(2000)
        self.spend()
        self.assertEqual((self.moving.get_target(), self.other._wire), (2000, self.first))
        self.assertEqual(self.moving.get_step(), 2000)
        self.spend(1000)
        self.assertIsNot(self.other._wire, self.first)
        self.assertEqual((self.moving.get_target(), self.moving.order.step), (2000, 2000))


if __name__ == "__main__":
    unittest.main()
