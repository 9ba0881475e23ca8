"""Each command over a program of its own. The values are those of two atoms, worked out by hand (see DIMER_SCALE).

The box is 2^32 units wide and sigma is 2^24 of them. Atoms 0 and 1 stand at 0 and 25165824, in bin 288 of the table of
pushes, whose entry is -12876994: the push is 12876994 * 1.5 / 2^15 = 589 toward zero. One step later the distance is
25164646, bin 287, entry -13028153: the push is 13028153 * 25164646 / 2^39 = 596, so atom 0 comes to 2 * 589 + 596 = 1774.
"""
import os
import random
import tempfile
import time
import unittest
from typing import Any, Callable, List

from ljclient import ConnectionLost, Measurement, Saved, distance, least_images, refusals, run
from support import DIMER_SCALE, EXAMPLES, PROGRAM, SECONDS, Alone, dimer, interrupted_when, is_running, listed, process_of


class Commands(Alone):
    def test_two_steps_of_two_atoms(self) -> None:
        self.assertEqual(12876994 * 3 // 2 >> 15, 589)
        self.assertEqual(13028153 * 25164646 >> 39, 596)
        a = dimer(self.user)
        self.assertEqual((a.name, a.get_step(), a.n_atoms), ("a", 0, 2))
        self.assertEqual(listed(a.places()), [(0, 0, 0), (25165824, 0, 0)])
        self.assertEqual(a.advance(1), 1)
        self.assertEqual(listed(a.places()), [(589, 0, 0), (25165824 - 589, 0, 0)])
        self.assertEqual(a.advance(1), 2)
        self.assertEqual(a.place(0), (1774, 0, 0))
        self.assertEqual(a.place(1), (25164050, 0, 0))
        self.assertEqual(a.get_step(), 2)

    def test_measure(self) -> None:
        a = dimer(self.user)
        self.assertEqual(a.measure(), Measurement(0, 2, (0, 0, 0), 0, -5349132))
        a.advance(1)
        a.tug(0, (5, 0, -7))
        # The displacements are 589 + 5 and -7 of atom 0, and -589 of atom 1.
        seen = a.measure()
        self.assertEqual((seen.step, seen.atoms, seen.momentum), (1, 2, (5, 0, -7)))
        self.assertEqual((seen.kinetic, seen.potential), (594**2 + 49 + 589**2, -5399727))
        self.assertEqual(seen.potential_energy, -5399727 / 2**24)
        self.assertAlmostEqual(seen.kinetic_energy, (594**2 + 49 + 589**2) / 2**34, places=18)

    def test_temperature_in_kelvin(self) -> None:
        a = dimer(self.user, epsilon=0.0103, mass=40)
        a.tug(0, (2**20, 0, 0))
        # 2^20 units are 2^-4 sigma, in 2^-7.5 of the time unit: v^2 = 2^7, 1/2 v^2 = 64 epsilon, for two atoms 64 / 3 each.
        self.assertAlmostEqual(a.measure().kinetic_energy, 64, places=9)
        self.assertAlmostEqual(a.measure().temperature, 64 / 3 * 0.0103 / 8.617333262e-5, places=6)

    def test_positions(self) -> None:
        a = dimer(self.user)
        a.advance(1)
        seen = [tuple(float(part) for part in position) for position in a.positions()]
        self.assertEqual(seen, [(589 / 2**24, 0, 0), ((25165824 - 589) / 2**24, 0, 0)])

    def test_reverse_and_back_to_the_start(self) -> None:
        a = dimer(self.user)
        a.advance(2)
        self.assertEqual(a.reverse(), 1)
        self.assertEqual(a.place(0), (589, 0, 0))
        self.assertEqual(a.advance(2), -1)
        self.assertEqual(a.reverse(), 0)
        self.assertEqual(listed(a.places()), [(0, 0, 0), (25165824, 0, 0)])

    def test_branches(self) -> None:
        a = dimer(self.user)
        a.advance(1)
        self.assertEqual(a.branch("k"), 1)
        self.assertEqual(a.advance(1), 2)
        self.assertEqual(a.branch("later"), 2)
        self.assertEqual(a.saved(), [("k", 1), ("later", 2)])
        self.assertEqual(a.saved()[0], Saved(name="k", step=1))
        self.assertEqual(a.restore("k"), 1)
        self.assertEqual(a.place(0), (589, 0, 0))
        self.assertIsNone(a.forget("k"))
        self.assertEqual(a.saved(), [("later", 2)])

    def test_a_tug(self) -> None:
        a = dimer(self.user)
        a.advance(1)
        self.assertEqual(a.tug(0, (5, 0, 0)), 1)
        a.advance(1)
        self.assertEqual(a.place(0), (1774 + 5, 0, 0))
        a.tug(1, (-2147483648, 2147483647, 0))
        self.assertEqual(a.measure().momentum[1], 2147483647)

    def test_dump_and_write(self) -> None:
        a = dimer(self.user)
        a.advance(2)
        # 1774 / 2^24 = 0.00010574 and 25164050 / 2^24 = 1.49989426, rounded down to six decimals.
        text = "2\nstep 2\nAr 0.000105 0.000000 0.000000\nAr 1.499894 0.000000 0.000000\n"
        self.assertEqual(a.dump(), text)
        self.assertEqual(a.symbols(), ["Ar", "Ar"])
        with tempfile.TemporaryDirectory() as folder:
            path = os.path.join(folder, "frame.xyz")
            a.write(path)
            with open(path, "rb") as file:
                self.assertEqual(file.read(), text.encode())

    def test_sessions(self) -> None:
        self.assertEqual(self.user.sessions(), [])
        a, b = dimer(self.user), self.user.load("b", [("X", 1, 1, 1)], **DIMER_SCALE)
        a.advance(3)
        a.branch("k")
        self.assertEqual(self.user.sessions(), [("a", 3, 2, 1), ("b", 0, 1, 0)])
        self.assertEqual(self.user.session("b").place(0), (1 << 24,) * 3)
        self.assertEqual(self.user.session("b").scale, b.scale)
        a.drop()
        self.assertEqual([row.name for row in self.user.sessions()], ["b"])
        for gone in (a.reverse, a.measure, a.places, lambda: a.get_step(), lambda: self.user.session("a")):
            with self.assertRaises(refusals.NoSession):
                gone()

    def test_replace(self) -> None:
        dimer(self.user).advance(5)
        with self.assertRaises(refusals.Exists):
            dimer(self.user)
        self.assertEqual(dimer(self.user, replace=True).get_step(), 0)
        self.assertEqual(dimer(self.user, "b", replace=True).get_step(), 0)
        self.assertEqual(len(self.user.sessions()), 2)

    def test_before_gives_the_motion(self) -> None:
        # One unit is 2^-24 of sigma, so the atom goes on by 2^24 * 0.25 = 4194304 units in each step.
        b = self.user.load("b", "1\n\nH 1 0 0\n", before="1\n\nH 0.75 0 0\n", edge=256, sigma=1, h=1)
        self.assertEqual(b.measure().momentum, (4194304, 0, 0))
        b.advance(2)
        self.assertEqual(b.place(0), (3 * 4194304 * 2, 0, 0))

    def test_a_scale_that_is_not_known(self) -> None:
        dimer(self.user)
        self.user._forget("a")
        a = self.user.session("a")
        self.assertEqual(a.place(1), (25165824, 0, 0))
        with self.assertRaisesRegex(ValueError, "scale of the session must be known"):
            a.positions()
        with self.assertRaises(ValueError):
            self.user.session("a", edge=256)
        self.assertEqual(float(self.user.session("a", **DIMER_SCALE).positions()[1][0]), 1.5)

    def test_words_that_are_no_numbers(self) -> None:
        a = dimer(self.user)
        acts: List[Callable[[], object]] = [
            lambda: a.advance(-1),
            lambda: a.place(-1),
            lambda: a.tug(-1, (0, 0, 0)),
            lambda: a.advance(1, piece=0),
        ]
        for wrong in acts:
            with self.assertRaises(ValueError):
                wrong()
        acts = [lambda: a.advance(1.5), lambda: a.tug(0, (0.5, 0, 0)), lambda: a.place("0")]
        for wrong in acts:
            with self.assertRaises(TypeError):
                wrong()
        self.assertEqual(a.measure().step, 0)


class ThereAndBack(Alone):
    def test_argon_goes_back_to_the_bit(self) -> None:
        argon = self.user.load("argon", EXAMPLES / "argon_256.xyz", edge=21.04, sigma=3.4, h=131072)
        rng = random.Random(1)
        for atom in range(256):
            argon.tug(atom, [rng.randint(-(2**20), 2**20) for _ in range(3)])
        start, measured = listed(argon.places()), argon.measure()
        argon.advance(300)
        self.assertGreater(distance(argon.places(), start), 2**20)
        argon.reverse()
        argon.advance(300)
        argon.reverse()
        self.assertEqual((argon.get_step(), listed(argon.places()), argon.measure()), (0, start, measured))

    def test_pieces_change_nothing(self) -> None:
        a, b = (self.user.load(name, EXAMPLES / "argon_256.xyz", edge=21.04, sigma=3.4, h=131072) for name in "ab")
        self.assertEqual(a.advance(60, piece=60), 60)
        self.assertEqual(b.advance(60, piece=7), 60)
        self.assertEqual(listed(a.places()), listed(b.places()))

    def test_no_steps(self) -> None:
        a = dimer(self.user)
        a.advance(1)
        self.assertEqual(a.advance(0), 1)

    def test_more_steps_than_one_command_takes(self) -> None:
        b = self.user.load("b", "1\n\nH 1 0 0\n", edge=256, sigma=1, h=1)
        self.assertEqual(b.advance(1_000_005), 1_000_005)


class SideBySide(Alone):
    def setUp(self) -> None:
        super().setUp()
        self.a, self.b, self.c = (dimer(self.user, name) for name in "abc")

    def test_a_start_is_answered_at_once(self) -> None:
        self.assertEqual([self.a.start(2), self.b.start(1), self.a.start(1), self.a.start(0)], [2, 1, 3, 3])
        self.assertEqual([self.a.get_target(), self.b.get_target(), self.c.get_target()], [3, 1, 0])
        self.assertEqual([row.step for row in self.user.sessions()], [3, 1, 0])

    def test_what_is_of_a_session_waits_until_it_is_there(self) -> None:
        self.assertEqual((self.a.start(2), self.b.start(1)), (2, 1))
        self.assertEqual((self.b.place(0), self.c.place(0), self.a.place(0)), ((589, 0, 0), (0, 0, 0), (1774, 0, 0)))
        self.a.start(1)
        self.assertEqual((self.a.get_step(), self.a.get_target()), (3, 3))
        self.b.start(1)
        self.assertEqual(self.b.measure(), Measurement(2, 2, (0, 0, 0), 2808450, -5399727))
        self.c.start(2)
        self.assertEqual((self.c.branch("k"), self.c.reverse(), self.c.start(1), self.c.get_step()), (2, 1, 0, 0))

    def test_more_steps_than_one_command_takes(self) -> None:
        self.assertEqual(self.a.start(2_000_005), 2_000_005)
        self.assertEqual(self.a.start(1_000_000), 3_000_005)

    def test_several_go_on_at_the_same_time(self) -> None:
        self.assertEqual(self.user.advance([self.a, self.b, self.c], [2, 1, 0], piece=1), [2, 1, 0])
        self.assertEqual([session.place(0)[0] for session in (self.a, self.b, self.c)], [1774, 589, 0])
        self.assertEqual(self.user.advance([self.c, self.b], 1), [1, 2])
        self.assertEqual([session.place(0)[0] for session in (self.a, self.b, self.c)], [1774, 1774, 589])
        self.assertEqual(self.user.advance([self.a], 40), [42])
        self.assertEqual(self.user.advance([], 40), [])

    def test_several_at_once_are_as_each_alone(self) -> None:
        pair = [self.user.load(name, EXAMPLES / "argon_256.xyz", edge=21.04, sigma=3.4, h=131072) for name in "de"]
        pair[1].tug(0, (2**20, 0, 0))
        alone = self.user.load("f", EXAMPLES / "argon_256.xyz", edge=21.04, sigma=3.4, h=131072)
        self.assertEqual(self.user.advance(pair, [30, 40], piece=7), [30, 40])
        alone.advance(30)
        self.assertEqual(listed(pair[0].places()), listed(alone.places()))

    def test_numbers_of_steps(self) -> None:
        with self.assertRaises(ValueError):
            self.a.start(-1)
        numbers: List[Any] = [-1, [1, 2]]
        for steps in numbers:
            with self.assertRaises(ValueError):
                self.user.advance([self.a], steps)
        with self.assertRaises(TypeError):
            self.a.start(1.5)
        self.c.drop()
        acts: List[Callable[[], object]] = [
            lambda: self.c.start(1),
            lambda: self.c.get_target(),
            lambda: self.user.advance([self.a, self.c], 1),
        ]
        for gone in acts:
            with self.assertRaises(refusals.NoSession):
                gone()
        # The other session has made its step all the same.
        self.assertEqual(self.a.get_step(), 1)


class Interrupts(Alone):
    def test_a_run_can_be_interrupted_and_undone(self) -> None:
        a = dimer(self.user)
        told: List[Any] = []
        with interrupted_when(lambda: any(told)):
            a.advance(10**7, progress=lambda done, total: told.append(done))
        step = a.get_step()
        self.assertGreater(step, 0)
        self.assertLess(step, 10**7)
        a.reverse()
        a.advance(step)
        self.assertEqual((a.reverse(), listed(a.places())), (0, [(0, 0, 0), (25165824, 0, 0)]))

    def test_an_interrupt_from_the_keyboard_is_not_the_program_s(self) -> None:
        self.assertNotEqual(os.getpgid(process_of(self.user)), os.getpgid(0))


class ManyShows(Alone):
    def test_places_of_a_large_crystal(self) -> None:
        path = EXAMPLES / "argon_4000.xyz"
        crystal = self.user.load("crystal", path, edge=52.6, sigma=3.4, h=131072)
        start = time.monotonic()
        places = listed(crystal.places())
        self.assertLess(time.monotonic() - start, SECONDS)
        rows = [line.split()[1:4] for line in path.read_text().splitlines()[2:]]
        # A place is floor(q 2^32 / E) on the ring, with q and E in 10^-9 of an angstrom.
        wanted = [tuple(round(float(word) * 10**9) * 2**32 // 52_600_000_000 % 2**32 for word in row) for row in rows]
        self.assertEqual(places, wanted)

    def test_thousands_of_commands_under_way(self) -> None:
        a = dimer(self.user)
        replies = self.user.ask_all(f"SHOW a {number % 2}" for number in range(30_000))
        self.assertEqual([reply.words for reply in replies[:2]], ["SHOW a 0 0 0 0 0".split(), "SHOW a 0 1 25165824 0 0".split()])
        self.assertEqual({reply.words[4] for reply in replies[::2]}, {"0"})
        self.assertEqual({reply.words[4] for reply in replies[1::2]}, {"25165824"})
        self.assertEqual(len(replies), 30_000)
        self.assertEqual(a.get_step(), 0)


class Places(unittest.TestCase):
    def test_least_images(self) -> None:
        # Round a box of 2^32 units the nearer way; half a box is -2^31.
        seen = least_images([(1, 5, 0)], [(2**32 - 2, 3, 2**31)])
        self.assertEqual(listed(seen), [(3, 2, -(2**31))])

    def test_distance(self) -> None:
        # Two atoms, 3 and 4 units off: sqrt((9 + 16) / 2).
        self.assertEqual(distance([(0, 0, 0), (5, 0, 1)], [(2**32 - 3, 0, 0), (5, 0, 5)]), (25 / 2) ** 0.5)
        self.assertEqual(distance([], []), 0)


class Programs(unittest.TestCase):
    def test_the_program_ends_with_its_user(self) -> None:
        with run(PROGRAM) as user:
            pid = process_of(user)
            self.assertTrue(is_running(pid))
            dimer(user)
        self.assertFalse(is_running(pid))
        self.assertTrue(user.closed)

    def test_a_program_that_computes_is_ended(self) -> None:
        user = run(PROGRAM)
        pid = process_of(user)
        argon = user.load("argon", EXAMPLES / "argon_4000.xyz", edge=52.6, sigma=3.4, h=131072, watch=False)
        user._wire.timeout = 0.5
        start = time.monotonic()
        with self.assertRaisesRegex(TimeoutError, "nothing was heard for 0.5 s; `ADVANCE argon 1000000`"):
            argon.advance(1_000_000, piece=1_000_000)
        self.assertFalse(is_running(pid))
        user.close()
        self.assertLess(time.monotonic() - start, SECONDS)

    def test_a_program_that_is_killed(self) -> None:
        with run(PROGRAM) as user:
            os.kill(process_of(user), 9)
            with self.assertRaisesRegex(ConnectionLost, "has ended with status -9; `LIST` was not answered"):
                user.sessions()

    def test_quotas(self) -> None:
        with run(PROGRAM, sessions=1, atoms=3, branches=0) as user:
            a = dimer(user)
            with self.assertRaises(refusals.QuotaSessions):
                dimer(user, "b")
            with self.assertRaises(refusals.QuotaBranches):
                a.branch("k")

    def test_a_fault_leaves_no_process_behind(self) -> None:
        pid = None
        with self.assertRaises(ZeroDivisionError):
            with run(PROGRAM) as user:
                pid = process_of(user)
                1 / 0
        self.assertFalse(is_running(pid))


if __name__ == "__main__":
    unittest.main()
