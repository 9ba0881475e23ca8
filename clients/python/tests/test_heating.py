"""Velocities of a temperature, which `heat` gives."""
import math
import unittest
from typing import Any, Dict

from ljclient import heating, units
from support import DIMER_SCALE, EXAMPLES, RING, Alone, dimer, listed

ARGON: Dict[str, Any] = {"edge": 21.04, "dt": 10, **units.ARGON}
CRYSTAL = EXAMPLES / "argon_256.xyz"


class Heating(Alone):
    def argon(self, name: str = "argon", **words: Any) -> Any:
        return self.user.load(name, CRYSTAL, **{**ARGON, **words})

    def test_the_temperature_without_net_momentum(self) -> None:
        argon = self.argon()
        places = listed(argon.places())
        self.assertAlmostEqual(argon.heat(95, seed=3), 95, places=4)
        seen = argon.measure()
        self.assertEqual((seen.momentum, seen.step, listed(argon.places())), ((0, 0, 0), 0, places))
        # 3/2 N k_B T, with the masses and displacements in SI units: u of 1.66053906660e-27 kg, k_B of 1.380649e-23 J/K.
        speed_of_unit = 21.04e-10 / RING / (argon.dt * 1e-15)
        energy = seen.kinetic * speed_of_unit**2 * 39.948 * 1.66053906660e-27 / 2
        self.assertAlmostEqual(energy / (1.5 * 256 * 1.380649e-23 * 95), 1, places=5)

    def test_reduced_units(self) -> None:
        a = self.argon(h=131072, dt=None, epsilon=None, mass=None)
        self.assertAlmostEqual(a.heat(0.72), 0.72, places=6)

    def test_it_takes_the_place_of_the_motion_before(self) -> None:
        a, b = self.argon("a"), self.argon("b")
        a.tug(0, (10**6, -(10**6), 5))
        a.heat(50, seed=4)
        b.heat(50, seed=4)
        self.assertEqual(a.measure(), b.measure())
        a.advance(20)
        a.heat(120)
        self.assertAlmostEqual(a.measure().temperature, 120, places=4)
        self.assertEqual(a.measure().momentum, (0, 0, 0))
        self.assertEqual((a.heat(0), a.measure().kinetic), (0, 0))

    def test_seeds(self) -> None:
        places = []
        for name, seed in zip("abc", (1, 1, 2)):
            session = self.argon(name)
            session.heat(90, seed=seed)
            session.advance(1)
            places.append(listed(session.places()))
        self.assertEqual(places[0], places[1])
        self.assertNotEqual(places[0], places[2])

    def test_the_way_back(self) -> None:
        argon = self.argon()
        argon.heat(90)
        start = listed(argon.places())
        for _ in range(2):
            argon.advance(50)
            argon.reverse()
        self.assertEqual(listed(argon.places()), start)

    def test_two_species(self) -> None:
        pairs: Dict[str, Any] = {"first": (3.4, 0.0103), "second": (3.6, 0.0141), "mass": 48.0, "dt": 10}
        mix = self.user.load_mix("m", CRYSTAL.read_text().replace("Ar", "Kr", 100), edge=21.04, species=("Ar", "Kr"), **pairs)
        self.assertAlmostEqual(mix.heat(80), 80, places=4)

    def test_what_is_no_temperature(self) -> None:
        a = dimer(self.user)
        for wrong, told in [
            (-1, "a finite number from 0 on"),
            (math.nan, "a finite number from 0 on"),
            (math.inf, "a finite number from 0 on"),
            (1e12, "an atom would move by half the box or more in a step"),
        ]:
            with self.assertRaisesRegex(ValueError, told):
                a.heat(wrong)
        alone = self.user.load("b", "1\n\nAr 0 0 0\n", **DIMER_SCALE)
        with self.assertRaisesRegex(ValueError, "cannot heat a single atom"):
            alone.heat(1)
        self.assertEqual((alone.heat(0), a.measure().kinetic), (0, 0))


class Drawn(unittest.TestCase):
    def test_each_axis_is_drawn_from_the_same_normal_distribution(self) -> None:
        # Of 4,096 atoms with displacements of variance s^2 along each axis: the second moment is known to sqrt(2 / 4096), 2.2 in
        # 100, and the fourth, 3 s^4, to sqrt(96 / 4096) s^4, 5.1 in 100 of itself. Four of these are allowed.
        scale = units.Scale.of(256, 1, 131072)
        moved = heating.displacements(4096, 1.0, scale, seed=8)
        # s^2 is T h / 2^32 in sigma^2, and sigma is 2^24 ring units.
        square = 131072 / 2**32 * 2**48
        for axis in zip(*moved):
            self.assertEqual(sum(axis), 0)
            self.assertAlmostEqual(sum(part**2 for part in axis) / 4096 / square, 1, delta=0.09)
            self.assertAlmostEqual(sum(part**4 for part in axis) / 4096 / (3 * square**2), 1, delta=0.21)

    def test_what_is_left_of_rounding(self) -> None:
        scale = units.Scale.of(256, 1, 1)
        for seed in range(20):
            moved = heating.displacements(3, 1e-9, scale, seed)
            self.assertEqual([sum(axis) for axis in zip(*moved)], [0, 0, 0])


if __name__ == "__main__":
    unittest.main()
