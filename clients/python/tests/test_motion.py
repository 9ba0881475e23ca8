"""The velocities of `Atoms`, which become the frame of the step before.

The box is 256 wide, so a ring unit is 2^-24. With epsilon and mass 1 and h = 2^20 the time step is 2^-6 of the unit of ASE:
a velocity of 1 is a displacement of 2^18 ring units for each step.
"""
import random
import unittest
from unittest import mock
from typing import Any, Dict, List

from ljclient import Measurement, connect, run, units
from support import DIMER, EXAMPLES, PROGRAM, TOKEN, Alone, Server, listed, present

try:
    import ase
    import ase.io
    import ase.units
except ImportError:
    ase = None

SCALE: Dict[str, Any] = {"sigma": 1, "h": 2**20, "epsilon": 1, "mass": 1}
FAR = [[0, 0, 0], [100, 0, 0]]
CLASS = (1, 2**20, 256)


class Stand:
    """Speaks as an `Atoms` of ASE does, in a box of 256."""

    def __init__(self, positions: Any, velocities: Any) -> None:
        self.positions = positions
        self.velocities = velocities

    def get_chemical_symbols(self) -> Any:
        return ["Ar"] * len(self.positions)

    def get_positions(self) -> Any:
        return self.positions

    def get_cell(self) -> List[Any]:
        return [[256, 0, 0], [0, 256, 0], [0, 0, 256]]

    def get_velocities(self) -> Any:
        return self.velocities


class Velocities(Alone):
    def load(self, velocities: Any, name: str = "a", positions: Any = FAR, **words: Any) -> Any:
        return self.user.load(name, Stand(positions, velocities), **{**SCALE, **words})

    def test_atoms_go_on_with_their_velocities(self) -> None:
        a = self.load([[1, 0, -2], [0, 0.5, 0]])
        self.assertEqual(a.measure().momentum, (2**18, 2**17, -(2**19)))
        a.advance(2)
        self.assertEqual((a.place(0), a.place(1)), ((2**19, 0, 2**32 - 2**20), (100 * 2**24, 2**18, 0)))

    def test_what_was_rounded_is_told(self) -> None:
        a = self.load([[5.25 / 2**18, -0.75 / 2**18, 0], [0, 0, 0.25 / 2**18]])
        self.assertEqual(a.measure(), Measurement(0, 2, (5, -1, 0), 26, 0))
        self.assertEqual(a.motion.displacements, ((5, -1, 0), (0, 0, 0)))
        # The unit of time of ASE is 10.18 fs, so a ring unit for each step is 2^-18 / 10.18 angstrom / fs.
        self.assertAlmostEqual(a.motion.unit * 2**18, 1 / 10.180505671, places=9)
        self.assertAlmostEqual(a.motion.largest_error / a.motion.unit, 0.25, places=6)
        told = "2 velocities, rounded to multiples of 3.75e-07 angstrom / fs: off by 9.37e-08 at most along an axis"
        self.assertEqual(str(a.motion), told)

    def test_atoms_at_rest(self) -> None:
        for number, velocities in enumerate([[[0, 0, 0]] * 2, None]):
            a = self.user.load(f"a{number}", Stand(FAR, velocities), sigma=1, h=2**20)
            self.assertEqual((a.measure().kinetic, a.motion), (0, None))
        self.assertIsNone(self.user.load("b", DIMER, edge=256, **SCALE).motion)

    def test_the_atoms_before_go_before_velocities(self) -> None:
        before = "2\n\nAr -0.25 0 0\nAr 100 0 0\n"
        self.assertEqual(self.load([[1, 1, 1]] * 2, before=before).measure().momentum, (2**22, 0, 0))

    def test_many_are_under_way_at_once(self) -> None:
        grid = [[16 * x, 16 * y, 16 * z] for x in range(16) for y in range(16) for z in range(16)]
        with mock.patch.object(self.user._wire, "ask_all", wraps=self.user._wire.ask_all) as asked:
            a = self.load([[1, 0, 0]] * 4096, positions=grid)
            self.assertLess(asked.call_count, 4)
        self.assertEqual(a.measure().momentum, (4096 * 2**18, 0, 0))

    def test_velocities_that_do_not_fit(self) -> None:
        self.load([[1, 0, 0]] * 2)
        cases: List[Any] = [
            ([[0, 0, 0], [0, 8192, 0]], {}, "velocity of atom 1 must be below half the box in a step"),
            ([[float("nan"), 0, 0], [0, 0, 0]], {}, "velocity of atom 0 must be below half the box in a step"),
            ([[1, 0, 0]] * 2, {"epsilon": None}, "epsilon and mass must be given for atoms with velocities"),
            ([[1, 0, 0]] * 2, {"edge": 0}, "edge must be a finite number above 0"),
            ([[1, 0, 0]] * 2, {"h": 0}, "dt must be a finite number above 0"),
        ]
        for velocities, words, told in cases:
            with self.subTest(words), self.assertRaisesRegex(ValueError, told):
                self.load(velocities, replace=True, **words)
        self.assertEqual(self.user.session("a").measure().momentum, (2**19, 0, 0))
        self.assertEqual(self.load([[8191, 0, 0]] * 2, "b").measure().momentum[1:], (0, 0))

    def test_they_come_in_one_command(self) -> None:
        with mock.patch.object(self.user._wire, "ask_all", wraps=self.user._wire.ask_all) as asked:
            self.load([[1, 0, 0]] * 2)
        lines = [line for call in asked.call_args_list for line, _ in call.args[0]]
        self.assertEqual([line.split()[0] for line in lines], ["LOAD"])
        self.assertEqual(lines[0].split()[5], "pair")

    def test_a_box_in_which_places_have_no_coordinate_of_their_own(self) -> None:
        """In a box below 4.29 of the file's unit the atoms are loaded in that which shows each ring unit."""
        near = [[0, 0, 0], [1.5, 0, 0]]
        a = self.user.load("a", Stand(near, [[0.001, 0, 0]] * 2), edge=3.0, sigma=0.5, epsilon=1, mass=1, h=2**20)
        # The unit of time is sigma, so the time step is 2^-7: 0.001 * 2^-7 * 2^32 / 3 is 11184.8.
        self.assertEqual(a.measure().momentum, (2 * 11185, 0, 0))
        self.assertEqual((listed(a.places()), a.order.on_ring), ([(0, 0, 0), (2**31, 0, 0)], True))
        self.assertEqual([list(each) for each in a.positions()], near)

    def test_mixtures(self) -> None:
        words: Dict[str, Any] = {"species": ("Ar", "Kr"), "classes": [CLASS] * 3, "epsilon": 1, "mass": 1}
        m = self.user.load_mix("m", Stand(FAR, [[1, 0, 0]] * 2), **words)
        self.assertEqual((m.measure().momentum, present(m.motion).largest_error), ((2**19, 0, 0), 0))


class Served(unittest.TestCase):
    def test_a_server(self) -> None:
        with Server() as server, connect("127.0.0.1", server.port, "ann", TOKEN) as user:
            a = user.load("a", Stand(FAR, [[1, 0, 0]] * 2), **SCALE)
            self.assertEqual(a.measure().momentum, (2**19, 0, 0))


@unittest.skipIf(ase is None, "ASE is not installed")
class WithAse(unittest.TestCase):
    def setUp(self) -> None:
        random.seed(1)
        self.atoms = ase.io.read(EXAMPLES / "argon_256.xyz", format="xyz")
        self.atoms.set_cell([21.04] * 3)
        speeds = [[random.gauss(0, (115.8 * ase.units.kB / 39.948) ** 0.5) for _ in range(3)] for _ in self.atoms]
        self.atoms.set_masses([39.948] * 256)
        self.atoms.set_velocities(speeds)

    def test_the_temperature_stays(self) -> None:
        with run(PROGRAM) as user:
            argon = user.load("argon", self.atoms, dt=10, **units.ARGON)
            wanted = self.atoms.get_temperature()
            self.assertGreater(wanted, 100)
            self.assertAlmostEqual(argon.measure().temperature / wanted, 1, places=5)
            self.assertLess(present(argon.motion).largest_error, 1e-6 * abs(self.atoms.get_velocities()).max())

    def test_velocities_may_be_taken_away(self) -> None:
        with run(PROGRAM) as user:
            with self.assertRaisesRegex(ValueError, r"atoms.set_momenta\(None\) takes velocities away"):
                user.load("argon", self.atoms, sigma=3.4, h=131072)
            self.atoms.set_momenta(None)
            self.assertEqual(user.load("argon", self.atoms, sigma=3.4, h=131072).measure().kinetic, 0)


if __name__ == "__main__":
    unittest.main()
