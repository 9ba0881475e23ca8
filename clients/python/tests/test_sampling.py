"""What a session tells on its way. The values are those of the two atoms of test_commands, worked out by hand there.

At the steps 0, 1 and 2 atom 0 stands at 0, 589 and 1774, and atom 1 as far below 25165824. In a box of 256 a ring unit is
2^-24, and with h = 2^17 the kinetic number is 2^34 times the kinetic energy in epsilon.
"""
import math
import pathlib
import random
import tempfile
import unittest
from unittest import mock
from typing import Any, Callable, Dict, List

from ljclient import arrays, refusals, units
from support import EXAMPLES, Alone, dimer, folder_of, listed, present

try:
    import ase.io
except ImportError:
    ase = None

WAY = [[(0, 0, 0), (25165824, 0, 0)], [(589, 0, 0), (25165235, 0, 0)], [(1774, 0, 0), (25164050, 0, 0)]]
DISPLACED = [0, 589, 1774 - 589, 1774 - 589 + 596]  # of atom 0 in the half steps before the steps 0 to 3
KINETIC = [2 * moved**2 for moved in DISPLACED]  # kinetic numbers of these half steps
POTENTIAL = [-5349132, -5399727, -5399727]
DT = 2**-7.5


def floats(frame: Any) -> List[Any]:
    return [tuple(float(part) for part in position) for position in frame]


class Samples(Alone):
    def test_positions_on_the_way(self) -> None:
        a = dimer(self.user)
        steps, frames = a.sample(every=1, frames=3)
        self.assertEqual((steps, a.get_step()), ([0, 1, 2], 2))
        # Places by 2^24, rounded down to six decimals.
        wanted = [[tuple(math.floor(part / 2**24 * 10**6) / 10**6 for part in place) for place in frame] for frame in WAY]
        self.assertEqual([floats(frame) for frame in frames], wanted)
        self.assertEqual(wanted[2], [(0.000105, 0, 0), (1.499894, 0, 0)])

    def test_places_on_the_way(self) -> None:
        a = dimer(self.user)
        samples = a.sample(every=1, frames=3, exact=True)
        self.assertEqual((samples.steps, [listed(frame) for frame in samples.frames]), ([0, 1, 2], WAY))

    def test_every_second_step_and_back(self) -> None:
        a = dimer(self.user)
        self.assertEqual([listed(frame) for frame in a.sample(every=2, frames=2, exact=True).frames], [WAY[0], WAY[2]])
        a.reverse()
        steps, frames = a.sample(every=1, frames=2, exact=True)
        self.assertEqual((steps, [listed(frame) for frame in frames]), ([1, 0], [WAY[1], WAY[0]]))

    def test_one_command_for_each_frame(self) -> None:
        a = dimer(self.user)
        asked = self.user._wire.asked
        with mock.patch.object(type(a), "advance"):
            a.sample(every=100, frames=5)
        self.assertEqual(self.user._wire.asked, asked + 5)

    def test_arrays(self) -> None:
        a = dimer(self.user)
        with mock.patch.object(arrays, "numpy", None):
            self.assertIsInstance(a.sample(every=1, frames=2).frames, list)
        if arrays.numpy:
            self.assertEqual(a.sample(every=1, frames=2).frames.shape, (2, 2, 3))
            exact = a.sample(every=1, frames=3, exact=True).frames
            self.assertEqual((exact.shape, exact.dtype), ((3, 2, 3), arrays.numpy.int64))

    def test_how_far_it_is(self) -> None:
        told = []
        a = dimer(self.user)
        a.sample(every=2, frames=3, progress=lambda *numbers: told.append(numbers))
        self.assertEqual(told, [(0, 4), (2, 4), (2, 4), (4, 4)])
        told.clear()
        list(a.thermo(every=2, rows=3, progress=lambda *numbers: told.append(numbers)))
        self.assertEqual(told, [(1, 4), (2, 4), (3, 4), (4, 4)])

    def test_words_that_are_no_numbers(self) -> None:
        a = dimer(self.user)
        for word in ({"every": 0}, {"every": -1}, {"rows": 0}):
            with self.assertRaisesRegex(ValueError, "must be at least 1, got"):
                a.thermo(**{"every": 1, "rows": 1, **word})
        for word in ({"every": 0}, {"frames": 0}):
            with self.assertRaisesRegex(ValueError, "must be at least 1, got 0"):
                a.sample(**{"every": 1, "frames": 1, **word})
        with self.assertRaises(TypeError):
            a.sample(every=1.5, frames=2)
        a.drop()
        acts: List[Callable[[], object]] = [lambda: a.sample(1, 1), lambda: a.sample(1, 1, exact=True), lambda: list(a.thermo(1, 1))]
        for gone in acts:
            with self.assertRaises(refusals.NoSession):
                gone()


class Thermo(Alone):
    def test_energies_of_whole_steps(self) -> None:
        a = dimer(self.user)
        rows = list(a.thermo(every=1, rows=2))
        self.assertEqual([row.step for row in rows], [0, 1])
        for row, before, after, potential in zip(rows, KINETIC, KINETIC[1:], POTENTIAL):
            kinetic = (before + after) / 2 / 2**34
            self.assertAlmostEqual(row.kinetic, kinetic, delta=1e-12 * kinetic)
            self.assertEqual(row.potential, potential / 2**24)
            self.assertAlmostEqual(row.total, potential / 2**24 + kinetic, places=12)
            self.assertAlmostEqual(row.temperature, kinetic / 3, delta=1e-12 * kinetic)

    def test_it_stands_at_the_last_row(self) -> None:
        a = dimer(self.user)
        self.assertEqual([row.step for row in a.thermo(every=2, rows=2)], [0, 2])
        self.assertEqual((a.get_step(), listed(a.places())), (2, WAY[2]))
        b = dimer(self.user, "b")
        b.advance(2)
        self.assertEqual(a.measure(), b.measure())
        self.assertEqual((a.advance(7), listed(a.places())), (9, listed(b.places()) if b.advance(7) == 9 else []))

    def test_a_step_is_the_same_forth_and_back(self) -> None:
        a = dimer(self.user)
        forth = list(a.thermo(every=1, rows=2))
        a.advance(1)
        a.reverse()
        self.assertEqual(list(a.thermo(every=1, rows=2)), forth[::-1])
        self.assertEqual(a.get_step(), 0)

    def test_rows_come_one_by_one(self) -> None:
        a = dimer(self.user)
        with mock.patch.object(type(a), "advance", side_effect=ZeroDivisionError):
            rows = a.thermo(every=5, rows=3)
            self.assertEqual(next(rows).step, 0)
            with self.assertRaises(ZeroDivisionError):
                next(rows)

    def test_kelvin(self) -> None:
        a = dimer(self.user, epsilon=0.0103, mass=40)
        (row,) = a.thermo(every=1, rows=1)
        self.assertAlmostEqual(row.temperature / (589**2 / 2**34 / 3 * 0.0103 / 8.617333262e-5), 1, places=12)

    def test_a_scale_that_is_not_known(self) -> None:
        dimer(self.user)
        self.user._forget("a")
        a = self.user.session("a")
        acts: List[Callable[[], object]] = [lambda: a.thermo(1, 1), lambda: a.write_trajectory("/no/such/folder/x.xyz", 1, 1)]
        for wrong in acts:
            with self.assertRaisesRegex(ValueError, "scale of the session must be known"):
                wrong()
        self.assertEqual(floats(a.sample(every=1, frames=1).frames[0]), [(0, 0, 0), (1.5, 0, 0)])


class Trajectories(Alone):
    def setUp(self) -> None:
        super().setUp()
        self.path = folder_of(self) / "way.xyz"

    def test_the_text(self) -> None:
        a = dimer(self.user)
        a.write_trajectory(self.path, every=2, frames=2)
        frames = []
        for step, places in [(0, ["0.000000", "1.500000"]), (2, ["0.000105", "1.499894"])]:
            head = 'Lattice="256.0 0 0 0 256.0 0 0 0 256.0" Properties=species:S:1:pos:R:3:velo:R:3 pbc="T T T"'
            kinetic = (KINETIC[step] + KINETIC[step + 1]) / 2 / 2**34
            energies = f"energy={POTENTIAL[step] / 2**24!r} kinetic_energy={kinetic!r}"
            speed = (DISPLACED[step] + DISPLACED[step + 1]) / 2 / 2**24 / DT
            rows = [f"Ar {place} 0.000000 0.000000 {part:.9g} 0 0" for place, part in zip(places, (speed, -speed))]
            frames += ["2", f"{head} step={step} time={step * DT!r} {energies}", *rows]
        self.assertEqual(self.path.read_bytes(), "\n".join([*frames, ""]).encode())
        self.assertEqual(a.get_step(), 2)

    def test_femtoseconds(self) -> None:
        argon = self.user.load("argon", EXAMPLES / "argon_256.xyz", edge=21.04, dt=10, **units.ARGON)
        argon.write_trajectory(self.path, every=7, frames=2)
        heads = [line for line in self.path.read_text().splitlines() if line.startswith("Lattice")]
        self.assertEqual([head.split(" ")[-4] for head in heads], ["step=0", "step=7"])
        self.assertAlmostEqual(float(heads[1].split("time=")[1].split(" ")[0]), 70, places=3)

    def test_what_is_there_when_it_is_interrupted(self) -> None:
        a = dimer(self.user)
        with mock.patch.object(type(a), "advance", side_effect=[1, KeyboardInterrupt]), self.assertRaises(KeyboardInterrupt):
            a.write_trajectory(self.path, every=1, frames=5)
        self.assertEqual(len(self.path.read_text().splitlines()), 2 * 4)

    def test_a_file_is_left_alone_by_what_cannot_be_written(self) -> None:
        self.path.write_text("of before")
        a = dimer(self.user)
        with self.assertRaises(ValueError):
            a.write_trajectory(self.path, every=0, frames=1)
        self.user._forget("a")
        with self.assertRaises(ValueError):
            self.user.session("a").write_trajectory(self.path, every=1, frames=1)
        self.assertEqual(self.path.read_text(), "of before")

    @unittest.skipIf(ase is None, "ASE is not installed")
    def test_ase_reads_it(self) -> None:
        argon = self.user.load("argon", EXAMPLES / "argon_256.xyz", edge=21.04, dt=10, **units.ARGON)
        argon.tug(5, (2**22, 0, 0))
        argon.write_trajectory(self.path, every=10, frames=3)
        frames = ase.io.read(self.path, index=":")
        self.assertEqual([frame.info["step"] for frame in frames], [0, 10, 20])
        for frame in frames:
            self.assertAlmostEqual(frame.info["time"], 10 * frame.info["step"], places=3)
            self.assertEqual(frame.cell.tolist(), [[21.04, 0, 0], [0, 21.04, 0], [0, 0, 21.04]])
            self.assertTrue(frame.pbc.all())
            self.assertEqual(set(frame.get_chemical_symbols()), {"Ar"})
        told = [line.split()[1:] for line in argon.dump().splitlines()[2:]]
        self.assertEqual(frames[2].positions.tolist(), [[float(word) for word in words] for words in told])


class InTheOrderOfSpace(Alone):
    """Atoms that the server has in another order, which is renewed on the way, are told as those that it has as they came."""

    def setUp(self) -> None:
        super().setUp()
        rows = [("Ar", 1.2 * (at % 5), 1.2 * (at // 5 % 5), 1.2 * (at // 25)) for at in range(125)]
        random.Random(7).shuffle(rows)
        words: Dict[str, Any] = {"edge": 8, "sigma": 1, "h": 131072, "epsilon": 1, "mass": 1}
        self.pair = self.user.load("a", rows, **words), self.user.load("b", rows, order="space", **words)
        for session in self.pair:
            session.heat(0.5 / units.kelvin, seed=2)

    def told(self, ask: Any) -> List[Any]:
        return [ask(session) for session in self.pair]

    def test_samples(self) -> None:
        self.assertNotEqual(self.pair[0].order.numbers, self.pair[1].order.numbers)
        for exact in (False, True):
            (steps, frames), (others, beside) = self.told(lambda session: session.sample(every=130, frames=3, exact=exact))
            self.assertEqual((steps, list(map(floats, frames))), (others, list(map(floats, beside))))
        self.assertEqual(*self.told(lambda session: session.measure()))

    def test_thermo(self) -> None:
        rows, others = self.told(lambda session: list(session.thermo(every=130, rows=3)))
        self.assertEqual(rows, others)
        self.assertEqual(*self.told(lambda session: (session.get_step(), listed(session.places()))))

    def test_trajectories(self) -> None:
        with tempfile.TemporaryDirectory() as folder:
            paths = [pathlib.Path(folder) / f"{session.name}.xyz" for session in self.pair]
            for session, path in zip(self.pair, paths):
                session.write_trajectory(path, every=130, frames=3)
            self.assertEqual(*(path.read_text() for path in paths))

    @unittest.skipIf(ase is None, "ASE is not installed")
    def test_momenta(self) -> None:
        for session in self.pair:
            session.advance(260)
        atoms, others = self.told(lambda session: session.to_ase())
        self.assertEqual((atoms.positions.tolist(), atoms.info), (others.positions.tolist(), others.info))
        self.assertTrue(atoms.get_momenta().any())
        self.assertEqual(atoms.get_momenta().tolist(), others.get_momenta().tolist())


@unittest.skipIf(ase is None, "ASE is not installed")
class ToAse(Alone):
    def test_momenta_step_and_time(self) -> None:
        # With epsilon and mass 1 the unit of time is that of ASE, and sigma is 1: the displacement of atom 0 in the last step
        # is 1185 * 2^-24 in 2^-7.5 of that time.
        a = dimer(self.user, epsilon=1, mass=3)
        a.advance(2)
        seen = a.measure()
        atoms = a.to_ase()
        self.assertEqual(atoms.info["step"], 2)
        self.assertAlmostEqual(atoms.info["time"], 2 * a.dt, places=12)
        self.assertEqual(atoms.positions.tolist(), [[1774 / 2**24, 0, 0], [25164050 / 2**24, 0, 0]])
        velocity = 1185 * 2**-24 / (DT * 3**0.5)
        self.assertAlmostEqual(atoms.get_momenta()[0][0] / (3 * velocity), 1, places=12)
        self.assertAlmostEqual(atoms.get_velocities()[1][0] / -velocity, 1, places=12)
        self.assertAlmostEqual(atoms.get_kinetic_energy() / seen.kinetic_energy, 1, places=12)
        self.assertEqual(a.measure(), seen)

    def test_there_and_back_with_the_motion(self) -> None:
        argon = self.user.load("argon", EXAMPLES / "argon_256.xyz", edge=21.04, dt=10, **units.ARGON)
        argon.tug(5, (2**22, -1, 0))
        argon.advance(20)
        atoms = argon.to_ase()
        again = self.user.load("again", atoms, dt=10, **units.ARGON)
        self.assertEqual(again.measure().kinetic, argon.measure().kinetic)
        self.assertLess(present(again.motion).largest_error, 1e-9 * present(again.motion).unit)

    def test_without_epsilon_and_mass(self) -> None:
        a = dimer(self.user)
        a.advance(2)
        self.assertFalse(a.to_ase().get_momenta().any())
        self.assertEqual(a.to_ase().info, {"step": 2, "time": 2 * DT})

    def test_two_species(self) -> None:
        pairs: Dict[str, Any] = {"first": (3.4, 0.01), "second": (3.6, 0.014), "mass": 48.0, "dt": 10}
        mix = self.user.load_mix("m", [("Ar", 0, 0, 0), ("Kr", 5, 0, 0)], edge=21.04, species=("Ar", "Kr"), **pairs)
        mix.tug(0, (1000, 0, 0))
        atoms = mix.to_ase()
        self.assertEqual((atoms.get_chemical_symbols(), atoms.get_masses().tolist()), (["Ar", "Kr"], [48, 48]))
        seen = mix.measure()
        self.assertAlmostEqual(atoms.get_kinetic_energy() / seen.in_electronvolt(seen.kinetic_energy), 1, places=6)


if __name__ == "__main__":
    unittest.main()
