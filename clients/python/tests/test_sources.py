"""What a session can be loaded from, and arrays and `Atoms` where numpy and ASE are installed."""
import io
import pathlib
import tempfile
import unittest
from unittest import mock
from typing import Any, Dict

from ljclient import arrays, distance, least_images, run, units, xyz
from support import DIMER, DIMER_SCALE, EXAMPLES, PROGRAM, dimer, listed, present

try:
    import numpy
except ImportError:
    numpy = None  # type: ignore[assignment]
try:
    import ase
    import ase.io
except ImportError:
    ase = None

WANTED = [(0, 0, 0), (25165824, 0, 0)]


class Texts(unittest.TestCase):
    def test_rows(self) -> None:
        self.assertEqual(xyz.body_of([("Na", 1, 0.5, -2e-7)]), b"1\nljclient\nNa 1.0 0.5 -2e-07\n")
        self.assertEqual(xyz.body_of([(1, 2, 3)], "Ar"), b"1\nljclient\nAr 1.0 2.0 3.0\n")
        self.assertEqual(xyz.body_of([(1, 2, 3), (4, 5, 6)], ["H", "O"]).split()[2::4], [b"H", b"O"])

    def test_what_is_no_source(self) -> None:
        for source, symbols in [([(1, 2, 3)], None), ([(1, 2, 3)], ["H", "O"]), ([("H", 1, 2)], None), ([(1, 2, 3)], "A r")]:
            with self.assertRaises(ValueError):
                xyz.body_of(source, symbols)
        with self.assertRaises(OSError):
            xyz.body_of("/no/such/file.xyz")

    def test_texts_that_are_too_long(self) -> None:
        with self.assertRaisesRegex(ValueError, "at most 1048576 bytes, got 1048577"):
            xyz.body_of(b"x" * 1_048_577)
        with self.assertRaisesRegex(ValueError, "bytes"):
            xyz.pair_of(b"x" * 600_000, b"x" * 600_000)
        self.assertEqual(len(xyz.body_of(b"x" * 1_048_576)), 1_048_576)

    def test_a_pair(self) -> None:
        self.assertEqual(xyz.pair_of(b"1\na\nH 0 0 0", b"1\nb\nH 1 0 0"), b"1\na\nH 0 0 0\n1\nb\nH 1 0 0")


class Sources(unittest.TestCase):
    def setUp(self) -> None:
        self.user = run(PROGRAM, sessions=20)
        self.addCleanup(self.user.close)

    def loaded(self, source: Any, **words: Any) -> Any:
        session = self.user.load("s", source, replace=True, **{**DIMER_SCALE, **words})
        return listed(session.places())

    def test_each_source(self) -> None:
        with tempfile.TemporaryDirectory() as folder:
            path = pathlib.Path(folder) / "dimer.xyz"
            path.write_text(DIMER)
            self.assertEqual(self.loaded(path), WANTED)
            self.assertEqual(self.loaded(str(path)), WANTED)
            with open(path) as text, open(path, "rb") as binary:
                self.assertEqual(self.loaded(text), WANTED)
                self.assertEqual(self.loaded(binary), WANTED)
        self.assertEqual(self.loaded(io.StringIO(DIMER)), WANTED)
        self.assertEqual(self.loaded(DIMER), WANTED)
        self.assertEqual(self.loaded(DIMER.encode()), WANTED)
        self.assertEqual(self.loaded([("Ar", 0, 0, 0), ("Ar", 1.5, 0, 0)]), WANTED)
        self.assertEqual(self.loaded([(0, 0, 0), (1.5, 0, 0)], symbols="Ar"), WANTED)

    def test_numbers_of_a_scale_as_texts(self) -> None:
        self.assertEqual(self.loaded(DIMER, edge="256.0", sigma="1e0"), WANTED)

    def test_lines_that_end_with_a_return(self) -> None:
        classes = [(3.3, 1000, 256)] * 3
        salt = self.user.load_mix("salt", EXAMPLES / "sodium_chloride.xyz", edge=22.56, species=("Na", "Cl"), classes=classes)
        self.assertEqual((salt.n_atoms, set(salt.symbols())), (512, {"Na", "Cl"}))
        alike = self.user.load("alike", EXAMPLES / "sodium_chloride.xyz", symbols="X", edge=22.56, sigma=3.3, h=1000)
        self.assertTrue((alike.symbols(), listed(alike.places())) == (["X"] * 512, listed(salt.places())))

    def test_a_time_step_in_femtoseconds(self) -> None:
        argon = self.user.load("argon", EXAMPLES / "argon_256.xyz", edge=21.04, dt=10, **units.ARGON)
        # (10 fs / 2153.24 fs)^2 * 2^32, with the time unit 3.4e-10 m sqrt(39.948 u / (119.8 K k_B)).
        unit = 3.4e-10 * (39.948 * 1.66053906660e-27 / (119.8 * 1.380649e-23)) ** 0.5
        self.assertEqual(argon.h, round((1e-14 / unit) ** 2 * 2**32))
        self.assertAlmostEqual(argon.dt, (argon.h / 2**32) ** 0.5 * unit * 1e15, places=6)
        self.assertAlmostEqual(present(argon.dt), 10, places=3)
        self.assertEqual(argon.edge, 21.04)


class WithoutNumpy(unittest.TestCase):
    def test_lists(self) -> None:
        with mock.patch.object(arrays, "numpy", None), run(PROGRAM) as user:
            a = dimer(user)
            self.assertEqual(a.places(), WANTED)
            self.assertEqual(a.positions(), [(0, 0, 0), (1.5, 0, 0)])
            self.assertEqual(least_images([(1, 5, 0)], [(2**32 - 2, 3, 2**31)]), [(3, 2, -(2**31))])
            self.assertEqual(distance([(0, 0, 0)], [(2**32 - 3, 4, 0)]), 5)


@unittest.skipIf(numpy is None, "numpy is not installed")
class WithNumpy(unittest.TestCase):
    def test_arrays(self) -> None:
        with run(PROGRAM) as user:
            a = dimer(user)
            places, positions = a.places(), a.positions()
            self.assertEqual((places.shape, places.dtype), ((2, 3), numpy.int64))
            self.assertEqual((positions.shape, positions.dtype), ((2, 3), numpy.float64))
            self.assertEqual(positions.tolist(), [[0, 0, 0], [1.5, 0, 0]])
            self.assertEqual(least_images(places, places + 2**32 - 1).tolist(), [[1, 1, 1], [1, 1, 1]])

    def test_arrays_as_sources(self) -> None:
        with run(PROGRAM) as user:
            scale: Dict[str, Any] = {"edge": numpy.float64(256), "sigma": 1, "h": numpy.int32(131072)}
            a: Any = user.load("a", numpy.array([[0, 0, 0], [1.5, 0, 0]]), symbols="Ar", **scale)
            self.assertEqual(a.places().tolist(), [list(place) for place in WANTED])
            a.tug(numpy.int64(0), numpy.array([5, 0, 0]))
            self.assertEqual(a.advance(numpy.int64(2)), 2)
            self.assertEqual(a.place(0), (1774 + 2 * 5, 0, 0))


@unittest.skipIf(ase is None, "ASE is not installed")
class WithAse(unittest.TestCase):
    def test_there_and_back(self) -> None:
        atoms = ase.Atoms("Ar2", positions=[[0, 0, 0], [1.5, 0, 0]], cell=[256, 256, 256], pbc=True)
        with run(PROGRAM) as user:
            a = user.load("a", atoms, sigma=1, h=131072)
            self.assertEqual(a.edge, 256)
            self.assertEqual(a.place(1), (25165824, 0, 0))
            back = a.to_ase()
            self.assertEqual(back.get_chemical_symbols(), ["Ar", "Ar"])
            self.assertEqual(back.get_positions().tolist(), [[0, 0, 0], [1.5, 0, 0]])
            self.assertEqual(back.cell.lengths().tolist(), [256, 256, 256])
            self.assertTrue(back.pbc.all())

    def test_each_digit_is_kept(self) -> None:
        atoms = ase.io.read(EXAMPLES / "argon_256.xyz", format="xyz")
        with run(PROGRAM) as user:
            by_atoms = user.load("a", atoms, edge=21.04, sigma=3.4, h=1)
            by_file = user.load("b", EXAMPLES / "argon_256.xyz", edge=21.04, sigma=3.4, h=1)
            self.assertTrue((by_atoms.places() == by_file.places()).all())

    def test_cells_that_are_not_cubic(self) -> None:
        for cell in ([10, 10, 11], [[10, 0, 0], [1, 10, 0], [0, 0, 10]], None):
            with self.assertRaisesRegex(ValueError, "must be cubic"):
                xyz.edge_of(ase.Atoms("Ar", cell=cell), ("rest", b""))

    def test_symbols_that_ase_does_not_know(self) -> None:
        with run(PROGRAM) as user:
            odd = user.load("a", [(0, 0, 0), (1, 1, 1)], symbols=["Ar", "Ar1"], **DIMER_SCALE)
            with self.assertRaisesRegex(ValueError, "must be an element of ASE, got 'Ar1'"):
                odd.to_ase()
            self.assertEqual(odd.to_ase({"Ar": "Ar", "Ar1": "X"}).get_chemical_symbols(), ["Ar", "X"])


if __name__ == "__main__":
    unittest.main()
