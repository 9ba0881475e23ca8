"""Files of two frames, and atoms that stand too close to each other."""
import pathlib
import random
import tempfile
import unittest
import warnings
from typing import Any, Dict, Iterator, List

from ljclient import Refused, refusals, xyz
from ljclient.overlap import closest
from support import DIMER, DIMER_SCALE, EXAMPLES, Alone, dimer, listed, present

STEP = "1\nbefore\nH 0.75 0 0\n1\nnow\nH 1 0 0\n"
CLASSES = [(1, 131072, 256), (0.8, 131072, 256), (0.5, 131072, 256)]


class TwoFrames(Alone):
    def test_the_second_frame_is_the_present_one(self) -> None:
        # One ring unit is 2^-24 of sigma, so the atom goes on by 2^24 / 4 of them in each step.
        b = self.user.load("b", STEP, edge=256, sigma=1, h=1, pair=True)
        self.assertEqual((b.place(0), b.measure().momentum), ((2**24, 0, 0), (2**22, 0, 0)))
        b.advance(2)
        self.assertEqual(b.place(0), (2**24 + 2 * 2**22, 0, 0))

    def test_two_species(self) -> None:
        text = "2\n\nA 1 0 0\nB 8 0 0\n2\n\nA 1 0 0.5\nB 8 0 0\n"
        m = self.user.load_mix("m", text, edge=256, species=("A", "B"), classes=CLASSES, pair=True)
        self.assertEqual(m.measure().momentum, (0, 0, 2**23))

    def test_a_file_of_frames_that_was_written(self) -> None:
        with tempfile.TemporaryDirectory() as folder:
            path = pathlib.Path(folder) / "way.xyz"
            dimer(self.user).write_trajectory(path, every=1, frames=2)
            b = self.user.load("b", path, pair=True, **DIMER_SCALE)
        # Six decimals of 589 / 2^24 and 25165235 / 2^24 are 0.000035 and 1.499964, whose places are 587 and 25165220.
        self.assertEqual(listed(b.places()), [(587, 0, 0), (25165220, 0, 0)])
        self.assertEqual(b.measure().kinetic, 587**2 + (25165824 - 25165220) ** 2)

    def test_one_frame_is_no_pair(self) -> None:
        with self.assertRaises(refusals.XyzPair) as caught:
            self.user.load("b", DIMER, pair=True, **DIMER_SCALE)
        self.assertEqual(caught.exception.line, 5)
        with self.assertRaisesRegex(ValueError, "cannot use before= with pair=True"):
            self.user.load("b", DIMER, pair=True, before=DIMER, **DIMER_SCALE)
        self.assertEqual(self.user.sessions(), [])


class Close(Alone):
    def told(self, load: Any, source: Any, **words: Any) -> List[Any]:
        with warnings.catch_warnings(record=True) as caught:
            warnings.simplefilter("always")
            load("s", source, replace=True, **words)
        for warning in caught:
            self.assertEqual(warning.filename, __file__)
        return [str(warning.message) for warning in caught]

    def test_a_pair_below_four_fifths_of_sigma(self) -> None:
        rows = [("Ar", 1, 1, 1), ("Ar", 5, 5, 5), ("Ar", 1.6, 1, 1), ("Ar", 5, 5, 5.7)]
        (text,) = self.told(self.user.load, rows, **DIMER_SCALE)
        self.assertIn("the closest pair, atoms 0 and 2, is 0.6 sigma apart", text)
        self.assertEqual(self.user.session("s").n_atoms, 4)
        self.assertEqual(self.told(self.user.load, [("Ar", 0, 0, 0), ("Ar", 0.801, 0, 0)], **DIMER_SCALE), [])
        self.assertEqual(len(self.told(self.user.load, [("Ar", 0, 0, 0), ("Ar", 0.799, 0, 0)], **DIMER_SCALE)), 1)

    def test_round_the_box(self) -> None:
        rows = [("Ar", 0.1, -0.1, 0), ("Ar", 255.9, 256, 512)]
        self.assertIn("atoms 0 and 1, is 0.224 sigma", *self.told(self.user.load, rows, **DIMER_SCALE))

    def test_the_present_frame_counts(self) -> None:
        near, far = "2\n\nH 0 0 0\nH 0.5 0 0\n", "2\n\nH 0 0 0\nH 1 0 0\n"
        self.assertEqual(len(self.told(self.user.load, near, before=far, **DIMER_SCALE)), 1)
        self.assertEqual(self.told(self.user.load, far, before=near, **DIMER_SCALE), [])
        self.assertEqual(self.told(self.user.load, near + far, pair=True, **DIMER_SCALE), [])

    def test_each_kind_of_pair_has_its_sigma(self) -> None:
        words: Dict[str, Any] = {"edge": 256, "species": ("A", "B"), "classes": CLASSES}
        for first, second, sigma in [("A", "A", 1), ("A", "B", 0.8), ("B", "A", 0.8), ("B", "B", 0.5)]:
            for part, count in [(0.79, 1), (0.81, 0)]:
                rows = [(first, 0, 0, 0), (second, 0, part * sigma, 0)]
                self.assertEqual(len(self.told(self.user.load_mix, rows, **words)), count, (first, second, part))

    def test_crystals_are_not_close(self) -> None:
        for path, words in [("argon_256.xyz", {"edge": 21.04, "sigma": 3.4}), ("argon_4000.xyz", {"edge": 52.6, "sigma": 3.4})]:
            self.assertEqual(self.told(self.user.load, EXAMPLES / path, h=131072, **words), [])

    def test_a_wrong_unit(self) -> None:
        self.assertEqual(len(self.told(self.user.load, EXAMPLES / "argon_256.xyz", edge=210.4, sigma=34, h=131072)), 1)

    def test_a_warning_that_is_an_error_comes_before_the_load(self) -> None:
        dimer(self.user, "s")
        with warnings.catch_warnings():
            warnings.simplefilter("error")
            with self.assertRaises(UserWarning):
                self.user.load("s", [("Ar", 0, 0, 0)] * 2, replace=True, **DIMER_SCALE)
        self.assertEqual(self.user.session("s").place(1), (25165824, 0, 0))

    def test_what_the_server_refuses(self) -> None:
        for text in ["", "2\n\nAr 0 0 0\n", "x\n", "1\n\nAr nan 0 0\n", "1\n\nAr 0 0\n", "2\n\nAr 0 0 0\nAr 0 inf 0\n"]:
            self.assertEqual(xyz.present_atoms(("rest", text.encode())), [])
            with self.assertRaises(Refused):
                self.told(self.user.load, text.encode(), **DIMER_SCALE)
        with self.assertRaises(refusals.Sigma):
            self.told(self.user.load, DIMER, edge=256, sigma=0, h=1)
        with self.assertRaises(refusals.Edge):
            self.told(self.user.load, DIMER, edge="nan", sigma=1, h=1)


class AllPairs(unittest.TestCase):
    def test_the_closest_pair_of_all(self) -> None:
        rng = random.Random(2)
        for _ in range(60):
            edge = rng.uniform(3, 12)
            atoms: List[Any] = [
                (rng.choice("AB"), *(rng.uniform(-2 * edge, 2 * edge) for _ in range(3))) for _ in range(rng.randint(1, 40))
            ]
            sigmas = [rng.uniform(0.3, edge / 5) for _ in range(3)]
            wanted = min(self.pairs(atoms, edge, sigmas), default=(1, 0, 0))
            found = closest(atoms, edge, sigmas, "B")
            if wanted[0] > 0.8:
                self.assertIsNone(found)
            else:
                self.assertEqual(present(found)[1:], wanted[1:])
                self.assertAlmostEqual(present(found)[0], wanted[0], places=9)

    def pairs(self, atoms: Any, edge: Any, sigmas: Any) -> Iterator[Any]:
        """The distance of each pair in its sigma, by the nearest of all images within five boxes."""
        for j, (symbol, *place) in enumerate(atoms):
            for i, (other, *beside) in enumerate(atoms[:j]):
                parts = (min(abs(a - b + image * edge) for image in range(-5, 6)) for a, b in zip(place, beside))
                yield sum(part**2 for part in parts) ** 0.5 / sigmas[[symbol, other].count("B")], i, j


if __name__ == "__main__":
    unittest.main()
