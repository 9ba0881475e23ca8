"""Mixtures of two species: what their numbers are rounded to, against arithmetic by hand, and dialogues with the program.

In the dialogues the box is 2^32 units wide and sigma is 2^24 of them. An atom of each species stand at 0 and 25165824, in
bin 288 of the tables, where the push is -12876994 and the energy -5349132 (see test_commands). With h 262144 in place of
131072 the push is 12876994 * 1.5 / 2^14 = 1178 toward zero, and a weight of 512 makes the energy twice as much.
"""
import math
import unittest
from fractions import Fraction
from typing import Any, Dict, List

from ljclient import Measurement, Mixture, Scale, connect, mixture as mixtures, refusals
from support import DIMER, DIMER_SCALE, TOKEN, Alone, Server, peer, present, read_line, says

try:
    import ase
except ImportError:
    ase = None

MIX = "2\nmix\nNa 0 0 0\nCl 1.5 0 0\n"
SALT = ("Na", "Cl")
LIKE = (1, 131072, 256)
STRONGER = (LIKE, (1, 262144, 512), LIKE)
WEAKER = (LIKE, (1, 131072, 1), LIKE)

# One dalton, one angstrom, and the epsilon at which the time unit is 1000 fs: u A^2 / (1000 fs)^2.
EPSILON = 1.66053906660e-27 * 1e-20 / (1e-12) ** 2 / 1.602176634e-19
DT = 1000 / 64


def of_pairs(first: Any, second: Any, mixed: Any = None, dt: Any = DT, edge: int = 100, mass: int = 1) -> Any:
    """A mixture of pairs of sigma and epsilon, where epsilons are in units of EPSILON."""
    pairs = [None if pair is None else (pair[0], pair[1] * EPSILON) for pair in (first, second, mixed)]
    return Mixture.of(edge, SALT, first=pairs[0], second=pairs[1], mixed=pairs[2], mass=mass, dt=dt)


class Rounding(unittest.TestCase):
    def numbers(self, mixture: Any, name: Any) -> List[Any]:
        return [getattr(scale, name) for scale in mixture.classes]

    def test_step_factors_and_weights(self) -> None:
        # dt* is 1/64 in the first class, h = 2^20. Elsewhere h is 2^20 epsilon / sigma^2, and the weight 256 epsilon.
        seen = of_pairs((1, 1), (2, 4), (1, 0.5))
        self.assertEqual(self.numbers(seen, "h"), [1 << 20, 1 << 19, 1 << 20])
        self.assertEqual(self.numbers(seen, "weight"), [256, 128, 1024])
        self.assertEqual(self.numbers(seen, "sigma"), [1, 1, 2])
        self.assertEqual(self.numbers(seen, "sigma_on_ring"), [2**32 // 100, 2**32 // 100, 2 * 2**32 // 100])
        self.assertEqual(seen.words, "Na Cl 1 1048576 256 1 524288 128 2 1048576 1024")

    def test_the_mixed_pair_is_that_of_lorentz_and_berthelot(self) -> None:
        # The mean of 1 and 3, and sqrt(1 * 4): h is 2^20 * 2 / 4, the third one 2^20 * 4 / 9 = 466033.8.
        seen = of_pairs((1, 1), (3, 4))
        self.assertEqual(self.numbers(seen, "sigma"), [1, 2, 3])
        self.assertEqual(self.numbers(seen, "h"), [1 << 20, 1 << 19, round(Fraction(4 << 20, 9))])
        self.assertEqual(self.numbers(seen, "weight"), [256, 512, 1024])
        self.assertEqual(mixtures.lorentz_berthelot((3.4, 0.04), ("36D-1", 0.09))[0], 3.5)
        self.assertAlmostEqual(mixtures.lorentz_berthelot((3.4, 0.04), (3.6, 0.09))[1], 0.06, places=15)

    def test_numbers_are_the_nearest(self) -> None:
        # 256 * 1.3 = 332.8 and 256 * 0.7 = 179.2; 2^20 * 1.3 / 1.21 = 1126568.7 and 2^20 * 0.7 / 0.81 = 906176.8.
        seen = of_pairs((1, 1), (0.9, 0.7), (1.1, 1.3))
        self.assertEqual(self.numbers(seen, "weight"), [256, 333, 179])
        self.assertEqual(self.numbers(seen, "h"), [1 << 20, round(Fraction(2**20 * 130, 121)), round(Fraction(2**20 * 70, 81))])

    def test_what_they_were_rounded_to_is_told(self) -> None:
        seen = of_pairs((1, 1), (0.9, 0.7), (1.1, 1.3))
        self.assertEqual(seen.species, SALT)
        self.assertIs(seen.scale, seen.classes[0])
        self.assertEqual(seen.scale.epsilon, EPSILON)
        for told, weight in zip(seen.epsilons, (256, 333, 179)):
            self.assertAlmostEqual(told / EPSILON, weight / 256, places=12)
        # h stands for a time step: dt = DT sqrt(h / exact h).
        for scale, exact in zip(seen.classes, (2**20, Fraction(2**20 * 130, 121), Fraction(2**20 * 70, 81))):
            self.assertAlmostEqual(scale.dt, DT * math.sqrt(scale.h / exact), places=9)
        lines = str(of_pairs((1, 1), (2, 4), (1, 0.5))).splitlines()
        told = "Na with Cl: sigma 1 (42949672 ring units), h 524288 (dt 15.625000 fs), weight 128 (epsilon 5.18213e-05 eV)"
        self.assertEqual(lines[1], told)
        self.assertEqual([line.split(":")[0] for line in lines], ["Na with Na", "Na with Cl", "Cl with Cl"])

    def test_classes_are_sent_as_they_are(self) -> None:
        seen = Mixture.of("256.0", SALT, classes=(("1e0", 131072, 256), (1, 0, 0), (2.5, 5, 65537)))
        self.assertEqual(seen.words, "Na Cl 1e0 131072 256 1 0 0 2.5 5 65537")
        self.assertEqual((seen.scale.edge, seen.scale.sigma, seen.scale.h, seen.epsilons), (256, 1, 131072, None))
        self.assertEqual(str(seen).splitlines()[2], "Cl with Cl: sigma 2.5 (41943040 ring units), h 5, weight 65537")
        known = Mixture.of(256, SALT, classes=STRONGER, epsilon=0.01, mass=40)
        self.assertEqual((known.epsilons, known.scale.mass), ((0.01, 0.02, 0.01), 40))
        self.assertEqual(known.scale, Scale.of(256, 1, 131072, epsilon=0.01, mass=40))


class Misfits(unittest.TestCase):
    def test_step_factors(self) -> None:
        # The greatest h is 2^24, which is dt* = 1/16: 62.5 fs. The sigma of the other class makes its dt* four times as much.
        self.assertEqual(of_pairs((1, 1), (1, 1), dt=62.5).scale.h, 1 << 24)
        with self.assertRaisesRegex(ValueError, "Cl with Cl: dt must be from .* to 15.6 fs for these atoms, got 62.5 fs"):
            of_pairs((1, 1), (0.25, 1), (1, 1), dt=62.5)
        with self.assertRaisesRegex(ValueError, "Na with Na: dt must be from 0.0153 to 62.5 fs for these atoms, got 0.001 fs"):
            of_pairs((1, 1), (1, 1), dt=0.001)

    def test_weights(self) -> None:
        self.assertEqual(of_pairs((1, 1), (16, 256)).classes[2].weight, 65536)
        self.assertEqual(of_pairs((1, 256), (1, 1), dt=1).classes[2].weight, 1)
        with self.assertRaisesRegex(ValueError, "Cl with Cl: epsilon must be from .* of the first class"):
            of_pairs((1, 1), (16, 256.01))
        with self.assertRaisesRegex(ValueError, "Na with Cl: epsilon must be from .* of the first class"):
            of_pairs((1, 1), (1, 1), (1, 1 / 520))

    def test_numbers_that_are_not_above_0(self) -> None:
        for first, second, mixed in [((1, 0), (1, 1), None), ((1, 1), (1, -1), None), ((1, 1), (1, 1), (1, math.nan))]:
            with self.assertRaisesRegex(ValueError, "epsilon must be a finite number above 0"):
                of_pairs(first, second, mixed)
        for words, what in [({"mass": 0}, "mass"), ({"dt": -1}, "dt")]:
            with self.assertRaisesRegex(ValueError, f"{what} must be a finite number above 0"):
                of_pairs((1, 1), (1, 1), **words)
        with self.assertRaisesRegex(ValueError, "Cl with Cl: sigma must be a finite number above 0"):
            of_pairs((1, 1), (-1, 1), (1, 1))

    def test_species(self) -> None:
        with self.assertRaisesRegex(ValueError, "two different symbols, got 'Na' twice"):
            Mixture.of(256, ("Na", "Na"), classes=STRONGER)
        for species in ("Na", ("Na",), ("Na", "Cl", "Ar")):
            with self.subTest(species), self.assertRaisesRegex(ValueError, "species must be two symbols"):
                Mixture.of(256, species, classes=STRONGER)
        for wrong in ("", "C l", "x" * 17, "é", "Cl\n", 1):
            pairs: List[Any] = [("Na", wrong), (wrong, "Na")]
            for each in pairs:
                with self.subTest(each), self.assertRaisesRegex(ValueError, "printing characters"):
                    Mixture.of(256, each, classes=STRONGER)
        self.assertEqual(Mixture.of(256, ["!", "~" * 16], classes=STRONGER).species, ("!", "~" * 16))

    def test_what_must_be_said(self) -> None:
        pair = (1, EPSILON)
        said: List[Dict[str, Any]] = [
            {},
            {"first": pair, "second": pair},
            {"first": pair, "second": pair, "mass": 1},
            {"first": pair, "mass": 1, "dt": 1},
            {"first": pair, "second": pair, "mass": 1, "dt": 1, "epsilon": 1},
            {"first": pair, "classes": STRONGER},
            {"mixed": pair, "classes": STRONGER},
            {"dt": 1, "classes": STRONGER},
            {"classes": STRONGER[:2]},
        ]
        for words in said:
            with self.subTest(words), self.assertRaisesRegex(ValueError, "must have first and second|it takes their place|three classes"):
                Mixture.of(256, SALT, **words)


class Energies(unittest.TestCase):
    def test_the_unit_is_the_epsilon_of_the_first_class(self) -> None:
        seen = Measurement(0, 2, (0, 0, 0), 0, -10698264, Mixture.of(256, SALT, classes=STRONGER, epsilon=0.01).scale)
        self.assertEqual(seen.potential_energy, 2 * -5349132 / 2**24)
        self.assertEqual(seen.in_electronvolt(seen.potential_energy), 2 * -5349132 / 2**24 * 0.01)

    def test_a_first_class_of_another_weight(self) -> None:
        # A weight of 512 makes two of each unit of energy, which stay what they are in epsilon.
        twice = [(sigma, h, 2 * weight) for sigma, h, weight in STRONGER]
        seen = Measurement(1, 2, (0, 0, 0), 693842, 2 * -5399727, Mixture.of(256, SALT, classes=twice).scale)
        self.assertEqual(seen.potential_energy, -5399727 / 2**24)
        self.assertAlmostEqual(seen.kinetic_energy, 589**2 / 2**33, places=18)


class Commands(unittest.TestCase):
    def test_what_is_sent(self) -> None:
        heard = []

        def hear(connection: Any, stop: Any) -> None:
            replies = [b"OK LOADMIX m 0 2\n", b"OK LIST 1\nm 0 2 0\n", b"OK LOADMIX ljclient-new 0 2\n", b"OK BRANCH ljclient-new m 0\n"]
            for reply in [*replies, b"OK DROP m\n", replies[0], b"OK DROP ljclient-new\n"]:
                heard.append(read_line(connection))
                if heard[-1].startswith(b"LOADMIX"):
                    size = int(heard[-1].split()[-1])
                    heard.append(b"".join(connection.recv(1) for _ in range(size)))
                connection.sendall(reply)

        with peer(says(then=hear)) as port, connect("127.0.0.1", port, "ann", TOKEN) as user:
            user.load_mix("m", MIX, edge=256, species=SALT, classes=STRONGER)
            user.load_mix("m", MIX, before=MIX, edge=256, species=SALT, classes=WEAKER, replace=True)
            user._wire.close()
        words = b"LOADMIX %s 256 Na Cl 1 131072 256 1 %s 1 131072 256 %s\n"
        self.assertEqual(heard[:2], [words % (b"m", b"262144 512", b"rest 26"), MIX.encode()])
        self.assertEqual(heard[2:5], [b"LIST\n", words % (b"ljclient-new", b"131072 1", b"pair 52"), 2 * MIX.encode()])
        self.assertEqual(heard[5:7], [b"BRANCH ljclient-new m\n", b"DROP m\n"])
        self.assertEqual(heard[7:], [words % (b"m", b"131072 1", b"pair 52"), 2 * MIX.encode(), b"DROP ljclient-new\n"])


class Dialogues(Alone):
    def mix(self, classes: Any = STRONGER, source: Any = MIX, name: str = "m", **words: Any) -> Any:
        return self.user.load_mix(name, source, **{"edge": 256, "species": SALT, "classes": classes, **words})

    def refused(self, kind: Any, ask: Any, line: Any = None) -> None:
        before = self.user.sessions()
        with self.assertRaises(kind) as caught:
            ask()
        self.assertIs(type(caught.exception), kind)
        self.assertEqual((caught.exception.line, self.user.sessions()), (line, before))

    def test_a_stronger_pair(self) -> None:
        self.assertEqual(12876994 * 3 // 2 >> 14, 1178)
        m = self.mix()
        self.assertEqual((m.name, m.get_step(), m.n_atoms, m.symbols()), ("m", 0, 2, ["Na", "Cl"]))
        self.assertEqual(m.measure(), Measurement(0, 2, (0, 0, 0), 0, 2 * -5349132))
        m.advance(1)
        self.assertEqual((m.place(0), m.place(1)), ((1178, 0, 0), (25165824 - 1178, 0, 0)))

    def test_a_weight_changes_energies_alone(self) -> None:
        m = self.mix(WEAKER)
        # -5349132 / 256 is -20895.05, toward zero.
        self.assertEqual(m.measure(), Measurement(0, 2, (0, 0, 0), 0, -20895))
        m.advance(1)
        self.assertEqual(m.place(0), (589, 0, 0))

    def test_three_equal_classes_are_one(self) -> None:
        m = self.mix([LIKE] * 3)
        a = self.user.load("a", MIX, symbols=SALT, **DIMER_SCALE)
        for session in (m, a):
            session.advance(5)
        self.assertEqual((m.measure(), m.dump()), (a.measure(), a.dump()))

    def test_the_class_of_a_pair(self) -> None:
        # The last class is asked where both atoms are of the second species, and the order of species is that of the words.
        same = "2\nmix\nCl 0 0 0\nCl 1.5 0 0\n"
        self.assertEqual(self.mix((LIKE, LIKE, (1, 131072, 1)), same).measure().potential, -20895)
        self.assertEqual(self.mix(((1, 131072, 1), LIKE, LIKE), same, "n").measure().potential, -5349132)
        turned = self.mix(((1, 131072, 1), LIKE, LIKE), same, "o", species=("Cl", "Na"))
        self.assertEqual(turned.measure().potential, -20895)

    def test_there_and_back(self) -> None:
        m = self.mix()
        start = [tuple(place) for place in m.places()]
        for _ in range(2):
            m.advance(500)
            m.reverse()
        self.assertEqual((m.get_step(), [tuple(place) for place in m.places()]), (0, start))

    def test_what_is_known_of_a_mixture(self) -> None:
        m = self.mix(epsilon=0.0103, mass=40)
        self.assertEqual((m.mixture.species, m.scale.epsilon, m.h, m.edge), (SALT, 0.0103, 131072, 256))
        self.assertEqual(m.scale, Scale.of(256, 1, 131072, epsilon=0.0103, mass=40))
        self.assertIs(self.user.session("m").mixture, m.mixture)
        self.assertEqual(m.dump(), "2\nstep 0\nNa 0.000000 0.000000 0.000000\nCl 1.500000 0.000000 0.000000\n")
        told = self.user.session("m", edge=256, sigma=1, h=131072, weight=512)
        self.assertIsNone(told.mixture)
        self.assertEqual(told.measure().potential_energy, -5349132 / 2**24)
        m.drop()
        self.assertIsNone(self.user.load("m", DIMER, **DIMER_SCALE).mixture)
        self.user.ask("DROP m")
        self.mix()
        self.user.ask("DROP m")
        self.user.load("m", DIMER, **DIMER_SCALE)
        self.assertIsNone(self.user.session("m").mixture)

    def test_physical_units(self) -> None:
        pairs: Dict[str, Any] = {"first": (1, EPSILON), "second": (1, 4 * EPSILON)}
        m = self.user.load_mix("m", MIX, edge=256, species=SALT, mass=1, dt=DT, **pairs)
        # The mixed epsilon is 2, so h is 2 * 2^20 and the push 12876994 * 1.5 / 2^11 = 9431 toward zero.
        self.assertEqual(12876994 * 3 // 2 >> 11, 9431)
        self.assertEqual(m.measure().potential, 2 * -5349132)
        self.assertAlmostEqual(present(m.dt), DT, places=9)
        m.advance(1)
        self.assertEqual(m.place(0), (9431, 0, 0))

    def test_motion_from_the_atoms_one_step_before(self) -> None:
        m = self.mix(before="2\n\nNa -0.25 0 0\nCl 1.5 0 0\n")
        self.assertEqual(m.measure().momentum, (4194304, 0, 0))

    def test_rows_and_positions(self) -> None:
        rows = self.mix(source=[("Na", 0, 0, 0), ("Cl", 1.5, 0, 0)], name="rows")
        positions = self.mix(source=[(0, 0, 0), (1.5, 0, 0)], symbols=SALT, name="positions")
        self.assertEqual([each.measure().potential for each in (rows, positions)], [2 * -5349132] * 2)

    def test_symbols_that_are_of_no_species(self) -> None:
        self.refused(refusals.XyzSpecies, lambda: self.mix(source=MIX.replace("Cl", "Ar")), 4)
        self.refused(refusals.XyzSpecies, lambda: self.mix(source=MIX.replace("Na 0", "na x")), 3)
        self.refused(refusals.XyzSymbol, lambda: self.mix(source=MIX.replace("Na", "x" * 17)), 3)
        self.refused(refusals.XyzNumber, lambda: self.mix(source=MIX.replace("Na 0", "Na x").replace("Cl", "Ar")), 3)
        # In the second frame symbols are not compared.
        m = self.mix(source=DIMER, before=MIX)
        self.assertEqual(m.symbols(), ["Na", "Cl"])

    def test_classes_that_are_refused(self) -> None:
        for number in range(3):
            for wrong, kind in [
                ((0, 131072, 256), refusals.Sigma),
                (("x", 0, 0), refusals.Sigma),
                ((1, 0, 0), refusals.StepFactor),
                ((1, 2**24 + 1, 256), refusals.StepFactor),
                ((1, 131072, 0), refusals.Weight),
                ((1, 131072, 65537), refusals.Weight),
                ((1, 131072, -1), refusals.Weight),
            ]:
                classes = [LIKE] * number + [wrong] + [(0, 0, 0)] * (2 - number)
                with self.subTest(classes):
                    self.refused(kind, lambda: self.mix(classes, source=b""))
        self.refused(refusals.Edge, lambda: self.mix([(0, 0, 0)] * 3, edge=0))
        self.mix([(1, 1, 65536), (1, 2**24, 1), LIKE])
        self.refused(refusals.Exists, lambda: self.mix(edge=0))

    def test_lines_that_are_none(self) -> None:
        words = "LOADMIX m 256 Na {} 1 131072 256 1 131072 256 1 131072 256 {} 26"
        self.refused(refusals.Syntax, lambda: self.user.ask(words.format("Na", "rest"), MIX.encode()))
        self.refused(refusals.Syntax, lambda: self.user.ask(words.format("x" * 17, "rest"), MIX.encode()))
        self.refused(refusals.Syntax, lambda: self.user.ask(words.format("Cl", "still"), MIX.encode()))
        self.refused(refusals.Syntax, lambda: self.user.ask(words.format("Cl 1", "rest"), MIX.encode()))
        self.assertEqual(self.user.ask(words.format("Cl", "rest"), MIX.encode()).words, ["LOADMIX", "m", "0", "2"])
        with self.assertRaises(refusals.Body):
            self.user.ask(words.format("Cl", "rest")[:-2])
        self.assertTrue(self.user.closed)

    @unittest.skipIf(ase is None, "ASE is not installed")
    def test_there_and_back_with_ase(self) -> None:
        atoms = ase.Atoms("NaCl", positions=[[0, 0, 0], [1.5, 0, 0]], cell=[256, 256, 256], pbc=True)
        m = self.mix(source=atoms, edge=None)
        self.assertEqual(m.measure().potential, 2 * -5349132)
        self.assertEqual(m.to_ase().get_chemical_symbols(), ["Na", "Cl"])


class Served(unittest.TestCase):
    def test_a_server(self) -> None:
        with Server() as server, connect("127.0.0.1", server.port, "ann", TOKEN) as user:
            m = user.load_mix("m", MIX, edge=256, species=SALT, classes=STRONGER)
            m.advance(1)
            self.assertEqual(m.place(1), (25164646, 0, 0))


if __name__ == "__main__":
    unittest.main()
