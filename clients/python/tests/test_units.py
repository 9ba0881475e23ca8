"""Step factors, time steps and energies, against arithmetic by hand."""
import decimal
import math
import unittest
from fractions import Fraction
from typing import Any, Dict, List

from ljclient import Measurement, Scale, scalars, units
from support import present


class StepFactors(unittest.TestCase):
    def test_reduced_time_step(self) -> None:
        # h = dt*^2 in units of 2^-32, so 2^20 stands for 2^-6 and 2^24 for 2^-4.
        self.assertEqual(units.reduced_time_step(1 << 20), 1 / 64)
        self.assertEqual(units.reduced_time_step(1 << 24), 1 / 16)
        self.assertEqual(units.reduced_time_step(4), 2 / 65536)

    def test_time_unit_of_argon(self) -> None:
        # The known time unit of argon is 2.15 ps: 3.4e-10 m sqrt(39.948 * 1.66053906660e-27 kg / (119.8 K * 1.380649e-23 J/K)).
        in_seconds = 3.4e-10 * math.sqrt(39.948 * 1.66053906660e-27 / (119.8 * 1.380649e-23))
        self.assertAlmostEqual(in_seconds * 1e12, 2.153, places=3)
        self.assertAlmostEqual(units.time_unit(3.4, 119.8 * units.kelvin, 39.948) / (in_seconds * 1e15), 1, places=8)

    def test_h_of_a_time_step(self) -> None:
        # One dalton, one angstrom, and the epsilon at which the time unit is 1000 fs: u A^2 / (1000 fs)^2 = 1.0364269653e-4 eV.
        epsilon = 1.66053906660e-27 * 1e-20 / (1e-12) ** 2 / 1.602176634e-19
        self.assertAlmostEqual(epsilon, 1.0364269653e-4, places=13)
        # dt* = 1/64 is h = 2^20, and 0.005 is 0.000025 * 4294967296 = 107374.1824.
        self.assertEqual(units.step_factor(1000 / 64, 1, epsilon, 1), 1 << 20)
        self.assertEqual(units.step_factor(5, 1, epsilon, 1), 107374)
        self.assertEqual(units.step_factor(62.5, 1, epsilon, 1), 1 << 24)
        # The least h is 1, which is dt* = 2^-16: 1000 / 65536 fs = 0.0152587890625 fs.
        self.assertEqual(units.step_factor(0.0153, 1, epsilon, 1), 1)

    def test_the_time_step_that_was_rounded_to(self) -> None:
        epsilon = 1.66053906660e-27 * 1e-20 / (1e-12) ** 2 / 1.602176634e-19
        scale = Scale.of(10, 1, epsilon=epsilon, mass=1, dt=5)
        self.assertEqual(scale.h, 107374)
        # sqrt(107374 / 2^32) = 0.005 * sqrt(107374 / 107374.1824), so 5 fs * (1 - 0.1824 / 107374.1824 / 2).
        self.assertAlmostEqual(present(scale.dt), 5 * (1 - 0.1824 / 107374.1824 / 2), places=9)
        self.assertNotEqual(scale.dt, 5)

    def test_mass_and_epsilon_change_the_time_unit(self) -> None:
        plain = units.step_factor(10, 3.4, 0.01, 40)
        self.assertAlmostEqual(units.step_factor(20, 3.4, 0.01, 160) / plain, 1, places=4)
        self.assertAlmostEqual(units.step_factor(10, 3.4, 0.04, 160) / plain, 1, places=4)
        self.assertAlmostEqual(units.step_factor(10, 6.8, 0.04, 40) / plain, 1, places=4)

    def test_time_steps_out_of_range(self) -> None:
        for dt in (0.001, 300):
            with self.assertRaisesRegex(ValueError, "fs for these atoms"):
                units.step_factor(dt, 3.4, 0.0103, 39.948)
        for dt in (0, -1, math.inf, math.nan):
            with self.assertRaisesRegex(ValueError, "dt must be a finite number above 0"):
                units.step_factor(dt, 3.4, 0.0103, 39.948)
        with self.assertRaisesRegex(ValueError, "mass must be a finite number above 0"):
            units.step_factor(1, 3.4, 0.0103, 0)

    def test_what_must_be_said(self) -> None:
        said: List[Dict[str, Any]] = [
            {},
            {"h": 1, "dt": 1},
            {"dt": 1},
            {"dt": 1, "epsilon": 1},
            {"dt": 1, "mass": 1},
            {"epsilon": 1, "mass": 1},
        ]
        for words in said:
            with self.assertRaises(ValueError):
                Scale.of(10, 1, **words)
        self.assertIsNone(Scale.of(10, 1, 5).dt)
        self.assertIsNotNone(Scale.of(10, 1, 5, epsilon=1, mass=1).dt)

    def test_energies_of_other_units(self) -> None:
        self.assertAlmostEqual(units.kelvin, 1.380649e-23 / 1.602176634e-19, places=14)
        self.assertAlmostEqual(units.kilojoule_per_mole, 1000 / 6.02214076e23 / 1.602176634e-19, places=12)
        self.assertAlmostEqual(units.kilocalorie_per_mole / units.kilojoule_per_mole, 4.184, places=12)


class Words(unittest.TestCase):
    def test_numbers_as_words(self) -> None:
        numbers: List[Any] = [256, 1.5, "1e2", 21.04]
        self.assertEqual([scalars.word(number) for number in numbers], ["256", "1.5", "1e2", "21.04"])
        self.assertEqual(scalars.word(decimal.Decimal("0.10")), "0.10")
        self.assertEqual(float(scalars.word(0.1 + 0.2)), 0.1 + 0.2)
        for text in ("", "1 2", "1\n", " 1"):
            with self.assertRaises(ValueError):
                scalars.word(text)

    def test_numbers_as_the_server_reads_them(self) -> None:
        for text, nano in [
            ("1.", 1000000000),
            (".5", 500000000),
            ("15D-1", 1500000000),
            ("-0.0000000005", -1),
            ("0.00000000049", 0),
            ("1e6", 10**15),
            ("1000000.0000000004", 10**15),
        ]:
            self.assertEqual(scalars.nano(text), nano, text)

    def test_sigma_on_the_ring(self) -> None:
        self.assertEqual(Scale.of(256, 1, 1).sigma_on_ring, 1 << 24)
        self.assertEqual(Scale.of(21.04, 3.4, 1).sigma_on_ring, math.floor(Fraction("3.4") * 2**32 / Fraction("21.04")))


class Energies(unittest.TestCase):
    def measured(self, scale: Any) -> Any:
        return Measurement(1, 2, (0, 0, 0), 693842, -5399727, scale)

    def test_reduced_units(self) -> None:
        seen = self.measured(Scale.of(256, 1, 131072))
        self.assertEqual(seen.potential_energy, -5399727 / 16777216)
        # A displacement of 589 units is 589 / 2^24 sigma, in a time of sqrt(2^17 / 2^32): v^2 = 589^2 / 2^48 * 2^15.
        # Two atoms have 1/2 v^2 each: 2 * 589^2 / 2 / 2^33.
        self.assertEqual(2 * 589**2, 693842)
        self.assertAlmostEqual(seen.kinetic_energy, 589**2 / 2**33, places=18)
        self.assertAlmostEqual(seen.total_energy, 589**2 / 2**33 - 5399727 / 16777216, places=15)
        # k_B T = 2/3 of the kinetic energy of an atom.
        self.assertAlmostEqual(seen.temperature, 2 / 3 * 589**2 / 2**34, places=18)

    def test_physical_units(self) -> None:
        seen = self.measured(Scale.of(256, 1, 131072, epsilon=0.0103, mass=40))
        # By speeds: 589 ring units of 256 / 2^32 A each in dt, with m in dalton; an eV is 9.648533212331e-3 u A^2 / fs^2.
        speed = 589 * 256 / 2**32 / seen.scale.dt
        in_electronvolt = 2 * 0.5 * 40 * speed**2 / 9.648533212331e-3
        self.assertAlmostEqual(seen.in_electronvolt(seen.kinetic_energy) / in_electronvolt, 1, places=8)
        self.assertAlmostEqual(seen.temperature / (2 / 3 * in_electronvolt / 2 / 8.617333262e-5), 1, places=8)
        self.assertEqual(seen.in_electronvolt(1), 0.0103)

    def test_what_is_not_known(self) -> None:
        with self.assertRaisesRegex(ValueError, "epsilon must be known, got None"):
            self.measured(Scale.of(256, 1, 131072)).in_electronvolt(1)
        unknown = self.measured(None)
        self.assertEqual(unknown.potential_energy, -5399727 / 16777216)
        with self.assertRaisesRegex(ValueError, "scale of the session must be known"):
            unknown.kinetic_energy


if __name__ == "__main__":
    unittest.main()
