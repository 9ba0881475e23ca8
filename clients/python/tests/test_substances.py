"""Substances, the edge of a box by its density, and energies in electronvolt."""
from typing import Any, Dict, List

import pytest

from ljclient import Mixture, ThermoInElectronvolt, run, units
from support import DIMER, DIMER_SCALE, EXAMPLES, PROGRAM

# Second virial coefficients of the Lennard-Jones potential are 0 at 3.418 epsilon / k_B, and those of the gases at these kelvin.
BOYLE = {"NEON": 122.1, "ARGON": 411.5, "KRYPTON": 575, "XENON": 768}


@pytest.mark.parametrize("name", BOYLE)
def test_a_substance_is_that_of_its_gas(name: Any) -> None:
    substance = getattr(units, name)
    assert 3.418 * substance["epsilon"] / units.kelvin == pytest.approx(BOYLE[name], rel=0.03)
    with run(PROGRAM) as user:
        a = user.load("a", [(name[:2].title(), 0, 0, 0), (name[:2].title(), 4, 0, 0)], edge=30, dt=2, **substance)
        assert a.dt == pytest.approx(2, rel=1e-3)
        assert (a.scale.sigma, a.scale.mass) == (substance["sigma"], substance["mass"])


def test_kob_and_andersen() -> None:
    dt = units.time_unit(1, 1, 1) / 1024
    pairs: Dict[str, Any] = {"first": (1.0, 1.0), "mixed": (0.8, 1.5), "second": (0.88, 0.5)}
    wanted = Mixture.of(9.4, ("A", "B"), mass=1.0, dt=dt, **pairs)
    mixture = Mixture.of(9.4, **units.KOB_ANDERSEN)
    assert mixture == Mixture.of(9.4, ("A", "B"), classes=[(1, 4096, 256), (0.8, 9600, 384), (0.88, 2645, 128)])
    assert [(each.sigma, each.h, each.weight) for each in mixture.classes] == [(each.sigma, each.h, each.weight) for each in wanted.classes]
    assert units.kob_andersen(64)["classes"] == [(1, 64, 256), (0.8, 150, 384), (0.88, 41, 128)]
    with run(PROGRAM) as user:
        mix = user.load_mix("ka", "2\n\nA 0 0 0\nB 0.9 0 0\n", edge=9.4, **units.KOB_ANDERSEN)
        # Of A with B at 0.9: 4 * 1.5 * ((0.8 / 0.9)^12 - (0.8 / 0.9)^6). Bins of squared distance are 1 / 128 of 0.64 wide.
        assert mix.measure().potential_energy == pytest.approx(6 * ((8 / 9) ** 12 - (8 / 9) ** 6), abs=0.01)


def test_the_edge_of_a_density() -> None:
    assert units.edge_of_density(1000, 1) == pytest.approx(10)
    assert units.edge_of_density(864, 0.8442, sigma=3.4) == pytest.approx(3.4 * (864 / 0.8442) ** (1 / 3))
    # 864 / 6.02214076e23 mol of 39.948 g, 1.374 g in a cubic centimetre, of 10^24 cubic angstrom.
    volume = 864 / 6.02214076e23 * 39.948 / 1.374 * 1e24
    assert units.edge_of_density(864, 1.374, mass=39.948) == pytest.approx(volume ** (1 / 3), rel=1e-9)
    for words, text in [
        ((0, 1), "must be at least 1, got 0"),
        ((1, 0), "density must be a finite number above 0"),
        ((1, float("nan")), "density must be a finite number above 0"),
    ]:
        with pytest.raises(ValueError, match=text):
            units.edge_of_density(*words)
    named: List[Any] = [
        ({"sigma": 0}, "sigma must be"),
        ({"mass": -1}, "mass must be"),
        ({"mass": 1, "sigma": 3.4}, "sigma must be left out beside mass"),
    ]
    for said, text in named:
        with pytest.raises(ValueError, match=text):
            units.edge_of_density(100, 1, **said)
    with pytest.raises(TypeError, match="the number of atoms must be a whole number"):
        units.edge_of_density(10.5, 1)  # type: ignore[arg-type]


def test_energies_in_electronvolt() -> None:
    with run(PROGRAM) as user:
        argon = user.load("argon", EXAMPLES / "argon_256.xyz", edge=21.04, dt=2, **units.ARGON)
        row = list(argon.thermo(every=1, rows=2))[1]
        told, epsilon = row.in_electronvolt(), units.ARGON["epsilon"]
        assert (told.step, told.temperature) == (1, row.temperature) and type(told) is ThermoInElectronvolt
        assert told[2:] == pytest.approx([energy * epsilon for energy in row[2:]], rel=1e-14)
        assert told.in_electronvolt() is told and str(told).endswith("eV") and "K;" in str(told)
        assert told.total == pytest.approx(argon.measure().in_electronvolt(row.total), rel=1e-14)
        reduced = next(user.load("a", DIMER, **DIMER_SCALE).thermo(every=1, rows=1))
        with pytest.raises(ValueError, match="epsilon must be known, got None"):
            reduced.in_electronvolt()
