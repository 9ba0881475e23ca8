"""Analyses of sessions: that they look at the frames that are there, and leave the session where it should be; and their documentation."""
import doctest
import functools
import importlib
import inspect
import os
import pkgutil
import re
import subprocess
import sys
import textwrap
from pathlib import Path
from typing import Any, Dict, List, Tuple

import pytest

from support import EXAMPLES, TOP, dimer

numpy = pytest.importorskip("numpy", reason="numpy is not installed")

import ljclient  # noqa: E402
from ljclient import analysis, units  # noqa: E402
from ljclient.analysis import Frame, frame_of  # noqa: E402
from test_types import WITHOUT_TYPES, told  # noqa: E402

MODULES = ["ljclient.looks", *(f"ljclient.analysis.{each.name}" for each in pkgutil.iter_modules(analysis.__path__))]
DROPLET = [(4 + 1.2 * (number % 2), 4 + 1.1 * (number // 2 % 2), 4 + 1.15 * (number // 4)) for number in range(8)]


def droplet(user: Any, **words: Any) -> Any:
    return user.load("drop", DROPLET, symbols="Ar", edge=12, sigma=1, h=16384, watch=False, **words)


def mixture(user: Any) -> Any:
    return user.load_mix("mix", DROPLET, symbols=["A", "B"] * 4, edge=12, watch=False, **units.kob_andersen(16384))


def test_a_session_goes_on_by_the_steps_that_were_said(user: Any) -> None:
    drop, seen = droplet(user), []
    g, energy = analysis.Rdf(bins=10), analysis.Energy()
    analysis.analyse(drop, 25, 10, [g, energy], lambda done, total: seen.append((done, total)))
    assert drop.get_step() == 25 and g.result().frames == 3
    assert seen[-1] == (20, 25) and seen == sorted(seen)
    analysis.rdf(drop, steps=10, every=5, bins=10)
    assert drop.get_step() == 35


def test_frames_with_positions_alone_say_the_same(user: Any) -> None:
    drop, again = droplet(user), droplet(ljclient.run())
    one, frames = analysis.rdf(drop, steps=30, every=10, bins=40), analysis.Rdf(bins=40)
    for frame in again.frames(every=10, n=4):
        frames.add(frame)
    assert one.g.tolist() == frames.result().g.tolist()


def test_units_are_those_of_the_session(user: Any) -> None:
    argon = user.load("argon", EXAMPLES / "argon_hot.xyz", edge=21.04, dt=2, **units.ARGON)
    frame = frame_of(next(argon.frames(every=1, n=1)))
    epsilon, sigma = units.ARGON["epsilon"], units.ARGON["sigma"]
    row = next(argon.thermo(every=1, rows=1))
    assert frame.energies["potential"] == pytest.approx(row.potential * epsilon) and frame.units.energy == "eV"
    assert -numpy.trace(frame.stress) / 3 == pytest.approx(argon.pressure() * epsilon / sigma**3 / units.bar)
    assert frame.tails["pressure"] == pytest.approx((argon.pressure(tail=True) - argon.pressure()) * epsilon / sigma**3 / units.bar)
    assert frame.tails["potential"] == pytest.approx((argon.energy(tail=True) - argon.energy()) * epsilon)
    assert frame.energies["temperature"] == row.temperature and frame.edge == 21.04
    assert (frame.velocities == argon.velocities()).all()


def test_the_viscosity_is_the_same_in_all_units(user: Any) -> None:
    """In reduced units, in those of a file that has lengths in half a sigma, and in mPa s."""
    told: List[Any] = []
    scale = units.time_unit(3.4, units.ARGON["epsilon"], 39.948)
    physical: Dict[str, Any] = {"dt": scale / 1000, **units.ARGON}
    cases: List[Tuple[str, float, Dict[str, Any]]] = [("a", 1, {"h": 4295}), ("b", 2, {"h": 4295}), ("c", 3.4, physical)]
    for name, size, words in cases:
        sites = numpy.array(DROPLET) * size
        session = user.load(name, sites, symbols="Ar", edge=12 * size, watch=False, **{"sigma": size, **words})
        told.append(analysis.viscosity(session, steps=200, every=20, lags=4).viscosity)
    unit = units.ARGON["epsilon"] * 1.602176634e-19 * scale * 1e-15 / (3.4e-10) ** 3 * 1e3
    assert told[0].value == pytest.approx(told[1].value, rel=1e-3) == pytest.approx(told[2].value / unit, rel=1e-2)
    assert told[2].unit == "mPa s"


def test_two_species(user: Any) -> None:
    mix = mixture(user)
    pairs, moved, speeds = analysis.Rdf(bins=60), analysis.Msd(lags=3), analysis.Vacf(lags=3)
    waves, joined = analysis.StructureFactor(k_max=2), analysis.Clusters(1.3)
    analysis.analyse(mix, 60, 10, [pairs, moved, speeds, waves, joined])
    by_pairs: List[Any] = [pairs.result(), waves.result()]
    for result in by_pairs:
        assert list(result.partial) == [("A", "A"), ("A", "B"), ("B", "B")]
    by_species: List[Any] = [moved.result(), speeds.result(), joined.result()]
    for other in by_species:
        assert list(other.partial) == ["A", "B"]
    assert pairs.result().partial["A", "B"].neighbours[-1] == pytest.approx(4) and analysis.rdf(mix, 20, 10).partial


def test_a_motion_turned_back_is_looked_at_as_well(user: Any) -> None:
    drop = droplet(user)
    there = analysis.msd(drop, steps=40, every=10, lags=4)
    drop.reverse()
    back = analysis.msd(drop, steps=40, every=10, lags=4)
    assert back.times.tolist() == there.times.tolist() and back.msd[-1] == pytest.approx(there.msd[-1], rel=0.1)


@pytest.mark.parametrize("steps, every, text", [(0, 1, "steps must be at least 1, got 0"), (10, 0, "every must be at least 1, got 0")])
def test_numbers_of_steps_are_above_zero(user: Any, steps: int, every: int, text: str) -> None:
    a = dimer(user)
    with pytest.raises(ValueError, match=text):
        analysis.rdf(a, steps, every)
    assert a.get_step() == 0


def test_a_tail_by_hand(user: Any) -> None:
    """Of two atoms in a box of 20 sigma: (16/3) pi rho^2 (2 / (3 c^9) - 1 / c^3), and the same of the energy."""
    pair = user.load("pair", [(0, 0, 0), (1.5, 0, 0)], symbols="Ar", edge=20, sigma=1, h=4295)
    rho, cube = 2 / 20**3, 2.5**-3
    assert pair.pressure(tail=True) - pair.pressure() == pytest.approx(16 / 3 * numpy.pi * rho**2 * (2 / 3 * cube**3 - cube))
    assert pair.energy(tail=True) - pair.energy() == pytest.approx(2 * 8 / 3 * numpy.pi * rho * (cube**3 / 3 - cube))


@pytest.mark.parametrize("name", MODULES)
def test_the_examples_of_docstrings(name: str, monkeypatch: pytest.MonkeyPatch) -> None:
    module = importlib.import_module(name)
    failed, tried = doctest.testmod(module, extraglobs={"run": ljclient.run})
    assert not failed and (tried or name.rpartition(".")[2] in ("library", "origins"))


def test_each_call_has_an_example() -> None:
    for name in analysis.__all__:
        thing = getattr(analysis, name)
        if callable(thing) and not name.endswith("Result") and name not in ("Analysis", "Units", "frame_of"):
            assert "\nExamples\n" in (inspect.getdoc(thing) or ""), name


def test_results_are_drawn(user: Any) -> None:
    pytest.importorskip("matplotlib", reason="matplotlib is not installed").use("Agg")
    mix = mixture(user)
    motion, waves, joined = analysis.Diffusion(lags=3), analysis.StructureFactor(k_max=2), analysis.Clusters(1.3)
    pairs, sheared = analysis.Rdf(), analysis.Viscosity(lags=3)
    analysis.analyse(mix, 40, 10, [motion, waves, joined, pairs, sheared])
    both = motion.result()
    drawn = [pairs.result().plot(), both.msd.plot(), both.vacf.plot(), both.vacf.plot_spectrum(), sheared.result().plot()]
    assert drawn[0].get_xlabel() == "r / sigma" and len(drawn[0].containers) == 3
    assert pairs.result().plot(drawn[1]) is drawn[1]
    for each in (*drawn, waves.result().plot(), joined.result().plot()):
        assert each.get_xlabel() and each.get_ylabel() and each.containers


def scripts() -> List[str]:
    """The programs in the documentation of the package."""
    blocks = re.findall(r"(?:\n    .*|\n)+", analysis.__doc__ or "")
    return [textwrap.dedent(block).strip() + "\n" for block in blocks if "with run()" in block]


SMALLER = {
    "* 6\n": "* 3\n",
    "10_000": "20",
    "20_000": "20",
    "25_000": "120",
    "r_max=13": "r_max=5",
    "msd_lags=500": "msd_lags=4",
    "lags=150": "lags=3",
    "fit=(2000, 20)": "fit=(20, 80)",
    "every=100": "every=10",
    "(1000, 1.2": "(216, 1.2",
    "(10, 10, 10)": "(6, 6, 6)",
    "/ 10\n": "/ 6\n",
    "* 800": "* 172",
    "* 200": "* 44",
    "r_max=3.0": "r_max=2.5",
}


@pytest.mark.parametrize("number, most", [(0, 25), (1, 15)], ids=["rahman", "kob_andersen"])
def test_a_study_is_short(number: int, most: int, tmp_path: Path, monkeypatch: pytest.MonkeyPatch) -> None:
    """Rahman's argon with g(r), D by both ways, velocities and pressure, and three g(r) of a glass former: as they stand but for
    the numbers of steps, and of atoms."""
    pytest.importorskip("matplotlib", reason="matplotlib is not installed").use("Agg")
    pytest.importorskip("ase", reason="ASE is not installed")
    text = scripts()[number]
    assert len(scripts()) == 2 and len(text.splitlines()) <= most and max(map(len, text.splitlines())) <= 100
    short = functools.reduce(lambda so_far, pair: so_far.replace(*pair), SMALLER.items(), text)
    monkeypatch.chdir(tmp_path)
    exec(compile(short, "study", "exec"), {"__name__": "study"})
    assert list(tmp_path.glob("*.png"))


def test_studies_have_types(tmp_path: Path) -> None:
    pytest.importorskip("mypy", reason="mypy is not installed")
    for number, text in enumerate(scripts()):
        (tmp_path / f"study_{number}.py").write_text(text)
    (tmp_path / "libraries.ini").write_text(WITHOUT_TYPES.replace("MDAnalysis.*", "MDAnalysis.*,matplotlib.*"))
    status, text = told(tmp_path, "--config-file=libraries.ini", "study_0.py", "study_1.py")
    assert status == 0, text


def test_without_numpy_it_is_told_what_to_install(tmp_path: Path) -> None:
    (tmp_path / "numpy.py").write_text("raise ImportError('none')\n")
    environment = {**os.environ, "PYTHONPATH": f"{tmp_path}:{TOP / 'clients/python'}"}
    done = subprocess.run([sys.executable, "-c", "import ljclient.analysis"], env=environment, capture_output=True, text=True, timeout=60)
    assert "ljclient.errors.Missing: ljclient.analysis needs numpy" in done.stderr and "pip install numpy" in done.stderr


def test_the_package_is_part_of_what_is_installed() -> None:
    assert '"ljclient.analysis"' in (TOP / "clients/python/pyproject.toml").read_text()
    assert Frame.of([(0, 0, 0)], 1).atoms == 1
