"""Analyses beside LAMMPS: of its own frames they say what its computes say, and of a session's what it says in double precision."""
import pathlib
import re
import subprocess
from typing import Any, Dict, List, NamedTuple

import pytest

from support import EXAMPLES, TOP

numpy = pytest.importorskip("numpy", reason="numpy is not installed")

import lammps  # noqa: E402
from ljclient import analysis, units  # noqa: E402
from ljclient.analysis import Frame, frame_of  # noqa: E402
from ljclient.pressure import Composition  # noqa: E402
from ljclient.tails import energy_tail, pressure_tail  # noqa: E402

pytestmark = pytest.mark.skipif(lammps.LMP is None, reason="LAMMPS is not installed")
TIME_STEP = 0.002
# From here on its list of neighbours, which ends at the cutoff of each pair of species, lacks pairs.
WHOLE = {("A", "A"): 2.5, ("A", "B"): 2.0, ("B", "B"): 2.2}
WAVE = (3, 2, -5)
# Of a pressure of the liquid by the program's bins, as in test_pressure.py.
MOST_PRESSURE = 0.05


class Told(NamedTuple):
    """What LAMMPS has told: its frames, the columns of their rows, those of the last frame with its tail, and the columns of g(r)."""

    frames: List[Frame]
    rows: Dict[str, Any]
    tail: Dict[str, Any]
    pairs: Any


@pytest.fixture(scope="module")
def told(tmp_path_factory: pytest.TempPathFactory) -> Told:
    folder = tmp_path_factory.mktemp("lammps")
    words = ["-in", str(TOP / "bench/lammps/analysis.in"), "-log", "log.txt", "-screen", "none"]
    subprocess.run([str(lammps.LMP), *words, "-var", "frames", "frames.txt", "-var", "rdf", "rdf.txt"], check=True, timeout=120, cwd=folder)
    tables = re.findall(r"^(Step Temp PotEng.*)\n((?: *[-0-9].*\n)+)", (folder / "log.txt").read_text(), re.M)
    rows, tail = ({name: column for name, column in zip(head.split(), columns_of(text))} for head, text in tables)
    frames = [frame_of_dump(text) for text in (folder / "frames.txt").read_text().split("ITEM: TIMESTEP\n")[1:]]
    return Told(frames, rows, tail, numpy.loadtxt(folder / "rdf.txt", skiprows=4).T)


def columns_of(text: str) -> Any:
    return numpy.array([line.split() for line in text.splitlines()], dtype=float).T


def frame_of_dump(text: str) -> Frame:
    """A frame of its dump."""
    lines = text.splitlines()
    rows = numpy.array([line.split() for line in lines[8:]], dtype=float)
    species = ["AB"[int(kind) - 1] for kind in rows[:, 1]]
    return Frame.of(rows[:, 2:5], float(lines[4].split()[1]), time=int(lines[0]) * TIME_STEP, species=species, velocities=rows[:, 5:])


def result_of(kind: Any, frames: Any) -> Any:
    for frame in frames:
        kind.add(frame)
    return kind.result()


def test_the_radial_distribution_function(told: Told) -> None:
    g = result_of(analysis.Rdf(bins=50, r_max=2.5), told.frames[1:])
    for (pair, each), column in zip(g.partial.items(), (4, 6, 8)):
        within = each.r + 0.025 < WHOLE[pair]
        assert each.g[within].tolist() == pytest.approx(told.pairs[column][within].tolist(), abs=1e-3)
        assert each.neighbours[within].tolist() == pytest.approx(told.pairs[column + 1][within].tolist(), abs=1e-2)
    within = g.r + 0.025 < 2.0
    assert g.g[within].tolist() == pytest.approx(told.pairs[2][within].tolist(), abs=1e-3)


def test_displacements_and_velocities_from_one_origin(told: Told) -> None:
    moved = result_of(analysis.Msd(lags=40, apart=1000), told.frames)
    speeds = result_of(analysis.Vacf(lags=40, apart=1000), told.frames)
    for each, column in ((moved, "msd"), (moved.partial["A"], "msda"), (moved.partial["B"], "msdb")):
        assert each.msd.tolist() == pytest.approx(told.rows[f"c_{column}[4]"].tolist(), abs=1e-8)
    for each, column in ((speeds, "vacf"), (speeds.partial["A"], "vacfa")):
        assert each.vacf.tolist() == pytest.approx(told.rows[f"c_{column}[4]"].tolist(), abs=1e-8)
    assert moved.times[-1] == pytest.approx(800 * TIME_STEP)


def test_the_structure_factor_at_a_wave_vector(told: Told) -> None:
    """It is the mean square of its sums over cosines and sines, here in a shell with others: so the sums are compared."""
    from ljclient.analysis.structure_factor import Shells

    shells = Shells.of(7)
    width = 2 * shells.most + 1
    at = numpy.flatnonzero(shells.kept == (WAVE[0] * width + WAVE[1] + shells.most) * width + WAVE[2] + shells.most)[0]
    for number, frame in enumerate(told.frames):
        sums = shells.sums(frame.places)[at], shells.sums(frame.places[numpy.array(frame.species) == "B"])[at]
        wanted = (complex(*(told.rows[f"c_{name}[{part}]"][number] for part in (1, 2))) for name in ("wave", "waveb"))
        assert abs(numpy.subtract(sums, list(wanted))).max() < 1e-6


def test_order_and_clusters(told: Told) -> None:
    for number, frame in enumerate(told.frames):
        found, joined = result_of(analysis.Order(1.4), [frame]), result_of(analysis.Clusters(1.2), [frame])
        orders = [told.rows[f"c_order[{part}]"][number] for part in (1, 2)]
        assert [found.q4.value, found.q6.value] == pytest.approx(orders, abs=1e-6)
        assert joined.partial["B"].number.value == told.rows["c_number"][number]


def test_the_viscosity_is_the_integral_of_its_stresses(told: Told) -> None:
    """The autocorrelation of its rows by numpy, over all origins that have all lags, of all nine parts without their mean pressure."""
    names = [["Pxx", "Pxy", "Pxz"], ["Pxy", "Pyy", "Pyz"], ["Pxz", "Pyz", "Pzz"]]
    stress = -numpy.array([[told.rows[name] for name in row] for row in names]).transpose(2, 0, 1)
    sheared = analysis.Viscosity(lags=20)
    for frame, each, temperature in zip(told.frames, stress, told.rows["Temp"]):
        words = {"stress": each, "energies": {"temperature": temperature}}
        sheared.add(Frame.of(frame.positions, frame.edge, time=frame.time, **words))
    parts = stress - numpy.einsum("tii->t", stress)[:, None, None] / 3 * numpy.eye(3)
    products = [(parts[:21] * parts[lag : lag + 21]).sum(axis=(1, 2)).mean() / 10 for lag in range(21)]
    size = told.frames[0].edge ** 3 / told.rows["Temp"].mean()
    found = sheared.result()
    assert found.autocorrelation.tolist() == pytest.approx(products)
    assert found.viscosity.value == pytest.approx(size * numpy.trapz(products, dx=20 * TIME_STEP))


def test_the_tails_of_energy_and_pressure(told: Told) -> None:
    last, edge = told.frames[-1], told.frames[-1].edge
    scales = [units.Scale.of(edge, sigma, h, weight=weight) for sigma, h, weight in units.kob_andersen(2**20)["classes"]]
    atoms = Composition(tuple(scales), [symbol == "B" for symbol in last.species], ("A", "B"))
    energy, pressure = (told.tail[name][0] - told.rows[name][-1] for name in ("PotEng", "Press"))
    # The classes are rounded to whole numbers, those of sigma to 2^-32 of the edge and those of epsilon to 1 / 256.
    assert energy_tail(atoms, 500) == pytest.approx(energy, rel=1e-5)
    assert pressure_tail(atoms, 500) == pytest.approx(pressure, rel=1e-5)


def test_the_stress_of_a_session(user: Any, tmp_path: pathlib.Path) -> None:
    """LAMMPS has exact forces, and the program those of bins, which are some percent off: as far as in docs/ACCURACY.md."""
    argon = user.load("argon", EXAMPLES / "argon_hot.xyz", edge=21.04, dt=2, **units.ARGON)
    frames = list(argon.frames(every=10, n=6))
    wanted = lammps.told_of(frames, tmp_path)
    size = units.ARGON["epsilon"] / units.ARGON["sigma"] ** 3 / units.bar
    for frame, tensor in zip(map(frame_of, frames), wanted.tensors):
        assert frame.stress is not None
        assert abs(frame.stress / size + tensor).max() < MOST_PRESSURE
