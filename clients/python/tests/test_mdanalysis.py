"""A `Universe` of MDAnalysis over a session, whose frames are asked for in any order, and its atoms as a source."""
import pathlib
import warnings
from typing import Any, List

import pytest

from ljclient import units
from ljclient.state_points import lattice
from support import dimer, listed

warnings.filterwarnings("ignore", category=DeprecationWarning)
mda = pytest.importorskip("MDAnalysis", reason="MDAnalysis is not installed")

import numpy
from ljclient.mdanalysis import SessionReader, universe

UNIT = 2.0**-24
WAY = [0, 589, 1774, 3555]
pytestmark = pytest.mark.filterwarnings("ignore")


@pytest.fixture
def argon(user: Any) -> Any:
    session = user.load("argon", lattice("fcc", density=0.2, atoms=32, sigma=3.4), dt=2, **units.ARGON)
    session.heat(90)
    return session


def firsts(trajectory: Any, frames: Any) -> List[float]:
    return [float(trajectory[frame].positions[0][0]) / UNIT for frame in frames]


def test_frames_in_any_order(user: Any) -> None:
    """Atom 0 of the dimer goes by WAY; the session is exactly where the frame is, and goes on from it."""
    a = dimer(user)
    way = universe(a, every=1, n_frames=4).trajectory
    assert len(way) == 4 and firsts(way, range(4)) == pytest.approx(WAY)
    assert firsts(way, [3, 1, 2, 0, -1]) == pytest.approx([WAY[3], WAY[1], WAY[2], WAY[0], WAY[3]])
    assert (a.get_step(), a.place(0)) == (3, (WAY[3], 0, 0))
    way[1]
    assert a.advance(2) == 3 and a.place(0) == (WAY[3], 0, 0)


def test_an_iteration_ends_at_the_start(user: Any) -> None:
    a = dimer(user)
    before = a.get_step(), listed(a.places()), a.measure()
    way = universe(a, every=2, n_frames=3).trajectory
    assert [(ts.frame, ts.data["step"]) for ts in way] == [(0, 0), (1, 2), (2, 4)]
    assert (a.get_step(), listed(a.places()), a.measure()) == before
    assert [ts.data["step"] for ts in way[::-1]] == [4, 2, 0]


def test_units_and_attributes(argon: Any) -> None:
    u = universe(argon, every=5, n_frames=2)
    ts = u.trajectory[1]
    assert ts.positions == pytest.approx(numpy.array(argon.positions()), abs=1e-5)
    assert ts.velocities == pytest.approx(1000 * numpy.array(argon.velocities()), rel=1e-4, abs=1e-6)
    assert ts.forces == pytest.approx(96.48533212331 * numpy.array(argon.forces()), rel=1e-4, abs=1e-4)
    assert ts.dimensions == pytest.approx([argon.edge] * 3 + [90] * 3)
    assert (u.trajectory.dt, ts.time) == pytest.approx((5 * argon.dt / 1000, 5 * argon.dt / 1000))
    assert set(u.atoms.names) == set(u.atoms.elements) == {"Ar"} and u.atoms.masses[0] == pytest.approx(39.948)


def test_files_of_other_kinds(argon: Any, tmp_path: pathlib.Path) -> None:
    atoms = universe(argon, every=2, n_frames=3).atoms
    atoms.write(tmp_path / "x.gro")
    atoms.write(tmp_path / "x.pdb")
    atoms.write(tmp_path / "x.xtc", frames="all")
    start = numpy.array(argon.positions())
    for name in ("x.gro", "x.pdb"):
        assert mda.Universe(str(tmp_path / name)).atoms.positions == pytest.approx(start, abs=0.01)
    assert len(mda.Universe(str(tmp_path / "x.gro"), str(tmp_path / "x.xtc")).trajectory) == 3


def test_atoms_of_mdanalysis_are_loaded(user: Any, argon: Any, tmp_path: pathlib.Path) -> None:
    u = universe(argon)
    one = user.load("one", u, dt=2, **units.ARGON)
    some = user.load("some", u.select_atoms("index 0:9"), dt=2, edge=argon.edge, **units.ARGON)
    assert (one.n_atoms, one.edge, one.symbols()[0]) == (32, pytest.approx(argon.edge), "Ar")
    assert (some.n_atoms, some.edge) == (10, argon.edge)
    assert numpy.array(some.positions()) == pytest.approx(numpy.array(argon.positions())[:10], abs=1e-5)
    assert one.measure().temperature == pytest.approx(next(argon.frames([0])).temperature, rel=1e-3)
    u.atoms.write(tmp_path / "x.gro")
    rest = user.load("gro", mda.Universe(str(tmp_path / "x.gro")), symbols="Ar", sigma=3.4, h=3706, epsilon=1, mass=1)
    assert rest.edge == pytest.approx(argon.edge, abs=0.01)


def test_atoms_without_a_box(user: Any) -> None:
    u = mda.Universe.empty(2, trajectory=True)
    with pytest.raises(ValueError, match="positions must come with symbols"):
        user.load("a", u, edge=20, sigma=1, h=4295)
    with pytest.raises(ValueError, match="use edge="):
        user.load("a", u, symbols="Ar", sigma=1, h=4295)


@pytest.mark.parametrize("words", [{"every": 0}, {"n_frames": 0}])
def test_what_is_no_number(user: Any, words: Any) -> None:
    a = dimer(user)
    with pytest.raises(ValueError, match="must be at least 1"):
        SessionReader(a, **words)
    assert a.get_step() == 0
