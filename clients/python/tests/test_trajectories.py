"""Trajectories of each kind of file, read again by the libraries that read such files.

The dimer's motion is worked out by hand in test_commands; a ring unit is 2^-24 there. A lone atom moves straight on.
"""
import os
import pathlib
import re
import sys
import warnings
from typing import Any, List

import pytest

from ljclient import Missing, units
from support import EXAMPLES, dimer, present

try:
    import ase.io
except ImportError:
    ase = None
try:
    with warnings.catch_warnings():
        warnings.simplefilter("ignore")
        import MDAnalysis
except ImportError:
    MDAnalysis = None

with_ase = pytest.mark.skipif(ase is None, reason="ASE is not installed")
with_mda = pytest.mark.skipif(MDAnalysis is None, reason="MDAnalysis is not installed")
quiet = pytest.mark.filterwarnings("ignore::DeprecationWarning", "ignore:Could not find netCDF4")
ENDINGS = [
    pytest.param(".xyz", marks=with_ase),
    pytest.param(".traj", marks=with_ase),
    pytest.param(".dcd", marks=[with_mda, quiet]),
    pytest.param(".nc", marks=[with_mda, quiet]),
]
BINARY = ENDINGS[2:]
DT = 2**-7.5
WAY = [0, 589, 1774, 3555]  # of atom 0, in 2^-24; 596 more for each step
KILOJOULE_PER_MOLE = 96.48533212


@pytest.fixture
def argon(user: Any) -> Any:
    argon = user.load("argon", EXAMPLES / "argon_256.xyz", edge=21.04, dt=5, **units.ARGON)
    argon.heat(100)
    argon.advance(20)
    return argon


def universe(path: Any, atoms: Any) -> Any:
    return MDAnalysis.Universe.empty(atoms).load_new(str(path))


def read(path: Any, atoms: Any) -> List[Any]:
    """Time, positions and edge of each frame of a file: those of MDAnalysis, of which times are in picoseconds, or of ASE."""
    if path.suffix in (".dcd", ".nc"):
        return [(step.time * 1000, step.positions.copy(), step.dimensions[0]) for step in universe(path, atoms).trajectory]
    return [(frame.info["time"], frame.positions, frame.cell[0][0]) for frame in ase.io.read(path, index=":")]


@pytest.mark.parametrize("ending", ENDINGS)
def test_positions_box_and_time(argon: Any, tmp_path: pathlib.Path, ending: Any) -> None:
    path = tmp_path / f"way{ending}"
    argon.branch("start")
    argon.write_trajectory(path, every=10, frames=3)
    assert argon.get_step() == 40
    frames = read(path, argon.n_atoms)
    argon.restore("start")
    wanted = argon.sample(every=10, frames=3).frames
    assert [time for time, _, _ in frames] == pytest.approx([20 * argon.dt, 30 * argon.dt, 40 * argon.dt], rel=1e-6)
    for (_, positions, edge), each in zip(frames, wanted):
        assert edge == pytest.approx(21.04, rel=1e-7)
        assert abs(positions - each).max() < 3e-6  # numbers of four bytes up to 21.04


@pytest.mark.parametrize("ending", ENDINGS)
def test_what_is_appended_stands_behind(argon: Any, tmp_path: pathlib.Path, ending: Any) -> None:
    path = tmp_path / f"way{ending}"
    argon.write_trajectory(path, every=10, frames=2)
    before = read(path, argon.n_atoms)
    argon.advance(10)
    argon.write_trajectory(path, every=10, frames=2, append=True)
    frames = read(path, argon.n_atoms)
    assert [time / argon.dt for time, _, _ in frames] == pytest.approx([20, 30, 40, 50], rel=1e-6)
    for (_, positions, _), (_, others, _) in zip(frames, before):
        assert positions.tolist() == others.tolist()
    assert abs(frames[3][1] - argon.positions()).max() < 3e-6
    assert os.listdir(tmp_path) == [path.name]


@pytest.mark.parametrize("ending", ENDINGS)
def test_a_file_that_is_not_there_may_be_appended_to(user: Any, tmp_path: pathlib.Path, ending: Any) -> None:
    a, path = dimer(user), tmp_path / f"way{ending}"
    a.write_trajectory(path, every=1, frames=2, append=True)
    assert len(read(path, 2)) == 2


@pytest.mark.parametrize("ending", ENDINGS)
def test_a_file_of_before_is_written_anew(user: Any, tmp_path: pathlib.Path, ending: Any) -> None:
    a, path = dimer(user), tmp_path / f"way{ending}"
    for _ in range(2):
        a.write_trajectory(path, every=1, frames=2)
    assert len(read(path, 2)) == 2


@pytest.mark.parametrize("ending", ENDINGS)
def test_an_atom_goes_on_where_it_leaves_the_box(user: Any, tmp_path: pathlib.Path, ending: Any) -> None:
    lone = user.load("lone", "1\nlone\nAr 255.9 0 0\n", edge=256, sigma=1, h=131072)
    lone.tug(0, (2**20, 0, 0))  # a sixteenth for each step
    lone.branch("start")
    for unwrap, far in ((False, 255.9 + 0.1875 - 256), (True, 255.9 + 0.1875)):
        path = tmp_path / f"{unwrap}{ending}"
        lone.write_trajectory(path, every=1, frames=4, unwrap=unwrap)
        assert read(path, 1)[3][1][0].tolist() == pytest.approx([far, 0, 0], abs=2e-5)
        lone.restore("start")


@pytest.mark.parametrize("ending", ENDINGS)
def test_on_the_way_back_time_goes_down(user: Any, tmp_path: pathlib.Path, ending: Any) -> None:
    a, path = dimer(user), tmp_path / f"way{ending}"
    a.advance(4)
    a.reverse()
    a.write_trajectory(path, every=1, frames=3)
    times = [time / (1000 if ending in (".dcd", ".nc") else 1) for time, _, _ in read(path, 2)]
    assert times == pytest.approx([3 * DT, 2 * DT, DT], rel=1e-5)


@with_ase
def test_xyz_has_velocities_and_energies(argon: Any, tmp_path: pathlib.Path) -> None:
    path = tmp_path / "way.xyz"
    argon.write_trajectory(path, every=1, frames=1)
    frame = ase.io.read(path)
    (row,) = argon.thermo(every=1, rows=1)
    epsilon = units.ARGON["epsilon"]
    assert frame.arrays["velo"] == pytest.approx(argon.velocities(), rel=1e-8)
    assert frame.get_potential_energy() == pytest.approx(row.potential * epsilon, rel=1e-12)
    assert frame.info["kinetic_energy"] == pytest.approx(row.kinetic * epsilon, rel=1e-12)


@with_ase
@pytest.mark.parametrize("mass", [39.948, 48.0])
def test_xyz_has_momenta_that_ase_reads(user: Any, tmp_path: pathlib.Path, mass: Any) -> None:
    path = tmp_path / "way.xyz"
    argon = user.load("argon", EXAMPLES / "argon_256.xyz", edge=21.04, dt=2, **{**units.ARGON, "mass": mass})
    argon.heat(200)
    argon.advance(50)
    argon.write_trajectory(path, every=10, frames=2)
    frame = ase.io.read(path)
    # ASE's unit of time is 10.180505671 fs.
    assert frame.get_momenta() == pytest.approx(argon.velocities() * mass * 10.180505671, rel=1e-7, abs=1e-7)
    assert set(frame.get_masses()) == {mass}
    (row,) = argon.thermo(every=1, rows=1)
    assert frame.get_temperature() == pytest.approx(row.temperature, rel=1e-3)
    assert row.temperature > 60


@with_ase
def test_momenta_are_those_of_the_unwrapped_and_appended_frames_too(argon: Any, tmp_path: pathlib.Path) -> None:
    path = tmp_path / "way.xyz"
    for append in (False, True):
        argon.write_trajectory(path, every=5, frames=2, append=append, unwrap=append)
    frames = ase.io.read(path, index=":")
    assert len(frames) == 4 and abs(frames[2].get_momenta() - frames[1].get_momenta()).max() == 0
    assert frames[3].get_momenta() == pytest.approx(argon.velocities() * 39.948 * 10.180505671, rel=1e-7, abs=1e-7)


def test_in_reduced_units_there_are_no_momenta(user: Any, tmp_path: pathlib.Path) -> None:
    dimer(user).write_trajectory(tmp_path / "way.xyz", every=1, frames=1)
    _, comment, row, _ = (tmp_path / "way.xyz").read_text().splitlines()
    assert " Properties=species:S:1:pos:R:3:velo:R:3 " in comment and len(row.split()) == 7


@with_ase
def test_traj_has_momenta_energy_and_forces(argon: Any, tmp_path: pathlib.Path) -> None:
    path = tmp_path / "way.traj"
    argon.write_trajectory(path, every=10, frames=2)
    frame = ase.io.read(path)
    assert (frame.info["step"], set(frame.get_chemical_symbols())) == (30, {"Ar"})
    assert frame.get_velocities() * ase.units.fs == pytest.approx(argon.velocities(), rel=1e-6)
    assert frame.get_forces() == pytest.approx(argon.forces(), rel=1e-12)
    assert frame.get_potential_energy() == pytest.approx(argon.measure().potential_energy * units.ARGON["epsilon"], rel=1e-12)


@with_ase
def test_traj_takes_elements_alone(user: Any, tmp_path: pathlib.Path) -> None:
    classes = [(1, 131072, 256)] * 3
    mix = user.load_mix("mix", "2\nmix\nB 0 0 0\nA 1.5 0 0\n", edge=256, species=("A", "B"), classes=classes)
    path = tmp_path / "way.traj"
    with pytest.raises(ValueError, match="must be an element of ASE, got 'A'"):
        mix.write_trajectory(path, every=1, frames=1)
    assert not path.exists()
    mix.write_trajectory(path, every=1, frames=1, symbols={"A": "Ar", "B": "Kr"})
    assert ase.io.read(path).get_chemical_symbols() == ["Kr", "Ar"]


@with_mda
@quiet
def test_nc_has_velocities_and_forces_in_the_units_of_mdanalysis(argon: Any, tmp_path: pathlib.Path) -> None:
    path = tmp_path / "way.nc"
    argon.write_trajectory(path, every=10, frames=2)
    frame = universe(path, argon.n_atoms).trajectory[1]
    assert abs(frame.velocities / 1000 - argon.velocities()).max() < 1e-8
    assert abs(frame.forces / KILOJOULE_PER_MOLE - argon.forces()).max() < 1e-7  # numbers of four bytes, up to 0.2


@with_mda
@quiet
def test_frames_of_a_dcd_are_equally_far_apart(argon: Any, tmp_path: pathlib.Path) -> None:
    path = tmp_path / "way.dcd"
    argon.write_trajectory(path, every=10, frames=3)
    before = path.read_bytes()
    for go_on, every in ((0, 10), (5, 10), (5, 20)):
        argon.advance(go_on)
        with pytest.raises(ValueError, match="equally far apart in time"):
            argon.write_trajectory(path, every=every, frames=2, append=True)
    assert (path.read_bytes(), os.listdir(tmp_path)) == (before, ["way.dcd"])


@with_mda
@quiet
@pytest.mark.parametrize("ending", [".dcd", ".nc"])
def test_a_file_of_other_atoms_is_not_appended_to(user: Any, argon: Any, tmp_path: pathlib.Path, ending: Any) -> None:
    path = tmp_path / f"way{ending}"
    argon.write_trajectory(path, every=1, frames=1)
    before = path.read_bytes()
    with pytest.raises(ValueError, match="must have frames of 2 atoms, as the session, got 256"):
        dimer(user).write_trajectory(path, every=1, frames=1, append=True)
    assert path.read_bytes() == before


@with_mda
@quiet
@pytest.mark.parametrize("ending", [".dcd", ".nc"])
def test_no_fifo_is_replaced(user: Any, tmp_path: pathlib.Path, ending: Any) -> None:
    path = tmp_path / f"way{ending}"
    os.mkfifo(path)
    with pytest.raises(ValueError, match=": it is a FIFO"):
        dimer(user).write_trajectory(path, every=1, frames=1, append=True)


@pytest.mark.parametrize("ending, told", [(".dcd", "python3-mdanalysis"), (".nc", "python3-mdanalysis")])
def test_a_library_that_is_missing_is_told_before_anything_is_written(
    user: Any, tmp_path: pathlib.Path, monkeypatch: pytest.MonkeyPatch, ending: Any, told: Any
) -> None:
    monkeypatch.setitem(sys.modules, "MDAnalysis", None)  # type: ignore[misc]
    a, path = dimer(user), tmp_path / f"way{ending}"
    path.write_text("of before")
    with pytest.raises(Missing, match=f"a {ending} file needs MDAnalysis.*pip install MDAnalysis.*{told}"):
        a.write_trajectory(path, every=1, frames=2)
    assert (path.read_text(), a.get_step()) == ("of before", 0)


@pytest.mark.parametrize("name", ["way.xtc", "way.dump", "way.trr", "way.pdb", "way.xyz.gz", "way.txt", "way"])
def test_any_other_ending_is_told(user: Any, tmp_path: pathlib.Path, name: str) -> None:
    a = dimer(user)
    with pytest.raises(
        ValueError, match=f"{name} ends in none of .xyz, .extxyz, .lammpstrj, .traj, .dcd, .nc. Write a .dcd, and MDAnalysis"
    ):
        a.write_trajectory(tmp_path / name, every=1, frames=3)
    assert os.listdir(tmp_path) == [] and a.get_step() == 0


@with_mda
@quiet
@pytest.mark.parametrize("ending", [".xtc", ".trr"])
def test_the_line_that_is_told_makes_the_other_file(
    user: Any, tmp_path: pathlib.Path, monkeypatch: pytest.MonkeyPatch, ending: str
) -> None:
    a = dimer(user)
    with pytest.raises(ValueError) as caught:
        a.write_trajectory(f"way{ending}", every=1, frames=3)
    a.write_trajectory(tmp_path / "x.dcd", every=1, frames=3)
    monkeypatch.chdir(tmp_path)
    eval(present(re.search(r"MDAnalysis\.Universe.*'all'\)", str(caught.value)))[0], {"MDAnalysis": MDAnalysis})
    made = universe(f"x{ending}", 2).trajectory
    # An .xtc has nanometres to three decimals.
    assert len(made) == 3 and abs(made[0].positions - [[0, 0, 0], [1.5, 0, 0]]).max() < 0.01


def test_a_dump_of_lammps(user: Any, tmp_path: pathlib.Path) -> None:
    """The dimer's way is 589 and 1774 units of 2^-24, which are 0.000035 and 0.000106, and its speed at step 1 half of the second."""
    path = tmp_path / "way.lammpstrj"
    dimer(user).write_trajectory(path, every=1, frames=2, symbols={"Ar": "X"})
    heads = [f"ITEM: TIMESTEP\n{step}\nITEM: NUMBER OF ATOMS\n2\nITEM: BOX BOUNDS pp pp pp\n" + "0 256.0\n" * 3 for step in (0, 1)]
    text = path.read_text()
    assert text.startswith(f"{heads[0]}ITEM: ATOMS id type element x y z vx vy vz\n1 1 X 0.000000 0.000000 0.000000 ")
    speed = 1774 * 2**-24 / 2 / 2**-7.5
    assert f"{heads[1]}ITEM: ATOMS id type element x y z vx vy vz\n1 1 X 0.000035 0.000000 0.000000 {speed:.9g} 0 0\n2 1 X 1.4999" in text


def test_a_dump_of_a_mixture_goes_on(user: Any, tmp_path: pathlib.Path) -> None:
    reader = pytest.importorskip("ase.io", reason="ASE is not installed")
    path, atoms = tmp_path / "way.lammpstrj", "3\nmix\nKr 0 0 0\nAr 100 0 0\nKr 255 0 0\n"
    mix = user.load_mix("mix", atoms, edge=256, species=("Ar", "Kr"), classes=[(1, 131072, 256)] * 3)
    mix.tug(2, (2**24, 0, 0))
    mix.write_trajectory(path, every=1, frames=2)
    mix.write_trajectory(path, every=1, frames=1, append=True, unwrap=True)
    frames = reader.read(path, index=":", format="lammps-dump-text")
    assert [frame.get_chemical_symbols() for frame in frames] == [["Kr", "Ar", "Kr"]] * 3
    assert [frame.positions[2][0] for frame in frames] == pytest.approx([255, 256, 256], abs=1e-2)
    assert path.read_text().count("\n1 2 Kr ") == path.read_text().count("\n2 1 Ar ") == 3
    assert path.read_text().count("ATOMS id type element xu yu zu vx") == 1


@pytest.mark.parametrize("name", ["way.extxyz", "WAY.XYZ"])
def test_endings_of_text(user: Any, tmp_path: pathlib.Path, name: str) -> None:
    dimer(user).write_trajectory(tmp_path / name, every=1, frames=1)
    assert (tmp_path / name).read_text().startswith('2\nLattice="256.0')


@quiet
@pytest.mark.parametrize("ending", BINARY)
def test_nobody_knows_the_name_of_a_partial_trajectory(user: Any, tmp_path: pathlib.Path, ending: Any) -> None:
    a, path = dimer(user), tmp_path / f"way{ending}"
    a.write_trajectory(path, every=1, frames=2)
    path.chmod(0o600)
    (tmp_path / "victim").write_text("mine\n")
    (tmp_path / f"{path.name}.{os.getpid()}.part").symlink_to("victim")
    a.advance(1)
    a.write_trajectory(path, every=1, frames=2, append=True)
    assert len(read(path, 2)) == 4 and path.stat().st_mode & 0o777 == 0o600
    assert (tmp_path / "victim").read_text() == "mine\n" and not path.is_symlink()


def test_a_trajectory_without_numpy(user: Any, tmp_path: pathlib.Path, monkeypatch: pytest.MonkeyPatch) -> None:
    pytest.importorskip("numpy", reason="numpy is not installed")
    a = dimer(user)
    for name, unwrap in (("one", False), ("other", True)):
        a.branch(name)
        a.write_trajectory(tmp_path / f"{name}.extxyz", every=1, frames=3, unwrap=unwrap)
        monkeypatch.setattr("ljclient.arrays.numpy", None)
        a.restore(name)
        a.write_trajectory(tmp_path / f"{name}.xyz", every=1, frames=3, unwrap=unwrap)
        monkeypatch.undo()
        assert (tmp_path / f"{name}.extxyz").read_text() == (tmp_path / f"{name}.xyz").read_text()
