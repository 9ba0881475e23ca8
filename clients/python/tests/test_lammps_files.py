"""Data files of LAMMPS: read and written by ASE, and read by LAMMPS itself."""
import pathlib
import re
import shutil
import subprocess
from typing import Any

import pytest

from ljclient import units
from ljclient.lammps_files import read_lammps_data, write_lammps_data
from ljclient.state_points import binary, lattice
from support import present

pytest.importorskip("ase", reason="ASE is not installed")

import numpy

LMP = shutil.which("lmp")
TWO = """\
of two types

3 atoms
2 atom types
0 20 xlo xhi
0 20 ylo yhi
0 20 zlo zhi

Masses

1 39.948
2 83.798

Atoms # atomic

2 2 1 2 3
1 1 5 6 7
3 1 8 9 10

Velocities

1 1 0 0
2 0 -2 0
3 0 0 0.5
"""


def put(folder: pathlib.Path, text: str = TWO) -> pathlib.Path:
    path = folder / "x.data"
    path.write_text(text)
    return path


def test_types_and_velocities(tmp_path: pathlib.Path) -> None:
    """Atoms come in the order of their numbers, and metal velocities are in angstrom / ps."""
    atoms = read_lammps_data(put(tmp_path), ["Ar", "Kr"])
    assert atoms.get_chemical_symbols() == ["Ar", "Kr", "Ar"] and all(atoms.pbc)
    assert atoms.positions.tolist() == [[5, 6, 7], [1, 2, 3], [8, 9, 10]]
    # A unit of time of ASE is 10.180506 fs.
    assert atoms.get_velocities() * 1000 / 10.180506 == pytest.approx(numpy.array([[1, 0, 0], [0, -2, 0], [0, 0, 0.5]]), rel=1e-6)
    fast = read_lammps_data(put(tmp_path), ["Ar", "Kr"], units="real")
    assert fast.get_velocities() == pytest.approx(1000 * atoms.get_velocities(), rel=1e-9)


def test_reduced_units(user: Any, tmp_path: pathlib.Path) -> None:
    atoms = read_lammps_data(put(tmp_path, TWO.replace("2 2 1 2 3", "2 1 1 2 3")), "Ar", units="lj")
    a = user.load("a", atoms, sigma=1, epsilon=1, mass=1, h=2**18)
    # The velocities of half a step ago are multiples of the displacements in a step, whose time is 2^-7.
    motion: Any = a.motion
    moved = numpy.array(motion.displacements) * 20 / 2**32
    assert moved == pytest.approx(numpy.array([[1, 0, 0], [0, -2, 0], [0, 0, 0.5]]) / 2**7, abs=1e-7)


@pytest.mark.parametrize(
    "symbols, words, told",
    [
        ("Ar", {}, "symbols must have one for each type of the file, got 1 and type 2"),
        (["Ar", "X1"], {}, "a symbol must be an element of ASE, got 'X1'"),
        ("Ar", {"units": "SI"}, "units must be one of lj, metal"),
    ],
)
def test_what_cannot_be_read(tmp_path: pathlib.Path, symbols: Any, words: Any, told: str) -> None:
    with pytest.raises(ValueError, match=told):
        read_lammps_data(put(tmp_path), symbols, **words)


def test_there_and_back(user: Any, tmp_path: pathlib.Path) -> None:
    argon = user.load("argon", lattice("fcc", density=0.2, atoms=32, sigma=3.4), dt=2, **units.ARGON)
    argon.heat(90)
    write_lammps_data(argon, tmp_path / "x.data")
    atoms = read_lammps_data(tmp_path / "x.data", "Ar")
    assert atoms.positions == pytest.approx(numpy.array(argon.positions()), abs=1e-9)
    assert atoms.cell.lengths() == pytest.approx([argon.edge] * 3)
    assert atoms.get_velocities() / 10.180506 == pytest.approx(numpy.array(argon.velocities()), rel=1e-6, abs=1e-12)
    text = (tmp_path / "x.data").read_text()
    (mass,) = re.findall(r"\nMasses\n\n1 (\S+)\n\nAtoms # atomic ?\n", text)
    assert float(mass) == pytest.approx(39.948)


def test_units_have_to_be_known(user: Any, tmp_path: pathlib.Path) -> None:
    a = user.load("a", lattice("sc", density=0.1, atoms=27), sigma=1, h=4295)
    with pytest.raises(ValueError, match="units must be 'lj' where epsilon and mass are not known, got 'metal'"):
        write_lammps_data(a, tmp_path / "x.data", units="metal")
    assert not (tmp_path / "x.data").exists()


SCRIPT = """\
units lj
read_data {path}
pair_style lj/cut 2.5
pair_coeff 1 1 1.0 1.0 2.5
pair_coeff 1 2 1.5 0.8 2.0
pair_coeff 2 2 0.5 0.88 2.2
pair_modify shift no tail no
thermo_style custom step pe ke atoms
thermo_modify format float %.9g norm no
run 0
"""


@pytest.mark.skipif(LMP is None, reason="LAMMPS is not installed")
def test_lammps_reads_a_mixture(user: Any, tmp_path: pathlib.Path) -> None:
    """In units of two atoms A, from a session in angstrom. Potential energies differ by bins alone, and the kinetic one by nothing."""
    atoms = binary(lattice("fcc", density=0.2, atoms=108, sigma=3.4), ("A", "B"), fraction=0.3)
    classes = [(3.4, 4096, 256), (0.8 * 3.4, 9600, 384), (0.88 * 3.4, 2645, 128)]
    mix = user.load_mix("mix", atoms, species=("A", "B"), classes=classes, epsilon=0.0103, mass=39.948)
    mix.heat(200)
    mix.advance(2)
    write_lammps_data(mix, tmp_path / "x.data", units="lj", symbols={"A": "Ar", "B": "Kr"})
    (tmp_path / "in").write_text(SCRIPT.format(path=tmp_path / "x.data"))
    subprocess.run([str(LMP), "-in", "in", "-log", "log", "-screen", "none"], check=True, cwd=tmp_path, timeout=60)
    _, potential, kinetic, count = present(re.search(r"Step .*\n *(.*)", (tmp_path / "log").read_text()))[1].split()
    frame = next(mix.frames([0]))
    assert int(count) == 108 and float(potential) == pytest.approx(frame.energies.potential, rel=0.03)
    speeds = numpy.array(frame.velocities) / frame.scale.sigma * (frame.scale.time(1) / frame.scale.reduced_dt)
    assert float(kinetic) == pytest.approx((speeds**2).sum() / 2, rel=1e-6)
