"""Files of other programs: what `load` says reads them, and that it does."""
import pathlib
import re
import warnings
from typing import Any

import pytest

from ljclient import other_files, refusals
from support import DIMER, DIMER_SCALE

try:
    import ase
    import ase.io
except ImportError:
    ase = None

ENDINGS = [*other_files.OF_ASE, *other_files.OF_MDANALYSIS]
with_ase = pytest.mark.skipif(ase is None, reason="ASE is not installed")


@pytest.mark.parametrize("ending", [*ENDINGS, ".TRAJ"])
@pytest.mark.parametrize("text", [b"", b"no count\n", b"\x00\x01\xff binary", b"- of Ulm"])
def test_what_reads_it_is_told(user: Any, tmp_path: pathlib.Path, ending: Any, text: Any) -> None:
    path = tmp_path / f"way{ending}"
    path.write_bytes(text)
    reads = "ase.io.read" if ending.lower() in other_files.OF_ASE else "MDAnalysis.Universe"
    with pytest.raises(ValueError, match=f"must be XYZ text, got a {ending.lower()} file; use {reads}"):
        user.load("a", path, **DIMER_SCALE)
    assert user.sessions() == []


@pytest.mark.parametrize("ending", ENDINGS)
def test_xyz_text_may_have_any_ending(user: Any, tmp_path: pathlib.Path, ending: Any) -> None:
    path = tmp_path / f"way{ending}"
    path.write_text("\n" + DIMER)
    assert user.load("a", path, **DIMER_SCALE).n_atoms == 2


def test_a_file_that_is_not_there_is_not_there(user: Any, tmp_path: pathlib.Path) -> None:
    with pytest.raises(FileNotFoundError):
        user.load("a", tmp_path / "none.traj", **DIMER_SCALE)


def test_another_file_is_refused_by_the_server(user: Any, tmp_path: pathlib.Path) -> None:
    path = tmp_path / "way.txt"
    path.write_text("no count\n")
    with pytest.raises(refusals.XyzCount):
        user.load("a", path, **DIMER_SCALE)


@with_ase
@pytest.mark.filterwarnings("ignore")
@pytest.mark.parametrize(
    "ending, words", [(".traj", {}), (".data", {"format": "lammps-data"}), (".gro", {}), (".pdb", {}), (".cif", {}), (".lammpstrj", None)]
)
def test_what_is_said_to_read_it_reads_it(user: Any, tmp_path: pathlib.Path, ending: Any, words: Any) -> None:
    path = tmp_path / f"atoms{ending}"
    if words is None:
        bounds = "ITEM: BOX BOUNDS pp pp pp\n" + "0 8\n" * 3
        atoms = "ITEM: ATOMS id type x y z\n1 1 0 0 0\n2 1 1.5 0 0\n"
        path.write_text(f"ITEM: TIMESTEP\n0\nITEM: NUMBER OF ATOMS\n2\n{bounds}{atoms}")
    else:
        made = ase.Atoms("Ar2", positions=[[0, 0, 0], [1.5, 0, 0]], cell=[8] * 3, pbc=True)
        ase.io.write(path, made, **words)
    with pytest.raises(ValueError) as caught:
        user.load("a", path, sigma=1, h=1000)
    code = re.search(r"ase\.io\.read\(.*\)(?= and load its Atoms)", str(caught.value))
    assert code is not None
    with warnings.catch_warnings():
        warnings.simplefilter("ignore")
        a = user.load("a", eval(code[0], {"ase": ase}), symbols="Ar", sigma=1, h=1000)
    assert (a.edge, a.place(1)[0]) == (8, pytest.approx(1.5 / 8 * 2**32, rel=1e-5))
