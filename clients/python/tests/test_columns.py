"""Velocities in the columns of extended XYZ, which a session begins with.

The box is 256 wide, so a ring unit is 2^-24. With epsilon and mass 1 and h = 2^20 the time step is 2^-6 of the unit of ASE, which
is 10.180505671 fs: a velocity of 1 in ASE's units is a displacement of 2^18 ring units for each step.
"""
import pathlib
from typing import Any, Dict, Tuple

import pytest

from ljclient import units
from ljclient.view import scenes
from support import ARGON, EXAMPLES, listed

try:
    import ase.io
    import ase.units
    import numpy
except ImportError:
    ase = None

with_ase = pytest.mark.skipif(ase is None, reason="ASE is not installed")
SCALE: Dict[str, Any] = {"edge": 256, "sigma": 1, "h": 2**20, "watch": False}
UNITS: Dict[str, Any] = {"epsilon": 1, "mass": 1}
ASE_TIME = 10.180505671  # fs
POS = "species:S:1:pos:R:3"


def text(columns: str, *rows: str, more: str = "") -> str:
    """A frame of two atoms, 100 apart, with these columns behind their places."""
    lines = [f"Ar {100 * atom} 0 0 {row}\n" for atom, row in enumerate(rows)]
    return f"{len(rows)}\n{more}Properties={POS}:{columns}\n{''.join(lines)}"


def momentum(session: Any) -> Tuple[int, int, int]:
    told: Tuple[int, int, int] = session.measure().momentum
    return told


@pytest.mark.parametrize(
    "columns, row",
    [
        ("momenta:R:3", "1 0 -2"),
        ("id:I:1:momenta:R:3:magmom:R:1", "7 1 0 -2 9"),
        ("masses:R:1:momenta:R:3", "4 4 0 -8"),
        ("momenta:R:3:masses:R:1", "0.5 0 -1 0.5"),
        ("velo:R:3:momenta:R:3", "5 5 5 1 0 -2"),
        *[(f"{name}:R:3", f"{1 / ASE_TIME!r} 0 {-2 / ASE_TIME!r}") for name in ("velo", "vel", "velocities", "velocity")],
        ("move_mask:L:1:tag:S:1:velo:R:3", f"T x {1 / ASE_TIME!r} 0 {-2 / ASE_TIME!r}"),
        ("vel:I:3:momenta:R:3", "0 0 0 1.0 0.0 -2.0"),
    ],
)
def test_a_column_is_the_motion_that_atoms_begin_with(user: Any, columns: Any, row: Any) -> None:
    still = " ".join("0" for _ in row.split()) if "masses" not in columns else row.replace("-", "")
    a = user.load("a", text(columns, row, still), **SCALE, **UNITS)
    moved = a.motion.displacements
    assert moved[0] == (2**18, 0, -(2**19))
    a.advance(2)
    assert a.place(0) == (2**19, 0, 2**32 - 2**20)


def test_what_was_rounded_is_told(user: Any) -> None:
    a = user.load("a", text("momenta:R:3", f"{5.25 / 2**18} {-0.75 / 2**18} 0", f"0 0 {0.25 / 2**18}"), **SCALE, **UNITS)
    assert a.motion.displacements == ((5, -1, 0), (0, 0, 0))
    told = "2 velocities, rounded to multiples of 3.75e-07 angstrom / fs: off by 9.37e-08 at most along an axis"
    assert str(a.motion) == told


@pytest.mark.parametrize("kind", ["path", "text", "bytes", "open"])
def test_each_source_of_text(user: Any, tmp_path: pathlib.Path, kind: Any) -> None:
    frame = text("momenta:R:3", "1 0 0", "0 1 0", more='Lattice="256 0 0 0 256 0 0 0 256" ')
    path = tmp_path / "a.xyz"
    path.write_text(frame)
    source = {"path": path, "text": frame, "bytes": frame.encode(), "open": path.open()}[kind]
    assert momentum(user.load("a", source, sigma=1, h=2**20, watch=False, **UNITS)) == (2**18, 2**18, 0)


def test_quoted_columns_and_lines_that_end_with_a_return(user: Any) -> None:
    frame = f'\n2\nProperties="{POS}:momenta:R:3" step=1\nAr 0 0 0 1 0 0\nAr 100 0 0 0 0 1\n'.replace("\n", "\r\n")
    assert momentum(user.load("a", frame, **SCALE, **UNITS)) == (2**18, 0, 2**18)


def test_a_mixture_begins_with_it_too(user: Any) -> None:
    words: Dict[str, Any] = {"species": ("Ar", "Kr"), "classes": [(1, 2**20, 256)] * 3, **UNITS}
    assert momentum(user.load_mix("m", text("momenta:R:3", "1 0 0", "1 0 0"), edge=256, watch=False, **words)) == (2**19, 0, 0)


@pytest.mark.parametrize(
    "frame",
    [
        "2\nno columns\nAr 0 0 0 1 1 1\nAr 100 0 0 1 1 1\n",
        text("force:R:3", "1 1 1", "1 1 1"),
        text("velo:R:3", "0 0 0", "0 0.0 -0"),
        "2\nvelo:R:3\nAr 0 0 0 1 1 1\nAr 100 0 0 1 1 1\n",
    ],
)
def test_text_without_velocities_is_at_rest(user: Any, frame: Any) -> None:
    a = user.load("a", frame, **SCALE)
    assert (a.measure().kinetic, a.motion) == (0, None)


def test_the_atoms_before_count_in_their_place(user: Any) -> None:
    now = text("velo:R:3", "1 1 1", "1 1 1")
    assert momentum(user.load("a", now, before="2\n\nAr -0.25 0 0\nAr 100 0 0\n", **SCALE)) == (2**22, 0, 0)
    assert momentum(user.load("b", now, before=now, **SCALE)) == (0, 0, 0)
    assert momentum(user.load("c", now + now, pair=True, **SCALE)) == (0, 0, 0)


@pytest.mark.parametrize(
    "frame, words, told",
    [
        (
            text("velo:R:3", "1 0 0", "0 0 0"),
            {},
            "for atoms with velocities, got none; use epsilon= and mass=, or before= with the same text, without its column velo",
        ),
        (text("vel:R:3", "1 0 0", "0 0 0"), {"epsilon": 1}, "use epsilon= and mass=, or .* its column vel"),
        (text("momenta:R:3", "1 0 0", "0 0 0"), {}, "use epsilon= and mass=, or .* its column momenta"),
        (text("velo:R:3", "1 0 0", "0 0"), UNITS, "the velo of atom 1 of the text must be 3 numbers"),
        (text("momenta:R:3", "1 0 x", "0 0 0"), UNITS, "the momenta of atom 0 of the text must be 3 numbers"),
        (text("masses:R:1:momenta:R:3", "1 1 0 0", ""), UNITS, "the momenta of atom 1 of the text must be 3 numbers"),
        (text("masses:R:1:momenta:R:3", "1 1 0 0", "0 0 0 0"), UNITS, "a mass in the text must be a finite number above 0, got 0.0"),
        (text("velo:R:3", "nan 0 0", "0 0 0"), UNITS, "velocity of atom 0 must be below half the box in a step"),
        (text("vel:R:1", "1", "1"), UNITS, "a column vel must be vel:R:3, got vel:R:1"),
        (text("vel:S:3", "1 1 1", "1 1 1"), UNITS, "a column vel must be vel:R:3, got vel:S:3"),
        (text("velo:R:3", "1e9 0 0", "0 0 0"), UNITS, "velocity of atom 0 must be below half the box in a step"),
        ("1\nProperties=pos:R:3:species:S:1\nAr 0 0 0\n", UNITS, "first columns of the text must be species:S:1:pos:R:3, got Properties="),
        (
            "1\nProperties=species:S:1:velo:R:3:pos:R:3\nAr 0 0 0 1 2 3\n",
            {},
            "first columns of the text must be species:S:1:pos:R:3, got Properties=",
        ),
    ],
)
def test_columns_that_cannot_be_taken(user: Any, frame: Any, words: Any, told: Any) -> None:
    with pytest.raises(ValueError, match=told):
        user.load("a", frame, **SCALE, **words)
    assert user.sessions() == []


def test_a_trajectory_is_loaded_again_with_its_motion(user: Any, tmp_path: pathlib.Path) -> None:
    argon = user.load("argon", EXAMPLES / "argon_256.xyz", **ARGON)
    argon.heat(300)
    argon.advance(100)
    argon.write_trajectory(tmp_path / "way.xyz", every=1, frames=1)
    again = user.load("again", tmp_path / "way.xyz", dt=10, **units.ARGON)
    (row,) = argon.thermo(every=1, rows=1)
    assert again.measure().temperature == pytest.approx(row.temperature, rel=0.01)
    unit = 21.04 / 2**32 / again.dt
    moved = [[part * unit for part in each] for each in again.motion.displacements]
    for mine, wanted in zip(moved, argon.velocities()):
        assert mine == pytest.approx(list(wanted), abs=0.51 * unit)


@with_ase
def test_momenta_that_ase_has_written(user: Any, tmp_path: pathlib.Path) -> None:
    atoms = ase.io.read(EXAMPLES / "argon_256.xyz", format="xyz")
    atoms.set_cell([21.04] * 3)
    atoms.pbc = True
    spread = (217 * ase.units.kB * 39.948) ** 0.5
    atoms.set_momenta(numpy.random.default_rng(1).normal(0, spread, (256, 3)))
    path = tmp_path / "argon.xyz"
    ase.io.write(path, atoms, format="extxyz")
    assert "momenta:R:3" in path.read_text()
    argon = user.load("argon", path, dt=2, **units.ARGON)
    assert argon.measure().temperature == pytest.approx(atoms.get_temperature(), rel=1e-5)
    by_atoms = user.load("atoms", atoms, dt=2, **units.ARGON)
    assert abs(argon.velocities() - by_atoms.velocities()).max() < 1e-7


def test_the_view_begins_at_rest_with_the_temperature_that_it_is_told(user: Any, tmp_path: pathlib.Path) -> None:
    path = tmp_path / "salt.xyz"
    path.write_text(text("velo:R:3", "1 0 0", "0 0 0").replace("Ar 100", "Kr 100"))
    scene = scenes.of_file(str(path), 256.0, lambda edge: units.Scale.of(edge, 1, 1000), 0.0, 1)
    session = scene.begin(user, "view")
    assert (session.measure().kinetic, session.symbols()) == (0, ["Ar", "Kr"])
    assert listed(session.places()) == [(0, 0, 0), (100 * 2**24, 0, 0)]
