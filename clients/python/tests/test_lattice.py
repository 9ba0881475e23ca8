"""The edge of the box that extended XYZ says itself, by a cubic Lattice in its comment line."""
import io
import pathlib
import subprocess
import sys
from typing import Any

import pytest

from ljclient import Scale, units, xyz
from ljclient.view import scenes
from support import EXAMPLES, SECONDS, listed

CUBE = 'Lattice="256 0 0 0 256.0 0 0 0 2.56e2"'
ATOM = "1\n{} step=3\nAr 64 0 128\n"
NO_CUBES = ["5 0 0 0 5 0 0 0 6", "5 0 0 1 5 0 0 0 5", "-5 0 0 0 -5 0 0 0 -5", "5 5 5", "inf 0 0 0 inf 0 0 0 inf", "a", ""]


def load(user: Any, source: Any, **words: Any) -> Any:
    return user.load("a", source, sigma=1, h=131072, **words)


def of_kind(kind: Any, text: Any, folder: Any) -> Any:
    """The same text as a source of this kind."""
    path = folder / "a.xyz"
    path.write_text(text)
    return {"path": path, "text": text, "bytes": text.encode(), "open": io.StringIO(text)}[kind]


@pytest.mark.parametrize("kind", ["path", "text", "bytes", "open"])
def test_the_edge_is_that_of_the_lattice(user: Any, tmp_path: pathlib.Path, kind: Any) -> None:
    a = load(user, of_kind(kind, ATOM.format(CUBE), tmp_path))
    assert (a.edge, listed(a.places())) == (256, [(2**30, 0, 2**31)])


@pytest.mark.parametrize(
    "name, edge", [("argon_256", 4 * 5.26), ("argon_hot", 4 * 5.26), ("argon_4000", 10 * 5.26), ("sodium_chloride", 4 * 5.64)]
)
def test_the_crystals_of_the_examples_say_theirs(name: Any, edge: Any) -> None:
    """So many cells, each as long as `examples/make_crystals` has it."""
    text = (EXAMPLES / f"{name}.xyz").read_bytes()
    assert xyz.lattice_edge(("rest", text)) == pytest.approx(edge, rel=1e-12)


def test_the_crystals_are_those_that_are_made(tmp_path: pathlib.Path) -> None:
    subprocess.run([sys.executable, EXAMPLES / "make_crystals"], cwd=tmp_path, check=True, timeout=SECONDS)
    assert sorted(path.name for path in tmp_path.iterdir()) == sorted(path.name for path in EXAMPLES.glob("*.xyz"))
    for path in tmp_path.iterdir():
        assert path.read_bytes() == (EXAMPLES / path.name).read_bytes()


def test_the_hot_crystal_has_a_temperature_and_no_momentum(user: Any) -> None:
    """1000 K, by `examples/make_crystals`, and a place is rounded to 10^-8 angstrom. Its atoms are those of the crystal at rest."""
    words: Any = {"dt": 2, "edge": 21.04, **units.ARGON}
    hot = user.load("hot", EXAMPLES / "argon_hot.xyz", pair=True, **words)
    rest = user.load("rest", EXAMPLES / "argon_256.xyz", **words)
    told = hot.measure()
    assert told.temperature == pytest.approx(1000, rel=1e-3)
    # A ring unit is 21.04 angstrom / 2^32, so the rounding of 256 atoms is less than 1000 of these
    assert all(abs(part) < 1000 for part in told.momentum)
    assert listed(hot.places()) == listed(rest.places())


def test_a_mixture_has_it_too(user: Any) -> None:
    mix = user.load_mix("mix", ATOM.format(CUBE), species=("Ar", "Kr"), classes=[(1, 4096, 256)] * 3)
    assert (mix.edge, listed(mix.places())) == (256, [(2**30, 0, 2**31)])


@pytest.mark.parametrize("first, second", [(CUBE, CUBE), (CUBE, "now"), ("before", CUBE)])
def test_one_of_two_frames_says_it(user: Any, first: Any, second: Any) -> None:
    assert load(user, ATOM.format(first) + ATOM.format(second), pair=True).edge == 256
    assert load(user, ATOM.format(second), before=ATOM.format(first), replace=True).edge == 256


def test_what_is_said_goes_before_it(user: Any) -> None:
    a = load(user, ATOM.format(CUBE), edge=512)
    assert (a.edge, listed(a.places())) == (512, [(2**29, 0, 2**30)])
    assert load(user, ATOM.format('Lattice="5 5 5"'), edge=512, replace=True).edge == 512


@pytest.mark.parametrize("cell", NO_CUBES)
def test_another_box_is_an_error_that_says_what_is_there(user: Any, cell: Any) -> None:
    with pytest.raises(ValueError, match="Lattice must be a cube along the axes") as caught:
        load(user, ATOM.format(f'Lattice="{cell}"'))
    assert f'along the axes, got "{cell}"; use edge=' in str(caught.value)
    assert user.sessions() == []


@pytest.mark.parametrize("source", [ATOM.format("of lattice 256"), [("Ar", 1, 2, 3)], "none\nhere\n", "\n"])
def test_without_a_lattice_the_edge_is_asked_for(user: Any, source: Any) -> None:
    with pytest.raises(ValueError, match="edge must be given, got None: the atoms have no Lattice; use edge="):
        load(user, source)


def test_the_lattice_is_that_of_a_comment_line_and_of_a_frame_that_is_loaded() -> None:
    assert xyz.lattice_edge(("rest", f"1\nplain\nAr 0 0 0 {CUBE}\n{ATOM.format(CUBE)}".encode())) is None
    assert xyz.lattice_edge(("rest", f"\n \n1\r\n{CUBE}\r\nAr 0 0 0\r\n".encode())) == 256


def test_a_trajectory_is_loaded_again_with_its_box(user: Any, tmp_path: pathlib.Path) -> None:
    a = load(user, ATOM.format(CUBE))
    a.write_trajectory(tmp_path / "way.xyz", every=1, frames=1)
    again = user.load("b", tmp_path / "way.xyz", sigma=1, h=131072)
    assert (again.edge, listed(again.places())) == (256, listed(a.places()))


@pytest.mark.parametrize("cell, edge, wanted", [("52.6 0 0 0 52.6 0 0 0 52.6", 7.0, 52.6), ("5 0 0 0 5 0 0 0 6", 7.0, 7.0)])
def test_the_view_takes_it_too(tmp_path: pathlib.Path, cell: Any, edge: Any, wanted: Any) -> None:
    (tmp_path / "a.xyz").write_text(ATOM.format(f'Lattice="{cell}"'))

    def scale_of(edge: Any) -> Any:
        return Scale.of(edge, 1, 1000)

    assert scenes.of_file(str(tmp_path / "a.xyz"), edge, scale_of, 0.0, 1).scale.edge == wanted
    if wanted == edge:
        with pytest.raises(ValueError, match="edge must be given for a file without a cubic Lattice"):
            scenes.of_file(str(tmp_path / "a.xyz"), None, scale_of, 0.0, 1)
