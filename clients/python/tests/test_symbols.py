"""Symbols that name no element: what is written in their place, and what ASE is given."""
import pathlib
from typing import Any, Callable, Dict, List

import pytest


try:
    import ase.io
except ImportError:
    ase = None

with_ase = pytest.mark.skipif(ase is None, reason="ASE is not installed")
ATOMS = "3\nmix\nB 0 0 0\nA 1.5 0 0\nA 3 0 0\n"
LIKE = (1, 131072, 256)
NOBLE = {"A": "Ar", "B": "Kr"}
MEANT = ["Kr", "Ar", "Ar"]
ALL_NAMED = r"symbols=\{'A': 'Ar', 'B': \.\.\}"


@pytest.fixture
def mix(user: Any) -> Any:
    return user.load_mix("mix", ATOMS, edge=256, species=("A", "B"), classes=(LIKE, LIKE, LIKE))


@with_ase
def test_ase_is_given_the_elements_that_are_said(mix: Any) -> None:
    assert mix.to_ase(symbols=NOBLE).get_chemical_symbols() == MEANT


@with_ase
def test_a_symbol_that_is_no_element_is_an_error_that_says_what_to_pass(mix: Any) -> None:
    with pytest.raises(ValueError, match=f"a symbol must be an element of ASE, got 'A'; use {ALL_NAMED}"):
        mix.to_ase()


@with_ase
def test_a_species_is_no_element_if_the_other_one_is_none(user: Any) -> None:
    mix = user.load_mix("b", "1\nb\nB 0 0 0\n", edge=256, species=("A", "B"), classes=(LIKE, LIKE, LIKE))
    with pytest.raises(ValueError, match=f"a symbol must be an element of ASE, got 'A'; use {ALL_NAMED}"):
        mix.to_ase()
    assert mix.to_ase({"B": "Kr"}).get_chemical_symbols() == ["Kr"]


@with_ase
def test_elements_stay_as_they_are(user: Any) -> None:
    words: Dict[str, Any] = {"edge": 256, "classes": (LIKE, LIKE, LIKE)}
    salt = user.load_mix("salt", "2\nsalt\nNa 0 0 0\nB 1.5 0 0\n", species=("Na", "B"), **words)
    assert salt.to_ase().get_chemical_symbols() == ["Na", "B"]
    assert salt.to_ase({"Na": "K", "B": "B"}).get_chemical_symbols() == ["K", "B"]


@with_ase
def test_what_is_said_is_whole_and_names_elements(mix: Any) -> None:
    for said, told in (
        ({"A": "Ar"}, f"symbols must have one for 'B', got .*; use {ALL_NAMED}"),
        ({}, f"symbols must have one for 'B', got .*; use {ALL_NAMED}"),
        ({"A": "Ar", "B": "Kry"}, "symbols= must give elements of ASE, such as 'Ar', got 'Kry'"),
        ({"A": "Ar", "B": "K r"}, "1 to 16 printing characters, got 'K r'"),
        ({"A": "Ar", "B": 36}, "1 to 16 printing characters, got 36"),
        ("Ar", f"got 'Ar'; use {ALL_NAMED}"),
    ):
        with pytest.raises(ValueError, match=told):
            mix.to_ase(said)


@with_ase
def test_ase_reads_a_trajectory_with_elements(mix: Any, tmp_path: pathlib.Path) -> None:
    path = tmp_path / "way.xyz"
    mix.write_trajectory(path, every=2, frames=3, symbols=NOBLE)
    frames = ase.io.read(path, index=":")
    assert [frame.info["step"] for frame in frames] == [0, 2, 4]
    assert [frame.get_chemical_symbols() for frame in frames] == [MEANT] * 3
    assert frames[0].positions.tolist() == [[0, 0, 0], [1.5, 0, 0], [3, 0, 0]]


def test_a_trajectory_has_the_symbols_of_the_session_if_none_are_said(mix: Any, tmp_path: pathlib.Path) -> None:
    path = tmp_path / "way.xyz"
    mix.write_trajectory(path, every=1, frames=1)
    assert [line.split(" ")[0] for line in path.read_text().splitlines()[2:]] == ["B", "A", "A"]


def test_symbols_that_are_not_whole_leave_file_and_session_as_they_were(mix: Any, tmp_path: pathlib.Path) -> None:
    path = tmp_path / "way.xyz"
    path.write_text("of before")
    ways: List[Callable[[], object]] = [lambda: mix.write_trajectory(path, 1, 3, symbols={"B": "Kr"}), lambda: mix.write(path, {"B": "Kr"})]
    for write in ways:
        with pytest.raises(ValueError, match="symbols must have one for 'A'"):
            write()
    assert (path.read_text(), mix.get_step()) == ("of before", 0)


def test_a_dump_has_the_symbols_that_are_said(mix: Any, tmp_path: pathlib.Path) -> None:
    rows = ["Kr 0.000000 0.000000 0.000000", "Ar 1.500000 0.000000 0.000000", "Ar 3.000000 0.000000 0.000000"]
    text = "\n".join(["3", "step 0", *rows, ""])
    assert mix.dump(NOBLE) == text
    mix.write(tmp_path / "frame.xyz", symbols=NOBLE)
    assert (tmp_path / "frame.xyz").read_text() == text


@with_ase
def test_a_session_in_the_order_of_space(user: Any) -> None:
    rows = [(symbol, at % 5, at // 5 % 5, at // 25) for at, symbol in enumerate("AABAB" * 25)]
    words: Dict[str, Any] = {"edge": 8, "species": ("A", "B"), "classes": (LIKE, LIKE, LIKE), "order": "space"}
    mix = user.load_mix("s", rows, **words)
    assert mix.to_ase(NOBLE).get_chemical_symbols() == [NOBLE[row[0]] for row in rows]
    assert [line.split(" ")[0] for line in mix.dump(NOBLE).splitlines()[2:]] == [NOBLE[row[0]] for row in rows]
