"""Atoms of more than one symbol, or of another element than the substance that is said: an error, unless `symbols` says the symbols."""
import pathlib
from typing import Any, Dict, List

import pytest

from ljclient import units
from support import DIMER_SCALE, EXAMPLES

try:
    import ase
except ImportError:
    ase = None

TWO = "2\nmix\nKr 0 0 0\nAr 1.5 0 0\n"
WHERE = [(0, 0, 0), (1.5, 0, 0)]
TOLD = "since they are all alike here, got Ar and Kr; use symbols='Ar', or load_mix for two species"


def sources(folder: pathlib.Path) -> Dict[str, Any]:
    """An atom of krypton and one of argon, from each kind of source."""
    path = folder / "mix.xyz"
    path.write_text(TWO)
    made: Dict[str, Any] = {"path": path, "text": TWO, "bytes": TWO.encode(), "open": path.open()}
    made["rows"] = [("Kr", *WHERE[0]), ("Ar", *WHERE[1])]
    made["pair"] = {"source": TWO + TWO, "pair": True}
    made["before"] = {"source": TWO, "before": TWO}
    if ase is not None:
        made["atoms"] = ase.Atoms("KrAr", positions=WHERE)
    return made


KINDS = ["path", "text", "bytes", "open", "rows", "pair", "before"] + ["atoms"] * (ase is not None)


def words_of(source: Any) -> Dict[str, Any]:
    return source if isinstance(source, dict) else {"source": source}


@pytest.mark.parametrize("kind", KINDS)
def test_two_symbols_are_an_error(user: Any, tmp_path: pathlib.Path, kind: Any) -> None:
    with pytest.raises(ValueError, match=TOLD):
        user.load("a", **words_of(sources(tmp_path)[kind]), **DIMER_SCALE)
    assert user.sessions() == []


@pytest.mark.parametrize("symbols, wanted", [("Xe", ["Xe", "Xe"]), (["Kr", "Ar"], ["Kr", "Ar"]), (("a", "b"), ["a", "b"])])
@pytest.mark.parametrize("kind", KINDS)
def test_symbols_that_are_said_stand_in_their_place(user: Any, tmp_path: pathlib.Path, kind: Any, symbols: Any, wanted: Any) -> None:
    a = user.load("a", **words_of(sources(tmp_path)[kind]), symbols=symbols, **DIMER_SCALE)
    assert (a.symbols(), a.place(0), a.place(1)) == (wanted, (0, 0, 0), (25165824, 0, 0))
    assert a.measure().kinetic == 0


@pytest.mark.parametrize("kind", KINDS)
def test_there_is_a_symbol_for_each_atom(user: Any, tmp_path: pathlib.Path, kind: Any) -> None:
    with pytest.raises(ValueError, match="symbols must be one for each of the 2 atoms, got 3"):
        user.load("a", **words_of(sources(tmp_path)[kind]), symbols=["Ar"] * 3, **DIMER_SCALE)


def test_ten_of_krypton_among_argon(user: Any) -> None:
    text = (EXAMPLES / "argon_256.xyz").read_text().replace("Ar", "Kr", 10)
    with pytest.raises(ValueError, match="got Ar and Kr; use symbols='Ar'"):
        user.load("argon", text, edge=21.04, dt=2, **units.ARGON)
    assert user.load("argon", text, symbols="Ar", edge=21.04, dt=2, **units.ARGON).symbols() == ["Ar"] * 256


def test_many_symbols_are_named(user: Any) -> None:
    rows = [(symbol, 2 * number, 0, 0) for number, symbol in enumerate(("O", "H", "Ar", "H"))]
    with pytest.raises(ValueError, match="since they are all alike here, got Ar, H and O"):
        user.load("a", rows, **DIMER_SCALE)


@pytest.mark.parametrize("text", ["", "x\n", "2\nc\nAr 0 0 0\n", "3\n", "1\nc\n\n"])
def test_symbols_change_nothing_in_a_text_that_is_no_frame(user: Any, text: Any) -> None:
    words: Dict[str, Any] = {**DIMER_SCALE, "source": text.encode()}
    told = []
    for symbols in (None, "Ar"):
        with pytest.raises(Exception) as caught:
            user.load("a", symbols=symbols, **words)
        told.append((type(caught.value), getattr(caught.value, "line", None)))
    assert told[0] == told[1]


@pytest.mark.parametrize("name", ["Ne", "Ar", "Kr", "Xe"])
def test_the_element_of_a_substance(user: Any, name: Any) -> None:
    words: Dict[str, Any] = {"edge": 30, "dt": 2, **units.SUBSTANCES[name]}
    other = "He"
    with pytest.raises(ValueError, match=f"those of {name}, got {other}; use those of {other}, or symbols='{name}'"):
        user.load("a", [(other, 0, 0, 0)], **words)
    for number, (symbol, said) in enumerate([(name, None), ("A", None), ("1", None), (other, name), (other, other)]):
        session = user.load(f"a{number}", [(symbol, 0, 0, 0)], symbols=said, **words)
        assert session.symbols() == [said or symbol]


def test_numbers_of_no_substance_are_of_any_element(user: Any) -> None:
    changes: List[Dict[str, Any]] = [{"sigma": 3.41}, {"epsilon": 0.0104}, {"mass": 40}]
    for number, change in enumerate(changes):
        words: Dict[str, Any] = {"edge": 30, "dt": 2, **units.ARGON, **change}
        assert user.load(f"a{number}", [("Kr", 0, 0, 0)], **words).symbols() == ["Kr"]


def test_two_species_are_for_a_mixture(user: Any) -> None:
    mix = user.load_mix("m", TWO, edge=256, species=("Ar", "Kr"), classes=[(1, 4096, 256)] * 3)
    assert mix.symbols() == ["Kr", "Ar"]
    named = user.load_mix("n", TWO, symbols=["A", "B"], edge=256, species=("A", "B"), classes=[(1, 4096, 256)] * 3)
    assert named.symbols() == ["A", "B"]
