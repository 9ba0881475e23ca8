"""What may be said as a number or as a symbol: numbers of numpy too, and clear errors for what is none."""
import importlib.util
import re
from typing import Any, Dict

import pytest

from ljclient import Mixture, Scale
from support import DIMER_SCALE, dimer, listed, present

numpy = importlib.import_module("numpy") if importlib.util.find_spec("numpy") else None
with_numpy = pytest.mark.skipif(numpy is None, reason="numpy is not installed")
ARGON: Dict[str, Any] = {"edge": 21.04, "sigma": 3.4, "epsilon": 0.01, "mass": 40.0, "dt": 2}
PAIRS: Dict[str, Any] = {"edge": 21, "species": ("Ar", "Kr"), "first": (3.4, 0.01), "second": (3.6, 0.012), "mass": 40, "dt": 2}
TWO = [[0, 0, 0], [1.5, 0, 0]]


def names(message: Any) -> Any:
    """That a TypeError or a ValueError has this message."""
    return pytest.raises((TypeError, ValueError), match=re.escape(message))


@pytest.mark.parametrize("name", ["edge", "sigma", "epsilon", "mass", "dt"])
@pytest.mark.parametrize("value", [(1, 2), [2]])
def test_what_is_no_number_is_named(name: Any, value: Any) -> None:
    with names(f"{name} must be one number, got {value!r}"):
        Scale.of(**{**ARGON, name: value})


def test_a_mass_is_one_number_beside_h_too(user: Any) -> None:
    with names("mass must be one number, got (1, 2)"):
        dimer(user, epsilon=0.01, mass=(1, 2))
    assert user.sessions() == []


def test_a_mixture_has_one_mass() -> None:
    with names("mass must be one number, got (40, 84): both species have one mass here"):
        words: Dict[str, Any] = {**PAIRS, "mass": (40, 84)}
        Mixture.of(**words)


@pytest.mark.parametrize(
    "said, told",
    [
        ({"first": 3.4}, "first must be (sigma, epsilon), got 3.4"),
        ({"second": (3.6, 0.012, 84)}, "second must be (sigma, epsilon), got (3.6, 0.012, 84)"),
        ({"mixed": (3.5,)}, "mixed must be (sigma, epsilon), got (3.5,)"),
        ({"first": (3.4, "deep")}, "epsilon must be one number, got 'deep'"),
    ],
)
def test_a_pair_is_sigma_and_epsilon(said: Any, told: Any) -> None:
    with names(told):
        Mixture.of(**{**PAIRS, **said})


@pytest.mark.parametrize("classes", [[(1, 4096)] * 3, [1, 2, 3], [(1, 4096, 256)] * 2])
def test_a_class_is_sigma_and_h_and_weight(classes: Any) -> None:
    with names(f"three classes of (sigma, h, weight), got {classes!r}"):
        Mixture.of(21, ("Ar", "Kr"), classes=classes)


@pytest.mark.parametrize(
    "act, told",
    [
        (lambda a: a.advance(2.5), "the number of steps must be a whole number (int), got 2.5"),
        (lambda a: a.advance(2, piece="x"), "piece must be a whole number (int), got 'x'"),
        (lambda a: a.place("1"), "the number of an atom must be a whole number (int), got '1'"),
        (lambda a: a.tug(1, (1, 2)), "a displacement must be three whole numbers (int), in ring units along x, y and z, got (1, 2)"),
        (lambda a: a.tug(1, (1.5, 2, 3)), "a displacement must be three whole numbers (int)"),
        (lambda a: a.tug(1, 5), "a displacement must be three whole numbers (int)"),
        (lambda a: a.heat("hot"), "temperature must be one number, got 'hot'"),
        (lambda a: a.sample("x", 2), "every must be a whole number (int), got 'x'"),
        (lambda a: a.thermo(1, 2.0), "rows must be a whole number (int), got 2.0"),
    ],
)
def test_what_is_no_number_of_a_session_is_named(user: Any, act: Any, told: Any) -> None:
    a = dimer(user)
    with names(told):
        act(a)
    assert (a.get_step(), listed(a.places())) == (0, [(0, 0, 0), (25165824, 0, 0)])


@pytest.mark.parametrize("name", ["temprature", "positions", "step", "n_atoms", "dt"])
def test_what_is_no_attribute_of_a_session_cannot_be_set(user: Any, name: Any) -> None:
    with pytest.raises(AttributeError):
        setattr(dimer(user), name, 3)


def test_h_is_a_whole_number() -> None:
    with names("the step factor h must be a whole number (int), got '131072'"):
        Scale.of(256, 1, "131072")  # type: ignore[arg-type]


@pytest.mark.parametrize(
    "source, symbols, told",
    [
        (TWO, 18, "symbols must be a string, or a list of one for each atom, got 18"),
        (TWO, ["Ar", 18], "the symbol of atom 1 must be a word such as 'Ar', got 18"),
        (TWO, [None, 18], "the symbol of atom 0 must be a word such as 'Ar', got None"),
        (
            [(18, 0, 0, 0), (18, 1, 0, 0)],
            None,
            "positions must come with symbols, got None; use symbols='Ar', or rows of (symbol, x, y, z)",
        ),
        ([1, 2], None, "positions must come with symbols, got None; use symbols='Ar'"),
        ([[0, 0, 0], [1, 0]], "Ar", "the position of atom 1 must be three numbers, got [1, 0]"),
        ([["x", 0, 0]], "Ar", "the position of atom 0 must be three numbers, got ['x', 0, 0]"),
        (5, None, "the atoms must be a path, a file, a text, `Atoms` of ASE or a list, got 5"),
    ],
)
def test_what_is_no_atom_is_named(user: Any, source: Any, symbols: Any, told: Any) -> None:
    with names(told):
        user.load("a", source, symbols=symbols, **DIMER_SCALE)
    assert user.sessions() == []


@with_numpy
def test_numbers_of_numpy_are_numbers(user: Any) -> None:
    whole, real = present(numpy).int64, present(numpy).float64
    scale = Scale.of(real(21.04), real(3.4), epsilon=real(0.01), mass=whole(40), dt=whole(2))
    assert scale == Scale.of(**ARGON) and type(scale.mass) is float
    assert Scale.of(whole(256), present(numpy).int32(1), whole(131072)) == Scale.of(256, 1, 131072)
    assert Scale.of(present(numpy).array([256.0]), 1, 131072).edge == 256
    a = user.load(
        "a", present(numpy).array(TWO), symbols=present(numpy).array(["Ar", "Kr"]), edge=whole(256), sigma=real(1), h=whole(131072)
    )
    assert (a.symbols(), a.place(whole(1))) == (["Ar", "Kr"], (25165824, 0, 0))
    assert a.tug(whole(1), present(numpy).array([1, 2, 3])) == 0
    assert (a.advance(whole(2), piece=whole(1)), user.advance([a], whole(1)), a.start(whole(1))) == (2, [3], 4)
    assert a.heat(real(1.0), seed=whole(3)) == a.heat(1, seed=3)
    assert a.sample(whole(1), whole(2)).steps == [4, 5]


@with_numpy
def test_numbers_of_numpy_make_a_mixture() -> None:
    real = present(numpy).float64
    pairs: Dict[str, Any] = {
        "first": (real(3.4), real(0.01)),
        "second": present(numpy).array([3.6, 0.012]),
        "mass": present(numpy).int64(40),
        "dt": real(2),
    }
    assert str(Mixture.of(**{**PAIRS, **pairs})) == str(Mixture.of(**PAIRS))
    classes = present(numpy).array([(1, 4096, 256)] * 3)
    assert Mixture.of(256, ("A", "B"), classes=classes).words == "A B 1 4096 256 1 4096 256 1 4096 256"
