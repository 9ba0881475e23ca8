"""XYZ text as whole numbers: a text has the places that the server shows, and none where the server refuses it."""
import random
from typing import Any, List

import pytest

from ljclient import Refused, scalars
from ljclient.exact import exact_frames, text_in_box
from support import listed

GOOD = ["1.", ".5", "15D-1", "-0.0000000005", "1e-999", "0e999", "1e6", "1000000.0000000004", "+1.5", "007", "-3.25e+1", "1.5d0"]
BAD = [".", "+", "1e", "1e+", "1.2.3", "NaN", "0x1", "1e1000", "1e7", "1000000.0000000005", "1_0", "0" * 41, "1e+0001", "\u0661"]


def exact_of(mode: str, text: str, edge: Any) -> Any:
    return exact_frames(mode, text.encode(), scalars.nano(edge))


def loaded(user: Any, mode: str, text: str, edge: Any) -> Any:
    """The places now and one step before that the program has of a text."""
    body = text.encode()
    user.ask(f"LOAD a {edge} {float(edge) / 100} 1 {mode} {len(body)}", body)
    session = user.session("a")
    now = listed(session.places())
    user.ask("REVERSE a")
    before = listed(session.places())
    user.ask("DROP a")
    return now, before


@pytest.mark.parametrize("edge", ["256", "21.04", "0.7", "1000000", "10.000000001", "0.001"])
def test_numbers(user: Any, edge: str) -> None:
    text = f"{len(GOOD)}\nc\n" + "".join(f"X {word} -{word.lstrip('+-')} 0\n" for word in GOOD)
    exact = exact_of("rest", text, edge)
    assert (list(exact.places), list(exact.before)) == loaded(user, "rest", text, edge)
    assert exact.symbols == ("X",) * len(GOOD)


@pytest.mark.parametrize("word", BAD)
def test_what_is_no_number(user: Any, word: str) -> None:
    text = f"1\nc\nX 0 {word} 0\n"
    assert exact_of("rest", text, "256") is None
    with pytest.raises(Refused):
        loaded(user, "rest", text, "256")


FRAMES = {
    "blank lines and ends": ("rest", "\n \t\n2 atoms\r\n\r\nAr 1 2 3 further words\r\n  Ar\t4 5 6", True),
    "no end of the comment": ("rest", "1\n", False),
    "two frames": ("pair", "2\nfirst\nA 0 0 0\nB 1 1 1\n\n2\nsecond\nC 0.5 0 0\nD 1 1 1.5\nrest 0 0 0\n", True),
    "another count": ("pair", "1\n\nA 0 0 0\n2\n\nA 0 0 0\nA 1 1 1\n", False),
    "one frame of two": ("pair", "1\n\nA 0 0 0\n", False),
    "a count of none": ("rest", "0\n\n", False),
    "a count that is too great": ("rest", "4097\n\n" + "A 0 0 0\n" * 4097, False),
    "a long symbol": ("rest", "1\n\nABCDEFGHIJKLMNOP 0 0 0\n", True),
    "a symbol that is too long": ("rest", "1\n\nABCDEFGHIJKLMNOPQ 0 0 0\n", False),
    "three words": ("rest", "1\n\nA 0 0\n", False),
    "a vertical tab": ("rest", "1\n\nA\x0b0 0 0\n", False),
    "two carriage returns": ("rest", "1\n\nA 0 0 0\r\r\n", False),
    "a further word with one": ("rest", "1\n\nA 0 0 0 x\r\r\n", True),
    "nothing": ("rest", "", False),
}


@pytest.mark.parametrize("name", FRAMES)
def test_frames(user: Any, name: str) -> None:
    mode, text, is_one = FRAMES[name]
    exact = exact_of(mode, text, "256")
    assert (exact is not None) == is_one
    if is_one:
        assert (list(exact.places), list(exact.before)) == loaded(user, mode, text, "256")
    else:
        with pytest.raises(Refused):
            loaded(user, mode, text, "256")


@pytest.mark.parametrize("edge", ["4.294967296", "21.04", "5.000000001", "256", "1000000"])
def test_text_of_places(user: Any, edge: str) -> None:
    drawn = random.Random(edge)
    places: List[Any] = [(0, 1, 2**32 - 1), *(tuple(drawn.randrange(2**32) for _ in range(3)) for _ in range(200))]
    symbols = ["Ar"] * len(places)
    text = text_in_box("c", symbols, places, scalars.nano(edge)).decode()
    assert loaded(user, "rest", text, edge) == (places, places)
    assert exact_of("rest", text, edge).places == tuple(places)
