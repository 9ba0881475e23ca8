"""Copies of a session, and sessions that are saved on their way."""
import os
import pathlib
from unittest import mock
from typing import Any, Dict, Iterator, List

import pytest
import time

from ljclient import EnergyWarning, refusals, run, saving, units
from support import EXAMPLES, PROGRAM, dimer, go_on_alike, listed


@pytest.fixture(name="user")
def user_of_a_program() -> Iterator[Any]:
    with run(PROGRAM, sessions=3) as user:
        yield user


def argon(user: Any, name: str = "argon", **words: Any) -> Any:
    session = user.load(name, EXAMPLES / "argon_256.xyz", edge=21.04, dt=2, **units.ARGON, **words)
    session.heat(90)
    session.advance(30)
    return session


class Holds:
    """What `go_on_alike` needs of a test of unittest."""

    @staticmethod
    def assertEqual(one: Any, other: Any) -> None:
        assert one == other


@pytest.mark.parametrize("order", [None, "space"])
def test_a_copy_is_the_same_to_the_bit(user: Any, order: Any) -> None:
    a = argon(user, order=order)
    a.reverse()
    a.branch("here")
    copied = a.copy("twin")
    assert (copied.name, copied.scale, copied.get_step(), copied.symbols()) == ("twin", a.scale, a.get_step(), a.symbols())
    assert (copied.saved(), [name for name, _ in a.saved()]) == ([], ["here"])
    go_on_alike(Holds, a, copied)
    copied.tug(0, (5, 0, 0))
    assert copied.advance(1) == a.advance(1)
    assert listed(copied.places())[0] != listed(a.places())[0] and listed(copied.places())[1:] == listed(a.places())[1:]


def test_of_two_species(user: Any) -> None:
    pairs: Dict[str, Any] = {"first": (3.4, 0.0103), "second": (3.6, 0.0141), "mass": 48.0, "dt": 2}
    text = (EXAMPLES / "argon_256.xyz").read_text().replace("Ar", "Kr", 100)
    mix = user.load_mix("mix", text, edge=21.04, species=("Ar", "Kr"), **pairs)
    mix.advance(20)
    twin = mix.copy("twin")
    assert (twin.mixture, twin.symbols()) == (mix.mixture, mix.symbols())
    go_on_alike(Holds, mix, twin)


def test_names_that_are_taken(user: Any) -> None:
    a, b = dimer(user), dimer(user, "b")
    b.advance(3)
    with pytest.raises(ValueError, match="another name"):
        a.copy("a", replace=True)
    with pytest.raises(refusals.Exists):
        a.copy("b")
    assert b.get_step() == 3
    assert a.copy("b", replace=True).get_step() == 0
    a.copy("c")
    with pytest.raises(refusals.QuotaSessions):
        a.copy("d")
    with pytest.raises(ValueError, match="a name must be"):
        a.copy("no name")
    assert [row.name for row in user.sessions()] == ["a", "b", "c"]


def test_a_copy_is_watched_as_the_session_was(user: Any) -> None:
    a = dimer(user, watch=False)
    user._known_of("a").watch.start = (0, 99.0)
    assert user._known_of(a.copy("b").name).watch == user._known_of("a").watch
    user._known_of("a").watch.gone += 1
    assert user._known_of("b").watch.gone != user._known_of("a").watch.gone
    with pytest.warns(EnergyWarning):
        user.load("hot", EXAMPLES / "argon_256.xyz", edge=21.04, sigma=3.4, h=300000)


def test_saved_on_the_way(user: Any, tmp_path: pathlib.Path) -> None:
    a, twin = argon(user), argon(user, "twin")
    told: List[Any] = []
    path = tmp_path / "a.saved"
    at = iter([0.0, 5.0, 10.0, 10.0, 12.0, 25.0, 25.0, 26.0])
    saves = []
    clock = mock.patch.object(time, "monotonic", lambda: next(at))
    with clock, mock.patch.object(type(a), "save", lambda self, to: saves.append(len(told))):
        with saving.saver(a, path, 10, lambda *numbers: told.append(numbers)) as tell:
            assert tell is not None
            for done in range(0, 60, 10):
                tell(done, 50)
    # At the start; 10 and 15 seconds later, after reports of steps; and at the end.
    assert saves == [0, 3, 5, 6]
    assert a.advance(40, piece=7, save=path, seconds=0) == twin.advance(40) == 70
    go_on_alike(Holds, user.load_saved(path, name="again"), twin)


def test_a_run_that_is_lost_goes_on_from_the_file(user: Any, tmp_path: pathlib.Path) -> None:
    a, path = argon(user), tmp_path / "a.saved"

    def stops(done: Any, total: Any) -> None:
        if done == 20:
            raise ConnectionError("lost")

    with pytest.raises(ConnectionError):
        a.advance(50, progress=stops, piece=10, save=path, seconds=0)
    with run(PROGRAM) as other:
        again = other.load_saved(path)
        assert again.get_step() == 40
        a.reverse()
        a.advance(10)
        a.reverse()
        assert a.get_step() == again.get_step()
        go_on_alike(Holds, again, a)


def test_the_path_is_looked_at_before_a_step_is_made(user: Any, tmp_path: pathlib.Path) -> None:
    a = argon(user)
    os.mkfifo(tmp_path / "fifo")
    for path in (tmp_path, tmp_path / "fifo"):
        with pytest.raises(ValueError, match="use the name of a file"):
            a.advance(10, save=path)
    with pytest.raises(FileNotFoundError):
        a.advance(10, save=tmp_path / "none" / "a.saved")
    for wrong in (-1, float("nan"), "long"):
        with pytest.raises(ValueError, match="seconds must be"):
            a.advance(10, save=tmp_path / "a.saved", seconds=wrong)
    assert (a.get_step(), sorted(path.name for path in tmp_path.iterdir())) == (30, ["fifo"])
    user._known.clear()
    with pytest.raises(ValueError, match="the scale of argon must be known"):
        user.session("argon").advance(10, save=tmp_path / "a.saved")
