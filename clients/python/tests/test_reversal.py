"""Echoes, runs that part, entropies of mixing and the direction of time, of atoms whose motion is known by hand."""
import math
import os
import pathlib
import signal
from typing import Any, List
from unittest import mock

import pytest

from ljclient import ClientError, ConnectionLost, arrays, refusals, reversal, run
from ljclient.quantities import above_maxwell
from ljclient.reversal import Kick, arrow, divergence, echo, entropy_of_mixing
from support import PROGRAM, dimer, joined, listed, process_of

numpy = pytest.importorskip("numpy", reason="numpy is not installed")

UNIT = 2.0**-24
"""A ring unit in sigma, in a box of 256 sigma."""
APART = "3\nout of reach\nA 10 10 10\nA 60 60 60\nA 110 110 110\n"
WAY = [0, 589, 1774, 3555]
"""Of each atom of the dimer, in ring units: worked out in README.md, and 596 more for each step."""


def free(user: Any, text: str = APART) -> Any:
    """Atoms that are out of reach of each other, at rest."""
    return user.load("free", text, symbols="A", edge=256, sigma=1, h=131072)


def state_of(session: Any) -> Any:
    return session.get_step(), listed(session.places()), session.measure(), session.saved()


def test_an_echo_without_a_kick_is_exact(user: Any) -> None:
    a = dimer(user)
    before = state_of(a)
    told = echo(a, 7, None, every=3)
    assert (told.steps.tolist(), told.distances.tolist(), told.returned) == ([0, 1, 4, 7], [0, 0, 0, 0], 0)
    assert str(told) == "7 steps there and back, without a kick: 0 sigma from the start, bit for bit"
    assert state_of(a) == before


def test_a_kick_of_a_free_atom_grows_by_itself_in_each_step(user: Any) -> None:
    """REVERSE is a step back, after which the atom has a displacement more in each step. One of three atoms has it."""
    a = free(user)
    told = echo(a, 5, Kick(1, (300, 0, -400)))
    wanted = [500 * max(0, made - 1) * UNIT / math.sqrt(3) for made in range(6)]
    assert told.steps.tolist() == [0, 1, 2, 3, 4, 5]
    assert told.distances.tolist() == pytest.approx(wanted, rel=1e-12)
    assert told.times.tolist() == pytest.approx([made * 2**-7.5 for made in range(6)], rel=1e-12)
    assert (told.kick, told.returned) == ((1, (300, 0, -400)), told.distances[-1])
    assert "with atom 1 kicked by (300, 0, -400)" in str(told)


def test_an_echo_begins_where_the_session_is_and_in_its_direction(user: Any) -> None:
    a = dimer(user)
    a.advance(3)
    a.reverse()
    before = state_of(a)
    assert (echo(a, 4).steps[-1], before[0], state_of(a)) == (4, 2, before)
    assert a.advance(2) == 0


def test_runs_of_free_atoms_part_evenly_and_have_no_exponent(user: Any) -> None:
    a = free(user)
    told = divergence(a, 4, 3, every=2)
    assert told.kicks == ((0, (1, 0, 0)), (1, (1, 0, 0)), (2, (1, 0, 0)))
    assert told.distances == pytest.approx(numpy.array([[0, 2, 4]] * 3) * UNIT / math.sqrt(3), rel=1e-12)
    assert len(told.exponents) == 0 and math.isnan(told.exponent) and math.isnan(told.error)
    assert "take more steps" in str(told)
    assert a.saved() == []


def test_the_exponent_is_the_slope_between_a_bin_and_a_tenth(user: Any) -> None:
    """Distances that grow by 9 t up to 1/256 sigma and by 2 t and 3 t from there on have the exponents 2 and 3."""
    times = numpy.arange(301) * 10 * 2**-7.5
    rows = [[min(1e-6 * math.exp(9 * t), math.exp(rate * (t - 1)) / 256) for t in times] for rate in (2, 3)]
    with mock.patch.object(reversal, "_distances_of", side_effect=rows):
        told = divergence(free(user), 3000, 2, every=10)
    assert told.exponents.tolist() == pytest.approx([2, 3], rel=1e-9)
    assert (told.exponent, told.error) == pytest.approx((2.5, 0.5), rel=1e-9)
    assert str(told) == "Lyapunov exponent 2.50 +- 0.50 per sigma sqrt(m / epsilon), over 2 of 2 runs"


def test_the_entropy_of_mixing_by_hand(user: Any) -> None:
    """Of 4 atoms, three in a cell at first: 2 of one kind and 1 of the other. Then all four are in it, 2 and 2, and later no more."""
    text = "4\ntwo kinds\nA 10 10 10\nA 60 60 60\nB 200 10 10\nB 100 100 100\n"
    a = user.load_mix("a", text, edge=256, species=("A", "B"), classes=[(1, 131072, 256)] * 3)
    a.tug(2, (-(2**30), 0, 0))
    before = state_of(a)
    told = entropy_of_mixing(a, 3, cells=2)
    apart, mixed = (2 * math.log(3 / 2) + math.log(3)) / 4, math.log(2)
    assert told.there.tolist() == pytest.approx([apart, apart, mixed, mixed], abs=1e-12)
    assert told.is_exact and told.back.tolist() == told.there.tolist()
    assert told.ideal == pytest.approx(mixed) and told.cells == 2
    assert told.random == pytest.approx(mixed)
    assert state_of(a) == before


def test_kinds_may_be_said(user: Any) -> None:
    a = free(user)
    told = entropy_of_mixing(a, 1, cells=1, labels=["left", "left", "right"])
    wanted = (2 * math.log(3 / 2) + math.log(3)) / 3
    assert [*told.there, told.ideal] == pytest.approx([wanted] * 3)
    for labels in (None, ["one"] * 3, ["one", "two"]):
        with pytest.raises(ValueError, match="labels must be one for each of the 3 atoms"):
            entropy_of_mixing(a, 1, labels=labels)


def test_what_of_two_atoms_that_fall_together_tells_the_direction(user: Any) -> None:
    """From rest they go by WAY. Their bin is another one from step 1 on, so the potential energy falls once: of six pairs of frames
    three fall."""
    a = dimer(user)
    told = arrow(a, 3)
    assert told.there["distance"].tolist() == pytest.approx([each * UNIT for each in WAY], rel=1e-12)
    assert told.is_exact and [name for name in told.back] == ["kinetic", "potential", "total", "distance", "maxwell"]
    assert told.there["potential"].tolist()[1:] == [-5399727 / 2**24 / 2] * 3
    assert (told.trends["distance"], told.trends["kinetic"], told.trends["potential"]) == (1, 1, -0.5)
    # Frames 2 and 3 are the second half: their distances are 2664.5 and 890.5 around it.
    assert told.departures["distance"] == pytest.approx(-2664.5 / 890.5, rel=1e-12)
    assert told.departures["potential"] == math.inf
    assert {"distance", "kinetic", "potential"} <= set(told.telling)
    assert "distance +1.00 (-3.0)" in str(told) and a.get_step() == 0


def test_how_far_velocities_are_from_those_of_maxwell() -> None:
    """If all components have the amount of their root mean square, it is minus the logarithm of the part that the normal distribution
    has from 1 to 1.25: 0.3173105 - 0.2112995, of a table. Drawn ones have some 16 / (2 n)."""
    equal = numpy.array([[1, -1, 1], [-1, -1, 1]]) * 7.0
    assert above_maxwell(equal) == pytest.approx(-math.log(0.3173105 - 0.2112995), abs=1e-6)
    drawn = numpy.random.default_rng(1).normal(size=(4000, 3))
    assert 0 <= above_maxwell(drawn) < 3e-3
    assert above_maxwell(numpy.zeros((2, 3))) == 0


@pytest.mark.parametrize(
    "ask, told",
    [
        (lambda a: echo(a, 0), "steps must be at least 1, got 0"),
        (lambda a: echo(a, 5, every=0), "every must be at least 1, got 0"),
        (lambda a: echo(a, 5, Kick(3)), "the atom of a kick must be below 3"),
        (lambda a: divergence(a, 5, 4), "kicks must be at most 3"),
        (lambda a: divergence(a, 5, 0), "kicks must be at least 1, got 0"),
        (lambda a: divergence(a, 5, []), "kicks must have at least one"),
        (lambda a: arrow(a, -1), "steps must be at least 1, got -1"),
    ],
)
def test_what_is_no_number_changes_nothing(user: Any, ask: Any, told: str) -> None:
    a = free(user)
    before = state_of(a)
    with pytest.raises(ValueError, match=told):
        ask(a)
    assert state_of(a) == before


def test_an_interrupt_leaves_the_session_as_it_was(user: Any) -> None:
    a = dimer(user)
    before = state_of(a)
    places: Any = type(a).places
    seen: List[int] = []

    def broken_off(session: Any) -> Any:
        seen.append(session.get_step())
        if len(seen) == 5:
            raise KeyboardInterrupt
        return places(session)

    with mock.patch.object(type(a), "places", broken_off), pytest.raises(KeyboardInterrupt):
        echo(a, 3)
    assert seen == [0, 1, 2, 3, 2]
    assert state_of(a) == before


def test_a_lost_connection_says_how_to_go_back(user: Any) -> None:
    a = dimer(user)
    places: Any = type(a).places

    def lost(session: Any) -> Any:
        if session.get_step() == 2:
            os.kill(process_of(user), signal.SIGKILL)
        return places(session)

    with mock.patch.object(type(a), "places", lost), pytest.raises(ConnectionLost, match=r"a was on its way: restore\('reversal-start'\)"):
        echo(a, 3)


def test_at_a_server_and_in_the_order_of_space(server: Any) -> None:
    with joined(server.port) as user:
        for name, order in (("plain", None), ("space", "space")):
            a = dimer(user, name, order=order)
            a.advance(2)
            before = state_of(a)
            assert echo(a, 4, None).returned == 0
            assert echo(a, 4, Kick(1, (5, 0, 0))).distances[-1] == pytest.approx(5 * 3 * UNIT / math.sqrt(2), rel=0.02)
            assert arrow(a, 2).is_exact
            assert state_of(a) == before and a.order.numbers == user.session(name).order.numbers


def test_where_the_quota_has_no_place_for_a_branch() -> None:
    with run(PROGRAM, branches=0) as user:
        a = dimer(user)
        with pytest.raises(refusals.QuotaBranches):
            echo(a, 3)
        assert a.get_step() == 0


def test_without_numpy_it_is_told_what_to_install(user: Any) -> None:
    a = dimer(user)
    asks: List[Any] = [echo, divergence, arrow]
    with mock.patch.object(arrays, "numpy", None), mock.patch.dict("sys.modules", {"numpy": None}):
        for ask in asks:
            with pytest.raises(ClientError, match="numpy, which cannot be imported"):
                ask(a, 2)
    assert a.get_step() == 0


def lines_of(axes: Any) -> List[Any]:
    return [tuple(map(list, line.get_data())) for line in axes.lines]


def test_pictures(user: Any, tmp_path: pathlib.Path) -> None:
    pytest.importorskip("matplotlib", reason="matplotlib is not installed").use("Agg")
    a = free(user)
    told = echo(a, 3)
    axes = told.plot()
    # The first two frames have no distance, which has no logarithm.
    assert lines_of(axes) == [(told.times[2:].tolist(), told.distances[2:].tolist())]
    assert axes.get_yscale() == "log" and "ring" not in axes.get_xlabel()
    assert lines_of(echo(a, 3, None).plot())[0][1] == [0, 0, 0, 0]
    mixing = entropy_of_mixing(a, 2, cells=1, labels=[0, 0, 1])
    there, back, *_ = lines_of(mixing.plot())
    assert (there[0], back[0]) == ([0, 1, 2], [4, 3, 2])
    assert lines_of(arrow(a, 2).plot())[0][0] == [0, 1, 2, 3, 4]
    figure = divergence(a, 2, 2).plot().figure
    figure.savefig(tmp_path / "x.png")
    assert (tmp_path / "x.png").stat().st_size > 1000
