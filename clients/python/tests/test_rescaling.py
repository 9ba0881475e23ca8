"""Velocities that are stretched to a temperature, by tugs alone: `rescale` and `equilibrate`."""
import math
import signal
import statistics
from unittest import mock
from typing import Any, List, Tuple

import pytest

from ljclient import arrays, heating, units
from support import EXAMPLES, RING, dimer, interruptible, listed

KINDS = [arrays.numpy, None] if arrays.numpy else [None]
CRYSTAL = EXAMPLES / "argon_256.xyz"


def argon(user: Any, name: str = "argon", **words: Any) -> Any:
    return user.load(name, CRYSTAL, edge=21.04, dt=2, **units.ARGON, **words)


def both(session: Any) -> Tuple[Any, Any]:
    """Both frames."""
    now = listed(session.places())
    session.reverse()
    before = listed(session.places())
    session.reverse()
    return now, before


def moved(session: Any) -> List[Any]:
    now, before = both(session)
    return [tuple((a - b + RING // 2) % RING - RING // 2 for a, b in zip(*pair)) for pair in zip(now, before)]


@pytest.mark.parametrize("kind", KINDS)
def test_all_velocities_are_stretched_alike(user: Any, kind: Any) -> None:
    a = argon(user)
    a.heat(90, seed=2)
    a.tug(7, (3000, 0, -1000))
    a.advance(20)
    old, places, step = moved(a), listed(a.places()), a.get_step()
    with mock.patch.object(arrays, "numpy", kind):
        assert a.rescale(120) == pytest.approx(120, rel=1e-6)
    # In SI units: u of 1.66053906660e-27 kg, k_B of 1.380649e-23 J/K.
    speed_of_unit = 21.04e-10 / RING / (a.dt * 1e-15)
    new, wanted = moved(a), 1.5 * 256 * 1.380649e-23 * 120 / (speed_of_unit**2 * 39.948 * 1.66053906660e-27 / 2)
    assert sum(part**2 for each in new for part in each) == pytest.approx(wanted, rel=1e-5)
    stretch = math.sqrt(wanted / sum(part**2 for each in old for part in each))
    assert all(abs(b - stretch * a) <= 1.51 for pair in zip(old, new) for a, b in zip(*pair))
    # What was pulled by one tug keeps the momentum of that tug, stretched; along y there was none.
    assert [sum(axis) for axis in zip(*new)] == [round(stretch * 3000), 0, round(stretch * -1000)]
    assert (a.get_step(), listed(a.places())) == (step, places)


def test_in_reduced_units(user: Any) -> None:
    a = user.load("a", CRYSTAL, edge=21.04, sigma=3.4, h=4295)
    a.heat(0.5)
    assert a.rescale(0.72) == pytest.approx(0.72, rel=1e-5)
    assert (a.rescale(0), a.measure().kinetic, a.rescale(0)) == (0, 0, 0)


def test_it_is_walked_back_from_a_branch(user: Any) -> None:
    a, twin = argon(user), argon(user, "twin")
    for each in (a, twin):
        each.heat(90)
        each.advance(10)
        each.branch("cold")
    a.rescale(150)
    a.branch("warm")
    warm = both(a)
    a.advance(25)
    assert [name for name, _ in a.saved()] == ["cold", "warm"]
    for _ in range(2):
        a.restore("warm")
        assert both(a) == warm
    assert (a.restore("cold"), both(a)) == (10, both(twin))
    for each in (a, twin):
        each.reverse()
        each.advance(10)
        each.reverse()
    assert both(a) == both(twin)


@pytest.mark.parametrize("order", [None, "space"])
def test_equilibrated_to_a_temperature(user: Any, order: Any) -> None:
    a = argon(user, order=order)
    a.branch("start")
    told = a.equilibrate(100, 120, every=50)
    assert (a.get_step(), a.measure().momentum) == (120, (0, 0, 0))
    there = both(a)
    a.restore("start")
    assert a.measure().kinetic == 0
    assert a.equilibrate(100, 120, every=50) == told
    assert both(a) == there


def means_of(session: Any, pieces: Any) -> Tuple[float, float]:
    """The mean temperature after pieces of so many steps, and the last temperature."""
    temperatures = []
    for steps in pieces:
        session.advance(steps)
        temperatures.append(session.measure().temperature)
    return sum(temperatures) / len(temperatures), temperatures[-1]


def test_it_stretches_by_the_mean_and_returns_that_of_the_last_stretch(user: Any) -> None:
    a, twin = argon(user), argon(user, "twin")
    told = a.equilibrate(80, 55, every=20, seed=3)
    twin.heat(80, seed=3)
    for pieces in ([2] * 10, [2] * 10):
        mean, last = means_of(twin, pieces)
        twin.rescale(80 * last / mean)
    # Ten equal parts of 15 steps end behind 1.5, 3, 4.5, .. of them, rounded down.
    wanted, last = means_of(twin, [1, 2] * 5)
    assert (both(a), a.get_step()) == (both(twin), 55)
    assert told == pytest.approx(wanted, rel=1e-12) and abs(told - last) > 0.1
    told = a.equilibrate(60, 3, every=50)
    twin.rescale(60)
    assert told == pytest.approx(means_of(twin, [1, 1, 1])[0], rel=1e-12)
    assert both(a) == both(twin)
    assert (a.equilibrate(70, 0), a.get_step()) == (pytest.approx(70, rel=1e-5), 58)


def test_a_stretch_is_a_twentieth_of_the_steps(user: Any) -> None:
    a, twin = argon(user), argon(user, "twin")
    assert a.equilibrate(80, 60) == twin.equilibrate(80, 60, every=3)
    assert a.equilibrate(70, 7) == twin.equilibrate(70, 7, every=1)
    assert both(a) == both(twin)


def test_at_a_temperature_of_zero_the_atoms_are_held_again_and_again(user: Any) -> None:
    a = argon(user)
    assert (a.equilibrate(0, 40, every=10), a.get_step()) == (pytest.approx(0, abs=1), 40)
    alone = user.load("alone", "1\n\nAr 0 0 0\n", edge=21.04, dt=2, **units.ARGON)
    assert alone.equilibrate(0, 40, every=10) == 0


def test_what_it_returns_is_the_mean_of_the_run_that_follows(user: Any) -> None:
    argon = user.load("argon", CRYSTAL, edge=21.04, dt=2, **units.ARGON)
    told = argon.equilibrate(94.4, 10_000, seed=1)
    # Blocks of the run that follows, each as long as the stretch whose mean was told, and measured as often.
    blocks = [means_of(argon, [50] * 10)[0] for _ in range(16)]
    mean = statistics.mean(blocks)
    error = statistics.stdev(blocks) * math.sqrt(1 + 1 / len(blocks))
    assert error < 3
    assert abs(told - mean) < 3 * error
    assert abs(mean - 94.4) < 3


def test_how_far_it_is(user: Any) -> None:
    told = []
    argon(user).equilibrate(80, 5, every=3, progress=lambda *numbers: told.append(numbers))
    assert sorted(set(told)) == [(done, 5) for done in range(6)] and told == sorted(told)


def test_what_cannot_be(user: Any) -> None:
    a = dimer(user)
    for wrong, text in [(1, "at rest.*heat"), (-1, "from 0 on"), (math.nan, "from 0 on")]:
        with pytest.raises(ValueError, match=text):
            a.rescale(wrong)
    for words, text in [((1, -1), "must be 0 or more, got -1"), ((1, 1, 0), "every must be at least 1, got 0"), ((-1, 1), "from 0 on")]:
        with pytest.raises(ValueError, match=text):
            a.equilibrate(*words)
    with pytest.raises(TypeError, match="the number of steps must be a whole number"):
        a.equilibrate(1, 1.5)
    assert (a.get_step(), a.measure().kinetic) == (0, 0)
    a.advance(5)
    with pytest.raises(ValueError, match="half the box"):
        a.rescale(1e12)
    assert a.get_step() == 5


def test_an_interrupt_waits_until_all_atoms_have_theirs(user: Any) -> None:
    a, twin = argon(user), argon(user, "twin")
    for each in (a, twin):
        each.heat(50)
    twin.rescale(90)
    ask_rows = user._ask_rows

    def interrupted(lines: Any) -> Any:
        if lines[0].startswith("TUG"):
            signal.raise_signal(signal.SIGINT)
        return ask_rows(lines)

    with mock.patch.object(user, "_ask_rows", interrupted), interruptible(), pytest.raises(KeyboardInterrupt):
        a.rescale(90)
    assert both(a) == both(twin)


def test_the_sum_is_rounded_once() -> None:
    scale = units.Scale.of(256, 1, 4295)
    for count in (2, 3, 50):
        old = [(7 * number, -3 * number, number % 5) for number in range(1, count + 1)]
        kinetic = sum(part**2 for each in old for part in each)
        temperature = scale.kinetic_energy(4 * kinetic) * 2 / (3 * count)
        new = heating.rescaled(old, temperature, scale)
        assert [sum(axis) for axis in zip(*new)] == [2 * sum(axis) for axis in zip(*old)]
