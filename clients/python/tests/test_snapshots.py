"""Frames of a session on its way, and atoms that are followed round the box.

What is expected comes from the other calls of a session that goes the same way, and from atoms that nothing pushes.
"""
import warnings
from unittest import mock
from typing import Any, List

import pytest

from ljclient import Snapshot, arrays, units
from support import EXAMPLES, RING, dimer, listed

KINDS = [arrays.numpy, None] if arrays.numpy else [None]
EDGE = 256
FAST = RING // 5


def argon(user: Any, name: Any) -> Any:
    return user.load(name, EXAMPLES / "argon_256.xyz", edge=21.04, dt=2, **units.ARGON)


def loose(user: Any, name: str = "loose") -> Any:
    """Two atoms out of reach of each other, of which one moves round the box by 1/5 of the edge in a step, and one the other
    way by 1/100."""
    session = user.load(name, [("Ar", 250, 0, 0), ("Ar", 10, 100, 100)], edge=EDGE, sigma=1, h=131072)
    session.tug(0, (FAST, 0, 0))
    session.tug(1, (0, 0, -(RING // 100)))
    return session


def rows(frame: Any) -> List[Any]:
    return [tuple(map(float, row)) for row in frame]


@pytest.mark.parametrize("kind", KINDS)
def test_a_frame_has_what_the_session_tells(user: Any, kind: Any) -> None:
    a, twin = argon(user, "a"), argon(user, "twin")
    with mock.patch.object(arrays, "numpy", kind):
        told = list(a.frames(every=3, n=4))
        energies = list(twin.thermo(every=3, rows=4))
        twin.reverse()
        twin.advance(9)
        twin.reverse()
        twin.displacements()
        for number, frame in enumerate(told):
            twin.advance(3 if number else 0)
            assert isinstance(frame, Snapshot) and frame.energies == energies[number]
            assert frame.temperature == energies[number].temperature
            assert (frame.step, frame.time) == (3 * number, 3 * number * a.dt) and frame.step == twin.get_step()
            assert listed(frame.places) == listed(twin.places())
            for tell in ("positions", "velocities", "forces", "displacements"):
                assert rows(getattr(frame, tell)) == rows(getattr(twin, tell)())
    assert a.get_step() == twin.get_step() == 9


def test_frames_of_a_list_of_steps(user: Any) -> None:
    a = dimer(user)
    a.advance(1)
    assert [frame.step for frame in a.frames([0, 1, 2, 4, 8, 16])] == [1, 2, 3, 5, 9, 17]
    assert [frame.step for frame in a.frames([3])] == [20]
    if arrays.numpy:
        assert [frame.step for frame in a.frames(arrays.numpy.array([1, 10, 100]))] == [21, 30, 120]
    a.reverse()
    assert [frame.step for frame in a.frames(every=50, n=3)] == [119, 69, 19]


def test_the_session_stands_at_the_frame(user: Any) -> None:
    a = dimer(user)
    for frame in a.frames(every=2, n=5):
        assert (a.get_step(), listed(a.places())) == (frame.step, listed(frame.places))
        if frame.step == 4:
            break
    assert a.get_step() == 4
    assert a.advance(1) == 5


def test_how_far_it_is(user: Any) -> None:
    told = []
    list(dimer(user).frames([0, 2, 3], progress=lambda *numbers: told.append(numbers)))
    assert told == [(0, 3), (2, 3), (2, 3), (3, 3)]


@pytest.mark.parametrize(
    "words, text",
    [
        (([], None), "must have at least one"),
        (([0, 0], None), "greater than the one before"),
        (([-1, 2], None), "must be 0 or more, got -1"),
        (([0, 1], 2), "n must be left out beside a list of 2 steps, got 2"),
        ((5, None), "n must be the number of frames, got None"),
        ((0, 3), "every must be at least 1, got 0"),
        ((1, 0), "n must be at least 1, got 0"),
    ],
)
def test_what_is_no_list_of_steps(user: Any, words: Any, text: Any) -> None:
    a = dimer(user)
    with pytest.raises(ValueError, match=text):
        a.frames(*words)
    with pytest.raises(TypeError, match="a whole number"):
        a.frames([0, 1.5])
    assert a.get_step() == 0


@pytest.mark.parametrize("kind", KINDS)
def test_atoms_are_followed_round_the_box(user: Any, kind: Any) -> None:
    with mock.patch.object(arrays, "numpy", kind), warnings.catch_warnings():
        warnings.simplefilter("error")
        a = loose(user)
        start, moved = a.places(), (FAST, -(RING // 100))
        exact = a.sample(every=1, frames=23, exact=True, unwrap=True)
        for number, frame in enumerate(exact.frames):
            (x, y, z), (u, v, w) = listed(frame)
            first, second = listed(start)
            assert (x, y, z) == (first[0] + number * moved[0], 0, 0)
            assert (u, v, w) == (second[0], second[1], second[2] + number * moved[1])
        positions = loose(user, "again").sample(every=1, frames=23, unwrap=True).frames
        for number, frame in enumerate(positions):
            assert rows(frame)[0] == pytest.approx((250 + number * moved[0] * EDGE / RING, 0, 0), abs=2e-6)
            assert rows(frame)[1] == pytest.approx((10, 100, 100 + number * moved[1] * EDGE / RING), abs=2e-6)
        wrapped = loose(user, "third").sample(every=1, frames=23)
        assert all(0 <= part < EDGE for frame in wrapped.frames for row in frame for part in row)


@pytest.mark.parametrize("kind", KINDS)
def test_displacements_from_call_to_call(user: Any, kind: Any) -> None:
    with mock.patch.object(arrays, "numpy", kind):
        a = loose(user)
        assert rows(a.displacements()) == [(0, 0, 0), (0, 0, 0)]
        for number in range(1, 8):
            a.advance(1)
            far, near = number * FAST * EDGE / RING, -number * (RING // 100) * EDGE / RING
            assert rows(a.displacements()) == pytest.approx([(far, 0, 0), (0, 0, near)], abs=1e-12)
        a.reverse()
        assert rows(a.displacements())[0][0] == pytest.approx(6 * FAST * EDGE / RING)
        a.advance(1)
        assert rows(a.displacements())[0][0] == pytest.approx(5 * FAST * EDGE / RING)
        last = list(a.frames(every=1, n=6))[-1]
        assert rows(last.displacements)[0] == pytest.approx((-5 * FAST * EDGE / RING, 0, 0))


@pytest.mark.parametrize("kind", KINDS)
def test_an_atom_that_moves_too_far_is_a_warning(user: Any, kind: Any) -> None:
    with mock.patch.object(arrays, "numpy", kind):
        a = loose(user)
        a.displacements()
        a.advance(2)
        with pytest.warns(UserWarning, match=r"0\.40 of the edge of the box from one frame to the next") as told:
            a.displacements()
        assert told[0].filename == __file__
        for exact in (True, False):
            with pytest.warns(UserWarning, match="fewer steps apart"):
                a.sample(every=2, frames=2, exact=exact, unwrap=True)


def test_frames_of_a_sample_that_is_broken_off_are_followed_too(user: Any) -> None:
    a = loose(user)
    start = listed(a.places())[0][0]
    advance, calls = a.advance, []

    def breaks(_: Any, *words: Any) -> Any:
        calls.append(words)
        if len(calls) == 3:
            raise KeyboardInterrupt
        return advance(*words)

    with mock.patch.object(type(a), "advance", breaks), pytest.raises(KeyboardInterrupt):
        a.sample(every=1, frames=9, exact=True, unwrap=True)
    assert [listed(frame)[0][0] for frame in a.sampled.frames] == [start, start + FAST, start + 2 * FAST]


def test_only_displacements_warn_of_atoms_that_went_far_between_frames(user: Any) -> None:
    """The second frame is 2/5 of the edge from the first one, and the third 1/5 from the second: displacements doubt both."""
    with warnings.catch_warnings():
        warnings.simplefilter("error")
        first, second, third = loose(user).frames([0, 2, 3])
        assert [frame.energies.potential for frame in (first, second, third)] == [0, 0, 0]
        first.displacements
    for frame in (second, third):
        with pytest.warns(UserWarning, match=r"an atom of loose has moved by 0\.40 of the edge") as told:
            frame.displacements
        assert told[0].filename == __file__
