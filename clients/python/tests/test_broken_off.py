"""Rows and frames of a session on its way, in several parts or broken off: nothing is lost, and each step is where it was.

The places of the two atoms at each step are worked out by hand in test_sampling.
"""
import gc
import pathlib
import signal
from unittest import mock
from typing import Any

import pytest

from ljclient import ClientError
from support import dimer, interruptible, listed

WAY = [[(0, 0, 0), (25165824, 0, 0)], [(589, 0, 0), (25165235, 0, 0)], [(1774, 0, 0), (25164050, 0, 0)]]


@pytest.fixture
def a(user: Any) -> Any:
    return dimer(user)


def stands_at(a: Any, step: Any) -> Any:
    """Whether a session stands at a step, and goes on from there as one that was never broken off."""
    if (a.get_step(), listed(a.places())) != (step, WAY[step]):
        return False
    other = a._user.load("other", "2\ndimer\nAr 0 0 0\nAr 1.5 0 0\n", edge=256, sigma=1, h=131072, replace=True)
    other.advance(step)
    return a.advance(9) == other.advance(9) and a.measure() == other.measure() and listed(a.places()) == listed(other.places())


def test_rows_that_are_closed_leave_the_session_at_the_last_one(a: Any) -> None:
    rows = a.thermo(every=2, rows=5)
    assert [next(rows).step, next(rows).step] == [0, 2]
    rows.close()
    assert stands_at(a, 2)


def test_a_loop_that_is_broken_off(a: Any) -> None:
    for _ in a.thermo(every=1, rows=5):
        break
    gc.collect()
    assert stands_at(a, 0)


def test_an_error_in_a_loop(a: Any) -> None:
    with pytest.raises(ZeroDivisionError):
        for row in a.thermo(every=2, rows=5):
            1 / (2 - row.step)
    assert stands_at(a, 2)


def test_an_error_on_the_way_to_the_next_row(a: Any) -> None:
    rows = a.thermo(every=2, rows=5)
    next(rows)
    with mock.patch.object(type(a), "advance", side_effect=ZeroDivisionError), pytest.raises(ZeroDivisionError):
        next(rows)
    assert stands_at(a, 0)


def test_an_interrupt_while_a_row_is_measured(user: Any, a: Any) -> None:
    ask_all = user.ask_all

    def interrupted(lines: Any) -> Any:
        replies = ask_all(lines)
        signal.raise_signal(signal.SIGINT)
        return replies

    with mock.patch.object(user, "ask_all", interrupted):
        rows = a.thermo(every=2, rows=5)
    with interruptible(), pytest.raises(KeyboardInterrupt):
        next(rows)
    assert stands_at(a, 0)


def test_backward_too(a: Any) -> None:
    a.advance(3)
    a.reverse()
    rows = a.thermo(every=1, rows=3)
    assert next(rows).step == 2
    rows.close()
    assert (a.get_step(), listed(a.places())) == (2, WAY[2])
    assert (a.advance(1), listed(a.places())) == (1, WAY[1])


def test_a_session_that_has_gone_elsewhere_stays_there(a: Any) -> None:
    rows = a.thermo(every=2, rows=5)
    next(rows)
    a.advance(1)
    rows.close()
    assert (a.get_step(), listed(a.places())) == (2, WAY[2])


def test_nothing_is_sent_to_a_connection_that_is_gone(user: Any, a: Any) -> None:
    rows = a.thermo(every=2, rows=5)
    next(rows)
    user.close()
    with mock.patch.object(user, "_ask_commands") as asked:
        rows.close()
    asked.assert_not_called()


def test_a_session_that_is_dropped_is_no_error(a: Any) -> None:
    rows = a.thermo(every=2, rows=5)
    next(rows)
    a.drop()
    rows.close()
    with pytest.raises(ClientError):
        a.measure()


def test_all_rows_take_no_command_more(user: Any, a: Any) -> None:
    with mock.patch.object(user._wire, "ask_all", wraps=user._wire.ask_all) as asked:
        assert [row.step for row in a.thermo(every=1, rows=1)] == [0]
    assert asked.call_count == 1


def test_frames_are_appended_to_a_file(a: Any, tmp_path: pathlib.Path) -> None:
    parts, whole = tmp_path / "parts.xyz", tmp_path / "whole.xyz"
    a.write_trajectory(parts, every=1, frames=2, append=True)
    a.advance(1)
    a.write_trajectory(parts, every=1, frames=1, append=True)
    other = dimer(a._user, "b")
    other.write_trajectory(whole, every=1, frames=3)
    assert parts.read_text() == whole.read_text() and len(whole.read_text().splitlines()) == 3 * 4
    a.write_trajectory(parts, every=1, frames=1)
    assert parts.read_text().splitlines() == whole.read_text().splitlines()[8:]


@pytest.mark.parametrize("exact", [False, True])
def test_frames_of_a_sample_that_is_interrupted_are_kept(user: Any, a: Any, exact: Any) -> None:
    advance, left = a.advance, [1, 1]

    def interrupted(_: Any, n: Any, progress: bool = False) -> Any:
        if not left:
            raise KeyboardInterrupt
        left.pop()
        return advance(n, progress)

    with mock.patch.object(type(a), "advance", interrupted), pytest.raises(KeyboardInterrupt):
        a.sample(every=1, frames=9, exact=exact)
    whole = dimer(user, "b").sample(every=1, frames=3, exact=exact)
    assert a.sampled.steps == [0, 1, 2] == whole.steps
    assert [list(map(tuple, frame)) for frame in a.sampled.frames] == [list(map(tuple, frame)) for frame in whole.frames]
    if exact:
        assert [listed(frame) for frame in a.sampled.frames] == WAY
    a.sample(every=1, frames=1)
    assert a.sampled is None


def test_a_sample_whose_connection_is_lost_before_its_first_frame(user: Any, a: Any) -> None:
    user.close()
    with pytest.raises(ClientError):
        a.sample(every=1, frames=9)
    assert (a.sampled.steps, len(a.sampled.frames)) == ([], 0)
