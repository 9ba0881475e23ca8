"""Velocities and forces at a step, out of three frames. The session they are asked of is as it was.

The values are those of the two atoms of test_commands: at the steps 0, 1, 2 and 3 atom 0 stands at 0, 589, 1774 and 3555, and
atom 1 as far below 25165824. In a box of 256 a ring unit is 2^-24, and h = 2^17 is a time step of 2^-7.5.
"""
import pathlib
import signal
from unittest import mock
from typing import Any, List, Tuple

import pytest

from ljclient import arrays, connect, refusals, run, units
from support import EXAMPLES, PROGRAM, SECONDS, TOKEN, dimer, interruptible, listed, peer, read_line

KINDS = [arrays.numpy, None] if arrays.numpy else [None]
PLACES = [0, 0, 589, 1774, 3555]  # of atom 0, from one step before step 0
DT = 2**-7.5
UNIT = 2**-24


def along_x(rows: Any) -> List[Any]:
    """The numbers along x of rows that have none along y and z."""
    assert all(tuple(row[1:]) == (0, 0) for row in rows)
    return [float(row[0]) for row in rows]


def seen(session: Any) -> Tuple[Any, Any]:
    """All that can be seen of a session, which is as it was afterwards."""
    measured, places = session.measure(), listed(session.places())
    now = session.get_step(), measured, places, session.dump(), session.saved(), session.order
    session.reverse()
    before = session.get_step(), listed(session.places())
    session.reverse()
    return now, before


@pytest.mark.parametrize("kind", KINDS)
def test_they_are_the_differences_of_the_frames_beside(user: Any, kind: Any) -> None:
    a = dimer(user)
    with mock.patch.object(arrays, "numpy", kind):
        for step in range(3):
            before, now, after = PLACES[step : step + 3]
            velocity, force = (after - before) * UNIT / (2 * DT), (after - 2 * now + before) * UNIT / DT**2
            assert along_x(a.velocities()) == pytest.approx([velocity, -velocity], rel=1e-14)
            assert along_x(a.forces()) == pytest.approx([force, -force], rel=1e-14)
            assert a.advance(1) == step + 1
    if arrays.numpy:
        assert a.velocities().shape == a.forces().shape == (2, 3)


def test_turned_back_they_have_the_other_sign(user: Any) -> None:
    a = dimer(user)
    a.advance(1)
    velocities, forces = along_x(a.velocities()), along_x(a.forces())
    a.advance(1)
    assert a.reverse() == 1
    assert along_x(a.velocities()) == [-velocity for velocity in velocities]
    assert along_x(a.forces()) == forces


def test_in_angstrom_and_electronvolt(user: Any) -> None:
    a = user.load("a", [("Ar", 1, 1, 1)], edge=20, dt=2, **units.ARGON)
    a.tug(0, (1000, -2000, 0))
    unit = 20 / 2**32
    assert a.velocities()[0] == pytest.approx([1000 * unit / a.dt, -2000 * unit / a.dt, 0], rel=1e-12)
    # Two atoms at 1.5 sigma attract each other by the table's 12876994 / 2^24 * 1.5 epsilon / sigma, but for the rounded push.
    b = user.load("b", [("Ar", 0, 0, 0), ("Ar", 5.1, 0, 0)], edge=20, dt=2, **units.ARGON)
    wanted = 12876994 / 2**24 * 1.5 * units.ARGON["epsilon"] / units.ARGON["sigma"]
    assert along_x(b.forces()) == pytest.approx([wanted, -wanted], rel=1e-3)


def argon(user: Any, name: Any, **words: Any) -> Any:
    session = user.load(name, EXAMPLES / "argon_256.xyz", edge=21.04, dt=2, **units.ARGON, **words)
    session.advance(30)
    return session


@pytest.mark.parametrize("order", [None, "space"])
def test_the_session_is_as_it_was(user: Any, order: Any) -> None:
    a, twin = argon(user, "a", order=order), argon(user, "twin", order=order)
    a.branch("here")
    twin.branch("here")
    before = seen(a)
    a.velocities()
    assert seen(a) == before
    a.reverse()
    twin.reverse()
    a.forces()
    for _ in range(2):
        assert (a.advance(40), listed(a.places()), a.measure()) == (twin.advance(40), listed(twin.places()), twin.measure())
        assert (a.restore("here"), a.reverse()) == (twin.restore("here"), twin.reverse())


def test_both_boxes_tell_the_same(user: Any, tmp_path: pathlib.Path) -> None:
    a = argon(user, "a")
    a.save(tmp_path / "saved")
    b, c = user.load_saved(tmp_path / "saved", name="b"), argon(user, "c", order="space")
    for tell in ("velocities", "forces"):
        assert listed_floats(getattr(a, tell)()) == listed_floats(getattr(b, tell)()) == listed_floats(getattr(c, tell)())


def listed_floats(rows: Any) -> List[Any]:
    return [tuple(map(float, row)) for row in rows]


def test_no_place_for_a_branch_is_needed() -> None:
    with run(PROGRAM, sessions=1, branches=1) as user:
        a = dimer(user)
        a.branch("only")
        assert along_x(a.velocities())[0] == pytest.approx(589 * UNIT / (2 * DT))
        assert a.saved() == [("only", 0)]


def test_what_was_started_is_waited_for(user: Any) -> None:
    a = dimer(user)
    a.start(2)
    assert along_x(a.velocities())[0] == pytest.approx((3555 - 589) * UNIT / (2 * DT))
    assert a.get_step() == 2


def test_an_interrupt_leaves_it_as_it_was(user: Any) -> None:
    a = dimer(user)
    a.advance(1)
    ask_rows = user._ask_rows

    def interrupted(lines: Any) -> Any:
        signal.raise_signal(signal.SIGINT)
        return ask_rows(lines)

    with mock.patch.object(user, "_ask_rows", interrupted), interruptible(), pytest.raises(KeyboardInterrupt):
        a.velocities()
    assert (a.get_step(), listed(a.places())) == (1, [(589, 0, 0), (25165235, 0, 0)])
    assert a.advance(1) == 2 and listed(a.places())[0] == (1774, 0, 0)


AT_THE_LAST = b"OK ADVANCE a 1000000000000\n"


def test_at_the_last_step_it_is_refused_and_stays() -> None:
    lines = []

    def talk(connection: Any, stop: Any) -> None:
        for reply in (b"OK HELLO ann\n", b"OK LIST 0\n", b"OK LIST a 0\n", b"OK LIST 1\na 0 2 0\n", AT_THE_LAST, b"ERR 23 STEP_RANGE\n"):
            lines.append(read_line(connection))
            connection.sendall(reply)
        stop.wait(SECONDS)

    with peer(talk) as port:
        user = connect("127.0.0.1", port, "ann", TOKEN, timeout=SECONDS)
        with pytest.raises(refusals.StepRange):
            user.session("a").velocities()
        user._wire.close()
    assert lines[2:] == [b"LIST a\n", b"LIST\n", b"ADVANCE a 0\n", b"ADVANCE a 1\n"]


def test_without_a_scale_they_are_a_value_error(user: Any) -> None:
    dimer(user)
    user._known.clear()
    with pytest.raises(ValueError, match="the scale of the session must be known"):
        user.session("a").velocities()
