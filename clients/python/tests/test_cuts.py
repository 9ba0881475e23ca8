"""Connections that are lost while a session is looked at, changed or replaced: the next one has it as it was before or after.

Each call is cut at 200 places, from its first byte on. What the session is then is read by the protocol alone.
"""
import pathlib
import warnings
from unittest import mock
from typing import Any, Callable, Dict, List, NamedTuple

import pytest

from cuts import Talk, Where, cuttable, joined, places, seen, transport_of
from ljclient import ClientError
from ljclient.view.stage import Stage


pytestmark = pytest.mark.usefixtures("state")
PLACES = 200
SCALE: Dict[str, Any] = {"edge": 8.0, "sigma": 1.0, "h": 4096}
MOVED = [(1000, -2000, 3000), (-500, 700, -900), (0, 40, 0), (0, 0, 5), (9, 9, 9), (-8, 0, 0), (600, 600, -600), (-1, -1, 1)]
SITES = [(x, y, z) for x in (1.0, 2.2) for y in (1.0, 2.2) for z in (1.0, 2.2)]
ROWS = [("Ar", *site) for site in SITES]
OTHERS = [("Ar", x + 3, y, z) for x, y, z in SITES[:6]]


def prepared(user: Any, order: Any = None) -> Any:
    """Eight atoms that move, at step 3, with something saved in them."""
    for name in [row.name for row in user.sessions()]:
        user.ask(f"DROP {name}")
    session = user.load("a", ROWS, watch=False, order=order, **SCALE)
    for atom, moved in enumerate(MOVED):
        session.tug(atom, moved)
    session.advance(3)
    return session


class Call(NamedTuple):
    """A call that is cut: what it does with a session, by how many steps it goes on, whether it changes the motion, and which module
    has to be installed for it."""

    do: Callable[[Any, pathlib.Path], Any]
    steps: int = 0
    is_change: bool = False
    needs: str = "json"


def broken_rows(session: Any, folder: pathlib.Path) -> None:
    """A row, behind which the rows are broken off. Where the connection is lost then, the next command says so."""
    rows = session.thermo(every=2, rows=3)
    next(rows)
    rows.close()
    session.measure()


def speeds_of_the_view(session: Any, folder: pathlib.Path) -> None:
    """What a page of the live view asks for, to show the session and its speeds."""
    stage = Stage(session._user, session.name, session.scale, True, "second")
    stage._found(session._user)
    stage.both()


CALLS = {
    "velocities": Call(lambda session, folder: session.velocities()),
    "forces": Call(lambda session, folder: session.forces()),
    "pressure": Call(lambda session, folder: session.pressure(), needs="numpy"),
    "to_ase": Call(lambda session, folder: session.to_ase(), needs="ase"),
    "save": Call(lambda session, folder: session.save(folder / "a")),
    "thermo": Call(lambda session, folder: list(session.thermo(every=2, rows=1))),
    "rows": Call(lambda session, folder: list(session.thermo(every=2, rows=3)), 5),
    "broken rows": Call(broken_rows),
    "frames": Call(lambda session, folder: list(session.frames(2, 3)), 4),
    "write_trajectory": Call(lambda session, folder: session.write_trajectory(folder / "a.xyz", 2, 2), 2),
    "advance and save": Call(lambda session, folder: session.advance(4, save=folder / "a", seconds=0, piece=1), 4),
    "speeds of the view": Call(speeds_of_the_view),
    "heat": Call(lambda session, folder: session.heat(1.0), is_change=True),
    "rescale": Call(lambda session, folder: session.rescale(0.5), is_change=True),
}


def steps_of(where: Where, order: Any, steps: int) -> List[Any]:
    """What a session is at the steps from 3 on, so many of them, without any look."""
    with joined(where) as user:
        prepared(user, order)
    found = [seen(where)]
    for _ in range(steps):
        talk = Talk(where)
        talk.told("ADVANCE a 1")
        talk.close()
        found.append(seen(where))
    return found


def bytes_of(where: Where, order: Any, call: Call, folder: pathlib.Path) -> int:
    """How many bytes a client sends for a call."""
    with cuttable(where) as user:
        session = prepared(user, order)
        before = transport_of(user).sent
        call.do(session, folder)
        sent: int = transport_of(user).sent - before
        return sent


@pytest.mark.parametrize("order", [None, "space"])
@pytest.mark.parametrize("name", CALLS)
def test_a_session_is_as_it_was_before_or_after(where: Where, tmp_path: pathlib.Path, name: str, order: Any) -> None:
    call = CALLS[name]
    pytest.importorskip(call.needs)
    total = bytes_of(where, order, call, tmp_path)
    wanted = [seen(where)] if call.is_change else []
    wanted += steps_of(where, order, call.steps)
    for count in places(total, PLACES):
        with cuttable(where) as user:
            session = prepared(user, order)
            transport_of(user).cut_after(count)
            with pytest.raises(ClientError):
                call.do(session, tmp_path)
        with warnings.catch_warnings():
            warnings.simplefilter("ignore")
            with joined(where):
                pass
        assert seen(where) in wanted, f"cut after {count} of {total} bytes"


def reached(where: Where, lines: List[str]) -> List[Any]:
    """What a session is after each of these commands, but for those between the begin and the end of a look or a change."""
    with joined(where) as user:
        prepared(user)
    found, is_between = [seen(where)], False
    for line in lines:
        talk = Talk(where)
        talk.told(line)
        talk.close()
        words = line.split()
        if words[-1] in ("ljclient-look", "ljclient-change"):
            is_between = words[0] != "FORGET"
        if not is_between:
            found.append(seen(where))
    return found


def test_an_equilibration_stands_on_its_way(where: Where) -> None:
    with cuttable(where) as user:
        session = prepared(user)
        before = transport_of(user).sent
        with mock.patch.object(user._wire, "_put", wraps=user._wire._put) as put:
            session.equilibrate(0.8, 6, every=3)
        total = transport_of(user).sent - before
    lines = [line for call in put.call_args_list for line in call.args[1]]
    assert lines.count("BRANCH a ljclient-change") == 2
    wanted = reached(where, lines)
    for count in places(total, PLACES):
        with cuttable(where) as user:
            session = prepared(user)
            transport_of(user).cut_after(count)
            with pytest.raises(ClientError):
                session.equilibrate(0.8, 6, every=3)
        with warnings.catch_warnings():
            warnings.simplefilter("ignore")
            joined(where).close()
        assert seen(where) in wanted, f"cut after {count} of {total} bytes"
