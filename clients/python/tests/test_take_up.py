"""Sessions that another connection has loaded: the box in which the server has them is found out when they are taken up.

What is expected comes from the places that SHOW tells, by fractions: `place * edge / 2^32`, rounded down to six decimals.
"""
import pathlib
import warnings
from fractions import Fraction
from unittest import mock
from typing import Any, Dict, Iterator, List

import pytest

from ljclient import BadReply, Order, arrays, connect, refusals
from support import DIMER, DIMER_SCALE, EXAMPLES, RING, SECONDS, TOKEN, Server, dimer, listed, peer, says

SCALE: Dict[str, Any] = {"edge": 21.04, "sigma": 3.4, "h": 131072}
RING_EDGE = "4294.967296"
KINDS = [arrays.numpy, None] if arrays.numpy else [None]
# One atom that moves by a million ring units a step, from 0: loaded by ask, in the box that shows each ring unit or in another.
MOVING = "1\nbefore\nAr {before} 0 0\n1\nnow\nAr 0 0 0\n"


@pytest.fixture
def join() -> Iterator[Any]:
    """Makes connections of one user to a server, one after the other."""
    with Server() as server:
        yield lambda: connect("127.0.0.1", server.port, "ann", TOKEN)


@pytest.fixture
def no_warnings() -> Iterator[Any]:
    with warnings.catch_warnings():
        warnings.simplefilter("error")
        yield


def argon(user: Any, **words: Any) -> Any:
    return user.load("a", EXAMPLES / "argon_256.xyz", **{**SCALE, **words})


def in_space(user: Any, folder: Any) -> None:
    argon(user, order="space").advance(300)


def sorted_anew(user: Any, folder: Any) -> None:
    session = argon(user)
    session.advance(300)
    session.resort()


def from_a_file(user: Any, folder: Any) -> None:
    session = argon(user)
    session.advance(300)
    session.save(folder / "saved")
    user.load_saved(folder / "saved", replace=True)


ON_RING = [in_space, from_a_file]
WAYS = [*ON_RING, sorted_anew]


def shown(user: Any, count: int = 256) -> List[Any]:
    """The places of the atoms in the server's order, by the protocol."""
    return [tuple(map(int, user.ask(f"SHOW a {atom}").words[4:])) for atom in range(count)]


def in_box(places: Any, edge: Any) -> List[Any]:
    """The millionths of the coordinates in a box of this edge."""
    return [tuple(int(Fraction(str(edge)) * part * 10**6 / RING) for part in place) for place in places]


def millionths(rows: Any) -> List[Any]:
    """The millionths of positions, or of the last three words of each line of atoms."""
    rows = [row.split()[1:4] if isinstance(row, str) else row for row in rows]
    return [tuple(round(float(part) * 10**6) for part in row) for row in rows]


def seen(session: Any, folder: Any) -> List[Any]:
    """The millionths that a dump, a sample and a trajectory tell."""
    session.write_trajectory(folder / "way.xyz", every=1, frames=1)
    texts = session.dump(), (folder / "way.xyz").read_text()
    (frame,) = session.sample(every=1, frames=1).frames
    return [*(millionths(text.splitlines()[2:]) for text in texts), millionths(frame)]


@pytest.mark.parametrize("way", ON_RING)
def test_frames_are_in_the_box_that_is_said(join: Any, tmp_path: pathlib.Path, way: Any) -> None:
    with join() as user:
        way(user, tmp_path)
    with join() as user:
        with pytest.warns(UserWarning, match="a is in a box whose edge is 4294.967296 at the server"):
            session = user.session("a", **SCALE)
        places = shown(user)
        assert max(max(place) for place in places) > RING // 2
        assert seen(session, tmp_path) == [in_box(places, 21.04)] * 3
        assert listed(session.places()) == places
        assert [list(each) for each in session.positions()] == [[part * 21.04 / RING for part in each] for each in places]


def test_atoms_of_ase(join: Any, tmp_path: pathlib.Path) -> None:
    pytest.importorskip("ase")
    with join() as user:
        in_space(user, tmp_path)
    with join() as user, pytest.warns(UserWarning):
        session = user.session("a", **SCALE)
        positions = session.to_ase().get_positions().tolist()
        assert positions == [[part * 21.04 / RING for part in each] for each in shown(user)]


@pytest.mark.parametrize("way", WAYS)
def test_an_order_hands_on_atoms_and_steps(join: Any, tmp_path: pathlib.Path, no_warnings: Any, way: Any) -> None:
    with join() as user:
        way(user, tmp_path)
        session = user.session("a")
        order, wanted = session.order, (session.get_step(), session.dump(), listed(session.places()))
        assert wanted[0] == 300
    with join() as user:
        session = user.session("a", order=order, **SCALE)
        assert (session.get_step(), session.dump(), listed(session.places())) == wanted
        assert session.sample(every=5, frames=2).steps == [300, 305]


def test_a_step_alone_is_handed_on(join: Any, tmp_path: pathlib.Path, no_warnings: Any) -> None:
    with join() as user:
        from_a_file(user, tmp_path)
        wanted = user.session("a").dump()
    with join() as user:
        session = user.session("a", order=Order(step=300), **SCALE)
        assert (session.get_step(), session.dump()) == (300, wanted)


def test_a_list_of_numbers_says_no_steps(join: Any, tmp_path: pathlib.Path) -> None:
    with join() as user:
        in_space(user, tmp_path)
        session = user.session("a")
        numbers, rows = list(session.order.numbers), session.dump().splitlines()[2:]
    with join() as user:
        with pytest.warns(UserWarning, match="So its steps have the server's numbers here"):
            session = user.session("a", order=numbers, **SCALE)
        assert session.dump().splitlines()[2:] == rows
        assert user.session("a", order=numbers).dump().splitlines()[2:] == rows


def test_it_is_told_once(join: Any, tmp_path: pathlib.Path, no_warnings: Any) -> None:
    with join() as user:
        in_space(user, tmp_path)
    with join() as user:
        with pytest.warns(UserWarning, match="So its atoms and steps have the server's numbers here") as told:
            user.session("a", **SCALE)
        assert [warning.filename for warning in told] == [__file__]
        asked = user._wire.asked
        user.session("a", **SCALE)
        assert user._wire.asked == asked + 1


def test_a_warning_that_is_an_error_changes_nothing(join: Any, tmp_path: pathlib.Path) -> None:
    with join() as user:
        in_space(user, tmp_path)
    with join() as user:
        with warnings.catch_warnings():
            warnings.simplefilter("error")
            with pytest.raises(UserWarning):
                user.session("a", **SCALE)
        with pytest.raises(ValueError, match="scale of the session must be known"):
            user.session("a").positions()


@pytest.mark.parametrize("kind", KINDS)
def test_sessions_in_a_box_of_the_user(join: Any, tmp_path: pathlib.Path, no_warnings: Any, kind: Any) -> None:
    with mock.patch.object(arrays, "numpy", kind):
        with join() as user:
            argon(user).advance(50)
        with join() as user:
            session = user.session("a", **SCALE)
            assert seen(session, tmp_path) == [in_box(shown(user), 21.04)] * 3
            assert (session.order, session.get_step()) == (Order(), 50)


@pytest.mark.parametrize("kind", KINDS)
def test_lists_without_numpy(join: Any, tmp_path: pathlib.Path, kind: Any) -> None:
    with mock.patch.object(arrays, "numpy", kind):
        with join() as user:
            in_space(user, tmp_path)
        with join() as user, pytest.warns(UserWarning):
            assert seen(user.session("a", **SCALE), tmp_path) == [in_box(shown(user), 21.04)] * 3


def test_an_edge_that_is_not_that_of_the_load(join: Any) -> None:
    with join() as user:
        argon(user)
    with join() as user:
        for wrong in (21.03, 2.104, 210.4, 21.040002, 4294.0):
            with pytest.raises(ValueError, match=rf"about 21\.04 at the server, got {wrong}; use the edge that it was loaded with"):
                user.session("a", **{**SCALE, "edge": wrong})
        with pytest.raises(ValueError, match="scale of the session must be known"):
            user.session("a").positions()
        for right in (21.04, "21.04", "2104e-2"):
            assert user.session("a", **{**SCALE, "edge": right}).edge == 21.04


def test_what_is_no_edge(join: Any) -> None:
    with join() as user:
        argon(user)
        for wrong in (0, -21.04, "x", "nan", "inf"):
            with pytest.raises(ValueError, match="edge must be a finite number above 0"):
                user.session("a", **{**SCALE, "edge": wrong})


def test_an_edge_as_near_as_it_can_be_told(join: Any) -> None:
    # 36 millionths of an edge of 256 are 603.98 ring units. Those who know the two know one digit of the edge: 255.. or 262..
    body = b"1\nnear 0\nAr 36e-6 0 0\n"
    with join() as user:
        user.ask(f"LOAD a 256 1 131072 rest {len(body)}", body)
        with pytest.raises(ValueError, match="about 300 at the server, got 100.0"):
            user.session("a", edge=100, sigma=1, h=131072)
        user.session("a", **DIMER_SCALE)


def test_a_session_that_is_not_there(join: Any) -> None:
    with join() as user:
        dimer(user, "b")
        asked = user._wire.asked
        for words in ({}, SCALE, {"edge": 1}, {"order": [0]}):
            with pytest.raises(refusals.NoSession):
                user.session("a", **words)
        assert user._wire.asked == asked + 4


def test_what_it_asks(join: Any, tmp_path: pathlib.Path) -> None:
    with join() as user:
        in_space(user, tmp_path)
        for words in ({}, SCALE):
            asked = user._wire.asked
            user.session("a", **words)
            assert user._wire.asked == asked + 1
        order = user.session("a").order
    for words, count in (({}, 2), (SCALE, 3), ({"order": order}, 3), ({"order": order, **SCALE}, 3)):
        with join() as user, warnings.catch_warnings():
            warnings.simplefilter("ignore")
            asked = user._wire.asked
            user.session("a", **words)
            assert user._wire.asked == asked + count


def test_without_an_edge_a_frame_is_that_of_the_server(join: Any, tmp_path: pathlib.Path) -> None:
    with join() as user:
        in_space(user, tmp_path)
    with join() as user:
        session = user.session("a")
        assert millionths(session.dump().splitlines()[2:]) == shown(user) == listed(session.places())


def test_steps_that_are_pending(join: Any, tmp_path: pathlib.Path) -> None:
    with join() as user:
        session = argon(user, order="space")
        session.start(2000)
    with join() as user, pytest.warns(UserWarning):
        session = user.session("a", **SCALE)
        assert session.get_step() == 2000
        assert seen(session, tmp_path) == [in_box(shown(user), 21.04)] * 3


def test_two_species(join: Any, tmp_path: pathlib.Path) -> None:
    classes = [(3.4, 131072, 256), (3.5, 130000, 300), (3.6, 129000, 350)]
    with join() as user:
        positions = argon(user).positions()
        symbols = ["Ar", "Kr"] * 128
        mix: Dict[str, Any] = {"species": ("Ar", "Kr"), "edge": 21.04, "classes": classes, "replace": True, "order": "space"}
        user.load_mix("a", positions, symbols=symbols, **mix).advance(20)
    with join() as user, pytest.warns(UserWarning):
        assert seen(user.session("a", **SCALE), tmp_path) == [in_box(shown(user), 21.04)] * 3


@pytest.mark.parametrize("edge, before", [(RING_EDGE, "-1"), ("21.04", "-0.0048987")])
def test_an_atom_at_0_tells_nothing_until_it_moves(join: Any, tmp_path: pathlib.Path, edge: Any, before: Any) -> None:
    body = MOVING.format(before=before).encode()
    with join() as user:
        user.ask(f"LOAD a {edge} 0.1 131072 pair {len(body)}", body)
    with join() as user, warnings.catch_warnings(record=True) as told:
        warnings.simplefilter("always")
        session = user.session("a", edge=21.04, sigma=0.1, h=131072)
        assert seen(session, tmp_path) == [[(0, 0, 0)]] * 3
        assert told == []
        session.branch("start")
        session.advance(5)
        (place,) = places = shown(user, 1)
        assert abs(place[0] - 5_000_000) < 1000
        assert seen(session, tmp_path) == [in_box(places, 21.04)] * 3
        assert listed(session.places()) == places
        assert session.order.on_ring is (edge == RING_EDGE)
        assert [warning.filename for warning in told] == [__file__] * (edge == RING_EDGE)
        assert session.restore("start") == 0
        assert session.advance(10) == 10
        assert seen(session, tmp_path) == [in_box(shown(user, 1), 21.04)] * 3


def test_an_order_of_an_atom_at_0(join: Any, no_warnings: Any) -> None:
    body = MOVING.format(before="-1").encode()
    with join() as user:
        user.ask(f"LOAD a {RING_EDGE} 0.1 131072 pair {len(body)}", body)
        session = user.session("a", order=Order(step=300, on_ring=True), edge=21.04, sigma=0.1, h=131072)
        assert session.dump() == "1\nstep 300\nAr 0.000000 0.000000 0.000000\n"
        session.advance(5)
        # 5,000,000 ring units are 5000000 * 21.04 / 2^32 = 0.0244937.. in the unit of the file.
        assert session.dump() == "1\nstep 305\nAr 0.024493 0.000000 0.000000\n"


@pytest.mark.parametrize("edge, x", [(4294.97, 4000), (4294.97, 1.5), (4294.96, 1.5), (4294.967296, 1.5), (4294.967297, 4000)])
@pytest.mark.parametrize("at_server", ["said", RING_EDGE])
def test_an_edge_that_is_nearly_that_of_the_ring(join: Any, tmp_path: pathlib.Path, edge: Any, x: Any, at_server: Any) -> None:
    body = f"2\nnear\nAr 0 0 0\nAr {x} 0 0\n".encode()
    with join() as user:
        user.ask(f"LOAD a {edge if at_server == 'said' else at_server} 1 131072 rest {len(body)}", body)
    with join() as user, warnings.catch_warnings():
        warnings.simplefilter("ignore")
        session = user.session("a", edge=edge, sigma=1, h=131072)
        assert seen(session, tmp_path) == [in_box(shown(user, 2), edge)] * 3
        assert listed(session.places()) == shown(user, 2)


def test_what_was_saved_before_an_edge_was_said(join: Any, tmp_path: pathlib.Path) -> None:
    with join() as user:
        in_space(user, tmp_path)
    with join() as user, pytest.warns(UserWarning):
        user.session("a").branch("k")
        session = user.session("a", **SCALE)
        wanted = session.dump()
        session.advance(10)
        session.restore("k")
        assert session.dump() == wanted
        assert seen(session, tmp_path) == [in_box(shown(user), 21.04)] * 3


def test_what_was_saved_before_an_order_was_said(join: Any, tmp_path: pathlib.Path) -> None:
    with join() as user:
        in_space(user, tmp_path)
        order, wanted = user.session("a").order, user.session("a").dump()
    with join() as user:
        user.session("a").branch("k")
        session = user.session("a", order=order, **SCALE)
        session.advance(10)
        assert session.restore("k") == 300
        assert session.dump() == wanted


def test_an_order_of_a_session_that_was_loaded_anew(join: Any, tmp_path: pathlib.Path) -> None:
    with join() as user:
        in_space(user, tmp_path)
        order = user.session("a").order
        argon(user, replace=True)
    with join() as user:
        for words in ({}, SCALE):
            with pytest.raises(ValueError, match="about 21.04 at the server, as that of a is, got 4294.967296"):
                user.session("a", order=order, **words)
        assert user.session("a", **SCALE).order == Order()


def test_a_saved_file_of_a_session_that_was_taken_up(join: Any, tmp_path: pathlib.Path) -> None:
    with join() as user:
        in_space(user, tmp_path)
        order, places = user.session("a").order, listed(user.session("a").places())
    with join() as user:
        user.session("a", order=order, **SCALE).save(tmp_path / "again")
        back = user.load_saved(tmp_path / "again", "b")
        assert (back.get_step(), listed(back.places())) == (300, places)


def test_a_peer_that_shows_another_place_than_it_dumps() -> None:
    dumped = b"OK DUMP a 0 3\n1\nstep 0\nAr 5.000000 0.000000 0.000000\n"
    with peer(says(b"OK LIST a 0\n", dumped, b"OK SHOW a 0 0 0 0 0\n")) as port:
        with connect("127.0.0.1", port, "ann", TOKEN, timeout=SECONDS) as user:
            with pytest.raises(BadReply, match="atom 0 of a is shown at 0 and dumped elsewhere"):
                user.session("a", **SCALE)
            user._wire.close()


def test_a_dimer_of_ask(join: Any) -> None:
    with join() as user:
        user.ask(f"LOAD a 256 1 131072 rest {len(DIMER)}", DIMER.encode())
        session = user.session("a", **DIMER_SCALE)
        session.advance(2)
        assert session.dump() == "2\nstep 2\nAr 0.000105 0.000000 0.000000\nAr 1.499894 0.000000 0.000000\n"
