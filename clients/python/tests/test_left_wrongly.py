"""Lost connections and what must not come of them: another session is not put back, and nothing that was told is lost afterwards."""
import pathlib
import resource
import signal
import warnings
from typing import Any, Iterator
from unittest import mock

import pytest

from cuts import Cut, Talk, Where, cuttable, joined, seen, transport_of
from ljclient import ClientError, LeftWarning, NotRecorded, transport, user as users
from support import Server, interruptible, listed
from test_cut_replacements import LIQUID, liquid
from test_cuts import OTHERS, ROWS, SCALE, prepared

pytestmark = pytest.mark.usefixtures("state")


@pytest.fixture(scope="module")
def where() -> Iterator[Where]:
    with Server(connections=100_000) as server:
        yield Where(server.port)


@pytest.fixture(scope="module")
def full() -> Iterator[Where]:
    """A server whose user may save nothing."""
    with Server(connections=100_000, quota=(2, 16, 0)) as server:
        yield Where(server.port)


def raw(where: Where, *lines: str) -> Any:
    talk = Talk(where)
    try:
        return talk.told(*lines)
    finally:
        talk.close()


def half_heated(where: Where) -> None:
    """Leaves a session of which some atoms are tugged."""
    with warnings.catch_warnings(), cuttable(where) as user:
        warnings.simplefilter("ignore")
        session = prepared(user)
        before = transport_of(user).sent
        session.heat(1.0)
        total = transport_of(user).sent - before
        session = prepared(user)
        transport_of(user).cut_after(total * 4 // 5)
        with pytest.raises(ClientError):
            session.heat(1.0)


@pytest.mark.parametrize("is_there", [True, False])
def test_a_note_of_another_session_changes_nothing(full: Where, state: pathlib.Path, is_there: bool) -> None:
    half_heated(full)
    assert len(list(state.glob("*.json"))) == 1
    raw(full, "DROP a")
    if not is_there:
        joined(full).close()
        assert list(state.glob("*.json")) == []
    body = "8\n\n" + "".join(f"Ar {x + 2} {y} {z}\n" for _, x, y, z in ROWS)
    talk = Talk(full)
    talk.socket.sendall(f"LOAD a 8.0 1.0 4096 rest {len(body)}\n{body}".encode())
    assert talk.file.readline() == b"OK LOAD a 0 8\n"
    talk.told("ADVANCE a 3")
    talk.close()
    before = seen(full)
    with warnings.catch_warnings(record=True) as caught:
        warnings.simplefilter("always")
        joined(full).close()
    assert seen(full) == before
    assert [("so it was left: look at it" in str(each.message)) for each in caught] == [True] * is_there


@pytest.mark.parametrize("text", ["", "{}", "[" * 100_000, '{"format": "ljclient note 1", "measured": [1e999], "direction": "x"}'])
def test_a_file_that_is_no_note_is_told(full: Where, state: pathlib.Path, text: str) -> None:
    half_heated(full)
    (note,) = state.glob("*.json")
    joined(full).close()
    note.write_text(text)
    with pytest.warns(LeftWarning, match=r"\.json is no note of this client: delete it"):
        joined(full).close()


def test_all_is_put_right_before_any_is_told(where: Where) -> None:
    with joined(where) as user:
        prepared(user)
        user.load("b", OTHERS, watch=False, **SCALE)
        user.ask_all(["BRANCH a ljclient-look", "ADVANCE a 5", "BRANCH b ljclient-look", "REVERSE b"])
    with warnings.catch_warnings(), pytest.raises(LeftWarning):
        warnings.simplefilter("error")
        joined(where)
    assert (seen(where, "b").direction, seen(where, "b").saved) == (1, [])
    raw(where, "FORGET a ljclient-look")


class Dropped(Cut):
    """A connection of whose sessions another one of the same user drops `b` when it has been listed, as the page of a class may do."""

    def write(self, data: bytes) -> int:
        return super().write(data.replace(b"LIST b\n", b"LIST z\n"))


def test_a_session_that_is_dropped_meanwhile_is_passed_over(where: Where) -> None:
    with joined(where) as user:
        prepared(user)
        user.load("b", OTHERS, watch=False, **SCALE)
        user.ask_all(["BRANCH b other", "BRANCH a ljclient-look", "REVERSE a"])
    with mock.patch.object(transport, "SocketTransport", Dropped), pytest.warns(LeftWarning, match="while it looked at it: a was"):
        joined(where).close()
    assert (seen(where).direction, seen(where).saved, seen(where, "b").saved) == (1, [], ["other 0"])


def test_what_is_left_keeps_atoms_in_their_order(where: Where) -> None:
    with joined(where) as user:
        session = liquid(user)
        user.ask_all(["BRANCH a ljclient-change", "ADVANCE a 3"])
    with warnings.catch_warnings(), joined(where) as user:
        warnings.simplefilter("ignore")
        session = user.session("a", **LIQUID)
        with pytest.raises(ValueError, match="cannot sort .* again: what is saved by `branch` would be lost .ljclient-change"):
            session.resort()


def test_a_guard_that_is_not_recorded_is_given_up(where: Where, tmp_path: pathlib.Path) -> None:
    with joined(where) as user:
        for row in user.sessions():
            user.ask(f"DROP {row.name}")
        path = tmp_path / "run.lj"
        session = user.load("a", ROWS, watch=False, record=path, **SCALE)
        soft, hard = resource.getrlimit(resource.RLIMIT_FSIZE)
        ignored = signal.signal(signal.SIGXFSZ, signal.SIG_IGN)
        resource.setrlimit(resource.RLIMIT_FSIZE, (path.stat().st_size, hard))
        try:
            with pytest.raises(NotRecorded):
                session.heat(1.0)
        finally:
            resource.setrlimit(resource.RLIMIT_FSIZE, (soft, hard))
            signal.signal(signal.SIGXFSZ, ignored)
        assert user.ask("LIST a").lines == []
        session.heat(2.0)
    heated = seen(where)
    joined(where).close()
    assert seen(where) == heated


def test_reserved_names_are_no_sessions(where: Where) -> None:
    with joined(where) as user:
        for name in ("ljclient-look", "ljclient-change", "ljclient-new"):
            with pytest.raises(ValueError, match="keeps for itself"):
                user.load(name, ROWS, **SCALE)


def test_a_connection_that_is_renewed_looks_for_what_was_left(where: Where) -> None:
    with mock.patch.object(users, "MAX_ITEMS", 60), joined(where) as user:
        session = prepared(user)
        reopen = user._reopen

        def after_another() -> Any:
            raw(where, "BRANCH a ljclient-look", "REVERSE a")
            return reopen()

        user.ask_all(["LIST"] * (59 - user._wire.asked))
        with mock.patch.object(user, "_reopen", after_another), pytest.warns(LeftWarning):
            session.measure()
        assert (session.advance(5), seen_while(user)) == (8, 1)


def seen_while(user: Any) -> int:
    """The direction of a session, by the user's own connection."""
    turned, back = (int(user.ask("REVERSE a").words[-1]) for _ in range(2))
    return back - turned


def test_an_interrupt_that_comes_with_a_load_loses_nothing_of_it(where: Where) -> None:
    with joined(where) as user:
        prepared(user)
        ask = user._ask_commands

        def interrupted(commands: Any) -> Any:
            replies = ask(commands)
            if commands[0][0].startswith("LOAD a "):
                signal.raise_signal(signal.SIGINT)
            return replies

        with mock.patch.object(user, "_ask_commands", interrupted), interruptible(), pytest.raises(KeyboardInterrupt):
            user.load("a", ROWS, replace=True, order="space", watch=False, **SCALE)
        assert user._known_of("a").scale is not None and user._known_of("a").order.on_ring


def test_a_driver_of_ase_turns_back_as_a_whole(where: Where) -> None:
    ase = pytest.importorskip("ase")
    from ljclient.ase import ReversibleVerlet

    for count in range(0, 90, 4):
        with warnings.catch_warnings(), cuttable(where) as user:
            warnings.simplefilter("ignore")
            atoms = ase.Atoms("Ar8", positions=[row[1:] for row in ROWS], cell=[8.0] * 3, pbc=True)
            driver = ReversibleVerlet(atoms, 0.1, sigma=1.0, epsilon=0.01, user=user, name="a")
            driver.run(3)
            step = driver.session.get_step()
            transport_of(user).cut_after(count)
            with pytest.raises(ClientError):
                driver.reverse()
        with warnings.catch_warnings():
            warnings.simplefilter("ignore")
            joined(where).close()
        assert (seen(where).step, seen(where).direction) in ((step, 1), (step, -1)), count


def test_a_direction_stays_known_by_a_look(where: Where) -> None:
    with joined(where) as user:
        for row in user.sessions():
            user.ask(f"DROP {row.name}")
        session = user.load("a", ROWS, watch=False, order="space", **SCALE)
        session.advance(3)
        session._frames_of_places(both=True)
        assert user._known_of("a").direction == 1
        session.reverse()
        session._frames_of_places(both=True)
        assert user._known_of("a").direction == -1


def test_a_session_of_several_symbols_is_not_written_as_one_species() -> None:
    with Server(connections=100, quota=(1, 16, 0)) as server:
        where = Where(server.port)
        with joined(where) as user:
            classes = [(1.0, 4096, 256), (0.9, 4096, 256), (0.8, 4096, 256)]
            rows = [("Kr" if number % 2 else "Ar", *site[1:]) for number, site in enumerate(ROWS)]
            user.load_mix("a", rows, edge=8.0, species=("Ar", "Kr"), classes=classes, watch=False)
        before = seen(where)
        with joined(where) as user:
            user.session("a", **SCALE)
            with pytest.raises(ValueError, match="how its species interact is not known; use drop first"):
                user.load("a", OTHERS, replace=True, watch=False, **SCALE)
        assert seen(where) == before


def test_a_folder_of_notes_that_cannot_be_made_is_said(tmp_path: pathlib.Path, monkeypatch: Any) -> None:
    with Server(connections=100, quota=(1, 16, 2)) as server:
        where = Where(server.port)
        with joined(where) as user:
            session = prepared(user)
            before = listed(session.places())
            (tmp_path / "file").write_text("")
            monkeypatch.setenv("XDG_STATE_HOME", str(tmp_path / "file"))
            with pytest.raises(
                ClientError, match="cannot replace a: the quota has no room beside it, and it cannot be saved .*; use drop first"
            ):
                user.load("a", OTHERS, replace=True, watch=False, **SCALE)
            assert listed(session.places()) == before


def test_a_driver_that_turns_back_without_a_place_for_a_branch_knows_its_direction(full: Where) -> None:
    with joined(full) as user:
        for row in user.sessions():
            user.ask(f"DROP {row.name}")
        session = user.load("a", ROWS, watch=False, **SCALE)
        session._step_and_turn()
        assert (user._known_of("a").direction, seen_while(user)) == (-1, -1)
