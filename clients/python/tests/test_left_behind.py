"""What a lost connection leaves behind, where the next one may not put it right, or not by a branch: it is said, or noted on the
disk."""
import json
import pathlib
import warnings
from typing import Any, Iterator, List

import pytest

from cuts import Talk, Where, cuttable, joined, places, seen, transport_of
from ljclient import ClientError, LeftWarning, refusals
from support import Server, listed
from test_cut_replacements import LIQUID, liquid
from test_cuts import CALLS, OTHERS, PLACES, ROWS, SCALE, prepared

pytestmark = pytest.mark.usefixtures("state")
FULL = (2, 16, 0)  # two sessions, their atoms, and no branch


@pytest.fixture(scope="module")
def full() -> Iterator[Where]:
    """A server whose user may save nothing."""
    with Server(connections=100_000, quota=FULL) as server:
        yield Where(server.port)


@pytest.fixture(scope="module")
def where() -> Iterator[Where]:
    with Server(connections=100_000) as server:
        yield Where(server.port)


def told(where: Where) -> List[str]:
    """What a connection warns of that is made now."""
    with warnings.catch_warnings(record=True) as caught:
        warnings.simplefilter("always")
        joined(where).close()
    assert all(each.category is LeftWarning for each in caught)
    return [str(each.message) for each in caught]


def cut(where: Where, count: int, do: Any, folder: Any = None) -> ClientError:
    """The error of a call of a prepared session that is cut after so many bytes."""
    with warnings.catch_warnings(), cuttable(where) as user:
        warnings.simplefilter("ignore")
        session = prepared(user)
        transport_of(user).cut_after(count)
        with pytest.raises(ClientError) as caught:
            do(session, folder)
    return caught.value


def raw(where: Where, *lines: str) -> List[List[str]]:
    talk = Talk(where)
    try:
        return talk.told(*lines)
    finally:
        talk.close()


@pytest.mark.parametrize("name", CALLS)
def test_a_full_quota_has_a_note_on_the_disk(full: Where, tmp_path: pathlib.Path, state: Any, name: str) -> None:
    call = CALLS[name]
    pytest.importorskip(call.needs)
    with cuttable(full) as user:
        session = prepared(user)
        before = transport_of(user).sent
        call.do(session, tmp_path)
        total = transport_of(user).sent - before
    assert list(state.glob("*")) == []
    wanted = [seen(full)] if call.is_change else []
    with joined(full) as user:
        prepared(user)
    for _ in range(call.steps + 1):
        wanted.append(seen(full))
        raw(full, "ADVANCE a 1")
    for count in places(total, PLACES):
        cut(full, count, call.do, tmp_path)
        assert all("connection was lost while a was at the server's step" in text for text in told(full))
        assert seen(full) in wanted, f"cut after {count} of {total} bytes"
        assert list(state.glob("*")) == []


def test_a_note_tells_what_the_session_was(full: Where, state: Any) -> None:
    cut(full, 200, CALLS["velocities"].do)
    (note,) = state.glob("a-*.json")
    told_there = json.loads(note.read_text())
    assert (told_there["measured"][:2], told_there["direction"], told_there["before"]) == ([3, 8], 1, None)
    assert note.stat().st_mode & 0o077 == 0 or note.parent.stat().st_mode & 0o077 == 0


def test_another_machine_knows_nothing_of_a_note(full: Where, monkeypatch: Any, tmp_path: pathlib.Path) -> None:
    # 150 bytes are HELLO's and LIST's no more: the cut is after the first REVERSE, so the direction is -1.
    for count in range(1, 400):
        cut(full, count, CALLS["velocities"].do)
        if seen(full).direction == -1:
            break
    monkeypatch.setenv("XDG_STATE_HOME", str(tmp_path / "elsewhere"))
    assert told(full) == [] and seen(full).direction == -1
    monkeypatch.setenv("XDG_STATE_HOME", str(tmp_path / "state"))
    assert told(full) == ["an earlier connection was lost while a was at the server's step 3, and it is as it was there"]
    assert seen(full).direction == 1


def test_a_session_that_has_gone_on_stays_there(where: Where) -> None:
    for count in range(1, 400):
        cut(where, count, CALLS["velocities"].do)
        if seen(where).saved == ["ljclient-look 3"]:
            break
    raw(where, "ADVANCE a 3")
    before = seen(where)
    (text,) = told(where)
    assert text.startswith("an earlier connection was lost while it looked at it: a was at the server's step 3, and is at ")
    assert f"is at {before.step} now, so it was left: `RESTORE a ljclient-look` goes back to 3, and " in text
    assert seen(where) == before
    with warnings.catch_warnings(), joined(where) as user:
        warnings.simplefilter("ignore")
        session = user.session("a", **SCALE)
        assert session.saved() == [] and user.sessions()[0].branches == 0
        # A second look has no place for its branch, and a note in place of it.
        velocities = listed(session.places())
        session.velocities()
        assert listed(session.places()) == velocities
        user.ask("FORGET a ljclient-look")
        assert user.sessions()[0].branches == 0
    assert told(where) == [] and seen(where).step == before.step


def test_a_change_that_was_broken_off_is_undone_and_said(where: Where) -> None:
    with cuttable(where) as user:
        session = prepared(user)
        start = transport_of(user).sent
        session.heat(1.0)
        total = transport_of(user).sent - start
        prepared(user)
    before = seen(where)
    seen_between = set()
    for count in range(0, total, 20):
        cut(where, count, CALLS["heat"].do)
        is_between = any(line.startswith("ljclient-change") for line in seen(where).saved)
        texts = told(where)
        if is_between:
            changed = "an earlier connection was lost while it changed the motion of its atoms: a was at the server's step 3"
            assert texts == [f"{changed}, and is as it was there"]
            assert seen(where) == before
        seen_between.add(is_between)
    assert seen_between == {True, False}


def test_the_error_of_a_lost_connection_says_what_the_session_was(where: Where) -> None:
    errors = {str(cut(where, count, CALLS["velocities"].do)) for count in range(100, 200, 10)}
    said = "; a was at step 3, direction +1 before that, and the next connection puts it back there unless all was done"
    assert any(error.endswith(said) for error in errors), errors


def test_the_error_says_so_too_where_only_a_note_knows(full: Where) -> None:
    error = cut(full, 200, CALLS["velocities"].do)
    said = "; a was at step 3, direction +1 before that, and the next connection from this machine puts it back there unless all was done"
    assert str(error).endswith(said)


def test_reserved_names_are_for_nobody_else(where: Where) -> None:
    with joined(where) as user:
        session = prepared(user)
        for name in ("ljclient-look", "ljclient-change"):
            for ask in (session.branch, session.restore, session.forget):
                with pytest.raises(ValueError, match="keeps for itself"):
                    ask(name)
        with pytest.raises(ValueError, match="keeps for itself"):
            user.load("ljclient-new", ROWS, **SCALE)
        with pytest.raises(ValueError, match="keeps for itself"):
            session.copy("ljclient-new")


def test_user_session_puts_right_what_it_finds(where: Where) -> None:
    with joined(where) as user:
        prepared(user)
        before = listed(user.session("a").places())
        user.ask_all(["BRANCH a ljclient-look", "REVERSE a"])
        with pytest.warns(LeftWarning, match="a was at the server's step 3, and is as it was there"):
            session = user.session("a", **SCALE)
        assert (session.get_step(), listed(session.places()), session.saved()) == (3, before, [])


def test_a_replacement_without_room_has_a_file(full: Where, state: Any, tmp_path: pathlib.Path) -> None:
    with joined(full) as user:
        session = prepared(user)
        places, step = listed(session.places()), session.get_step()
        # Eight atoms are there, and sixteen is the quota: the new nine do not fit beside them.
        nine = [*ROWS, ("Ar", 5.0, 5.0, 5.0)]
        bad = "2\nbad\nAr 0 0 0\nAr 1.5 0 x\n"
        with pytest.raises(refusals.XyzNumber) as caught:
            user.load("a", bad, replace=True, watch=False, **SCALE)
        assert (caught.value.line, listed(session.places())) == (4, places)
        user.load("a", nine, replace=True, watch=False, **SCALE)
        assert (user.sessions()[0].atoms, list(state.glob("*.saved"))) == (9, [])
        session = prepared(user)
        many = "9\nbad\n" + "Ar 0 0 0\n" * 8 + "Ar 1.5 0 x\n"
        user.load("b", OTHERS, watch=False, **SCALE)
        with pytest.raises(refusals.XyzNumber) as caught:
            user.load("a", many, replace=True, watch=False, **SCALE)
        (path,) = state.glob("a-*.saved")
        said = f"if a is gone, as it was, but for what `branch` saved in it, it is in {path}, and user.load_saved(..) loads it"
        assert said in str(caught.value)
        assert [row.name for row in user.sessions()] == ["b"]
    assert told(full) == [
        f"a is not there, and {path} has it as it was before an earlier connection replaced it: user.load_saved(..) loads it; delete the "
        "file if it is not wanted"
    ]
    with warnings.catch_warnings(), joined(full) as user:
        warnings.simplefilter("ignore")
        back = user.load_saved(path, watch=False)
        assert (back.get_step(), listed(back.places())) == (step, places)
    path.unlink()


def test_a_session_without_a_scale_is_not_replaced_without_room(full: Where) -> None:
    with joined(full) as user:
        prepared(user)
        user.load("b", OTHERS, watch=False, **SCALE)
    before = seen(full)
    with joined(full) as user:
        with pytest.raises(ValueError, match="the scale of a must be known"):
            user.load("a", ROWS, replace=True, watch=False, **SCALE)
    assert seen(full) == before


def test_a_bad_file_loses_nothing(where: Where) -> None:
    with joined(where) as user:
        session = prepared(user)
        session.branch("k")
        before = listed(session.places())
        with pytest.raises(refusals.XyzNumber) as caught:
            user.load("a", "2\nbad\nAr 0 0 0\nAr 1.5 0 x\n", replace=True, watch=False, **SCALE)
        assert (caught.value.line, caught.value.command.split()[:2]) == (4, ["LOAD", "a"])
        assert (listed(session.places()), session.saved(), session.get_step()) == (before, [("k", 3)], 3)
        assert [row.name for row in user.sessions()] == ["a"]


def test_an_order_is_known_also_where_only_the_reply_was_lost(where: Where) -> None:
    with cuttable(where) as user:
        session = liquid(user)
        before = transport_of(user).sent
        session.resort()
        total = transport_of(user).sent - before
    for count, is_new in ((total // 2, False), (total, True)):
        with cuttable(where) as user:
            session = liquid(user)
            old, wanted = session.order, listed(session.places())
            transport_of(user).cut_after(count)
            with pytest.raises(ClientError):
                session.resort()
            order = session.order
        with joined(where) as user:
            again = user.session("a", order=order, **LIQUID)
            assert (listed(again.places()), again.order != old, again.order.doubt) == (wanted, is_new, None)
            user.ask("ADVANCE a 5")
            if order.doubt:
                with pytest.raises(ValueError, match="cannot tell the order of"):
                    user.session("a", order=order, **LIQUID)


def test_a_session_in_the_order_of_space_goes_on_without_a_place_for_a_branch(full: Where) -> None:
    with joined(full) as user:
        for row in user.sessions():
            user.ask(f"DROP {row.name}")
        session = user.load("a", ROWS, order="space", watch=False, **SCALE)
        assert session.advance(600) == 600
        with pytest.raises(refusals.QuotaBranches):
            user.ask("BRANCH a k")


def test_what_was_to_replace_a_session_stays_until_that_is_there_again(where: Where) -> None:
    with joined(where) as user:
        prepared(user)
    for count in range(0, 2000, 7):
        with warnings.catch_warnings(), cuttable(where) as user:
            warnings.simplefilter("ignore")
            prepared(user)
            transport_of(user).cut_after(count)
            with pytest.raises(ClientError):
                user.load("a", OTHERS, replace=True, watch=False, **SCALE)
        if seen(where) is None:
            break
    kept = seen(where, "ljclient-new")
    with pytest.warns(LeftWarning, match="Load a once more"), joined(where) as user:
        user.load("b", ROWS, watch=False, **SCALE)
        with pytest.raises(ValueError, match="cannot load: a is gone, and what was to replace it is there as ljclient-new; load a first"):
            user.load("b", OTHERS, replace=True, watch=False, **SCALE)
        with pytest.raises(refusals.XyzNumber):
            user.load("a", "1\n\nAr 0 0 x\n", watch=False, **SCALE)
        assert [row.name for row in user.sessions()] == ["ljclient-new", "b"]
        user.load("a", OTHERS, watch=False, **SCALE)
        assert [row.name for row in user.sessions()] == ["b", "a"]
    assert seen(where) == kept._replace(saved=[]) and told(where) == []


def test_a_guard_is_counted_in_the_quota_of_a_record(where: Where, tmp_path: pathlib.Path) -> None:
    path = tmp_path / "run.lj"
    with joined(where) as user:
        for row in user.sessions():
            user.ask(f"DROP {row.name}")
        session = user.load("a", ROWS, watch=False, record=path, **SCALE)
        session.advance(1)
        before = path.read_text()
        session.heat(1.0)
        session.drop()
    assert "quota sessions 1 atoms 8 branches 0" in before and "quota sessions 1 atoms 8 branches 1" in path.read_text()
    assert "> BRANCH a ljclient-change" in path.read_text() and "> FORGET a ljclient-change" in path.read_text()
