"""What is left out of a record: the commands of a look that leaves the session as it was, all of them or none."""
import os
import pathlib
import signal
from unittest import mock
from typing import Any

import pytest

from ljclient import ConnectionLost, NotRecorded, record_target, refusals, run, user as users
from record_texts import commands, is_the_same, replied, without_checks
from support import PROGRAM, TOKEN, dimer, joined, listed, process_of

# A look that reverses the motion twice, under a branch, and leaves the session as it was.
LOOK = ["BRANCH a guard", "SHOW a 0", "REVERSE a", "SHOW a 0", "RESTORE a guard", "FORGET a guard"]


@pytest.fixture
def path(tmp_path: pathlib.Path) -> Any:
    return tmp_path / "run.lj"


def test_what_save_reads(user: Any, path: Any, tmp_path: pathlib.Path) -> None:
    a = dimer(user, record=path)
    a.save(tmp_path / "a.saved")
    a.advance(2, piece=1, save=tmp_path / "a.saved", seconds=0)
    a.place(0)
    user.close()
    assert commands(path)[1:] == ["ADVANCE a 1", "ADVANCE a 1", "SHOW a 0"]
    assert is_the_same(path) == []


def test_a_look_that_ends_well(user: Any, path: Any, tmp_path: pathlib.Path) -> None:
    """Nothing of it is there, its branch is not in the quota, and other sessions are heard as ever."""
    other = tmp_path / "b.lj"
    a = dimer(user, record=path)
    dimer(user, "b", record=other)
    with user.unrecorded("a"), user.unrecorded("c"):
        user.ask_all(LOOK)
        user.ask("ADVANCE b 1")
        with user.unrecorded("a"):
            a.measure()
    a.advance(1)
    user.close()
    assert commands(path)[1:] == ["ADVANCE a 1"]
    assert [line for line in without_checks(path) if line.startswith("quota ")] == ["quota sessions 1 atoms 2 branches 0"]
    assert commands(other)[1:] == ["ADVANCE b 1"]
    assert is_the_same(path) == is_the_same(other) == []


@pytest.mark.parametrize("done", range(1, len(LOOK) + 1))
def test_a_look_that_is_broken_off(user: Any, path: Any, done: int) -> None:
    """What was done is there, with the quota that it needs, and so is what it was broken off by."""
    a = dimer(user, record=path)
    with pytest.raises(refusals.NoAtom), user.unrecorded("a"):
        user.ask_all(LOOK[:done])
        assert commands(path)[1:] == []
        with user.unrecorded("a"):
            a.place(2)
    a.advance(1)
    user.close()
    assert commands(path)[1:] == [*LOOK[:done], "SHOW a 2", "ADVANCE a 1"]
    assert is_the_same(path) == []


def test_an_interrupt_within_a_look(user: Any, path: Any) -> None:
    dimer(user, record=path)
    with pytest.raises(KeyboardInterrupt), user.unrecorded("a"):
        user.ask_all(LOOK[:3])
        raise KeyboardInterrupt
    assert commands(path)[1:] == LOOK[:3]


def test_a_program_that_is_lost_within_a_look(user: Any, path: Any) -> None:
    dimer(user, record=path)
    with pytest.raises(ConnectionLost), user.unrecorded("a"):
        user.ask_all(LOOK[:3])
        os.kill(process_of(user), signal.SIGKILL)
        user.ask("SHOW a 0")
    assert commands(path)[1:] == LOOK[:3]
    assert without_checks(path)[-2:] == ["? SHOW a 0", "end"]
    assert is_the_same(path) == []


def test_a_new_connection_within_a_look(server: Any, path: Any) -> None:
    """Another one may have changed the session, so all is there."""
    with mock.patch.object(users, "MAX_ITEMS", 100), joined(server.port) as user:
        dimer(user, record=path)
        with user.unrecorded("a"):
            user.ask_all(["SHOW a 0"] * 60)
            user.ask_all(["SHOW a 1"] * 60)
        user.ask("DROP a")
    assert without_checks(path).count("connection") == 1
    assert commands(path)[1:] == [*["SHOW a 0"] * 60, *["SHOW a 1"] * 60, "DROP a"]
    assert is_the_same(path, "--server", f"127.0.0.1:{server.port}", "ann", LJSERVE_TOKEN=TOKEN) == []


def test_a_new_program_within_a_look(path: Any) -> None:
    with mock.patch.object(users, "MAX_ITEMS", 300), run(PROGRAM) as user:
        a = dimer(user, record=path)
        a.advance(1)
        with user.unrecorded("a"):
            for _ in range(200):
                a.place(0)
        assert listed(a.places())[0] == (589, 0, 0)
    assert without_checks(path).count("moved") == 1
    assert commands(path).count("SHOW a 0") > 200
    assert is_the_same(path) == []


def test_a_session_that_is_loaded_again_within_a_look(user: Any, path: Any) -> None:
    """That is none, and the record ends with the session, as ever."""
    dimer(user, record=path)
    with user.unrecorded("a"):
        dimer(user, replace=True).advance(1)
    assert replied(path)[-1] == ("DROP a", "<")
    assert without_checks(path)[-1] == "end"
    assert is_the_same(path) == []


def test_a_look_that_can_no_longer_be_written(user: Any, path: Any) -> None:
    a = dimer(user, record=path)
    with mock.patch.object(record_target.RecordTarget, "write", side_effect=OSError(28, "No space left on device")):
        with pytest.raises(NotRecorded), user.unrecorded("a"):
            a.place(2)
    assert a.advance(1) == 1
    assert commands(path)[1:] == []
