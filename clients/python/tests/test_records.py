"""What a record has: the commands of one session as they were sent, from its load on, and what each was replied."""
import errno
import hashlib
import os
import pathlib
import signal
import subprocess
import sys
from unittest import mock
from typing import Any, Dict, Iterator, List

import pytest

import support
from ljclient import ClientError, ConnectionLost, Damaged, NotRecorded, Refused, record_target, refusals, run, user as users
from record_texts import CLIENT, COMMANDS, DIMER_TEXT, commands, is_the_same, replied, twisted, verified, with_checks, without_checks
from support import ARGON, DIMER, EXAMPLES, PROGRAM, SECONDS, TOKEN, TOP, Server
from support import dimer, interrupted_when, joined, listed, present, process_of
from terminals import environment

MIX: Dict[str, Any] = {"edge": 256, "species": ("Na", "Cl"), "classes": [(1, 131072, 256), (1, 262144, 512), (1, 131072, 256)]}


@pytest.fixture
def path(tmp_path: pathlib.Path) -> Any:
    return tmp_path / "run.lj"


@pytest.fixture
def user() -> Iterator[Any]:
    with run(PROGRAM, timeout=SECONDS) as user:
        yield user


def played(user: Any, record: Any = None) -> Any:
    """The session whose record is written by hand."""
    a = dimer(user, record=record)
    for line in COMMANDS[1:-2]:
        user.ask(line)
    with pytest.raises(refusals.NoBranch):
        a.restore("z")
    a.saved()
    return a


def test_each_line_of_a_record(user: Any, path: Any) -> None:
    played(user, path)
    user.close()
    assert "\n".join([*without_checks(path), ""]) == DIMER_TEXT
    versions = [line[9:] for line in path.read_text().split("\n")[1:] if line[9:].startswith("program ")]
    told = subprocess.run([PROGRAM, "--version"], capture_output=True, text=True, timeout=SECONDS)
    assert versions == [f"program {line}" for line in told.stdout.splitlines()]
    assert versions or told.returncode


def test_what_is_replied_is_in_the_file_before_it_is_told(user: Any, path: Any) -> None:
    a = dimer(user, record=path)
    assert without_checks(path)[-1] == "< OK LOAD a 0 2"
    assert a.advance(1) == 1
    assert without_checks(path)[-1] == "< OK ADVANCE a 1"
    a.places()
    assert without_checks(path)[-2:] == ["> SHOW a 1", "< OK SHOW a 1 1 25165235 0 0"]
    with pytest.raises(refusals.NoAtom):
        a.place(2)
    assert without_checks(path)[-2:] == ["> SHOW a 2", "< ERR 14 NO_ATOM"]
    a.sample(1, 2)
    assert without_checks(path)[-2] == "< OK DUMP a 2 4"


@pytest.mark.parametrize("body", ["2\r\nx\r\nAr 0 0 0\r\nAr 1.5 0 0", "\n\n2\n\u00e5ngstr\u00f6m : > + end\nAr 0 0 0\nAr 1.5 0 0\nmore\n"])
def test_a_body_is_kept_to_the_byte(user: Any, path: Any, body: Any) -> None:
    count = len(body.encode())
    user.load("a", body, edge=256, sigma=1, h=131072, record=path)
    user.close()
    sent = [line[2:] for line in without_checks(path) if line.startswith(": ")]
    assert "\n".join([*sent, ""]).encode()[:count] == body.encode()
    assert commands(path)[0] == f"LOAD a 256 1 131072 rest {count}"
    assert is_the_same(path) == []


def test_two_runs_in_pieces_of_one_size(tmp_path: pathlib.Path) -> None:
    """They send the same commands, so their records are the same to the byte."""
    told = []
    for name in ("one.lj", "two.lj"):
        with run(PROGRAM) as user:
            argon = user.load("argon", EXAMPLES / "argon_256.xyz", record=tmp_path / name, **ARGON)
            argon.heat(60)
            argon.advance(600, piece=150)
            list(argon.thermo(every=5, rows=3))
        told.append((tmp_path / name).read_bytes())
    assert told[0] == told[1]
    assert told[0].endswith(b" end\n")


def test_nothing_of_other_sessions(user: Any, path: Any, tmp_path: pathlib.Path) -> None:
    other = tmp_path / "b.lj"
    a, b, c = dimer(user, record=path), dimer(user, "b", record=other), dimer(user, "c")
    user.advance([c, a, b], [1, 2, 3], piece=10)
    user.sessions()
    b.start(2)
    a.advance(1)
    b.measure()
    c.drop()
    user.close()
    assert commands(path)[1:] == ["START a 2", "ADVANCE a 0", "ADVANCE a 1"]
    assert commands(other)[1:] == ["START b 3", "ADVANCE b 0", "START b 2", "MEASURE b"]
    assert is_the_same(path) == is_the_same(other) == []


def test_a_mixture(user: Any, path: Any) -> None:
    m = user.load_mix("m", "2\nmix\nNa 0 0 0\nCl 1.5 0 0\n", record=path, **MIX)
    assert m.measure().potential == -10698264
    m.advance(1)
    assert m.place(1) == (25164646, 0, 0)
    user.close()
    assert commands(path)[0] == "LOADMIX m 256 Na Cl 1 131072 256 1 262144 512 1 131072 256 rest 26"
    assert commands(path)[1:] == ["MEASURE m", "ADVANCE m 1", "SHOW m 1"]
    assert is_the_same(path) == []


def test_the_quota_that_is_needed(user: Any, path: Any) -> None:
    a = dimer(user, record=path)
    for name in "klm":
        a.branch(name)
        a.forget(name)
    a.branch("k")
    a.branch("l")
    user.close()
    told = [line for line in without_checks(path) if line.startswith("quota ")]
    assert told == [f"quota sessions 1 atoms 2 branches {branches}" for branches in (0, 1, 2)]
    assert is_the_same(path) == []


def test_a_refusal_that_others_bring_about(path: Any) -> None:
    with run(PROGRAM, branches=1) as user:
        a, b = dimer(user, record=path), dimer(user, "b")
        b.branch("k")
        with pytest.raises(refusals.QuotaBranches):
            a.branch("k")
        b.drop()
        a.branch("k")
    assert without_checks(path)[-6:] == [
        "> BRANCH a k",
        "! ERR 22 QUOTA_BRANCHES",
        "quota sessions 1 atoms 2 branches 1",
        "> BRANCH a k",
        "< OK BRANCH a k 0",
        "end",
    ]
    assert is_the_same(path) == []


def test_a_want_of_memory(path: Any, tmp_path: pathlib.Path) -> None:
    """Of the allocations of the program one after the other is refused, until that of a BRANCH was."""
    if subprocess.run(["sh", "-c", "command -v cc"], stdout=subprocess.DEVNULL).returncode:
        pytest.skip("cc is not installed")
    library, source = tmp_path / "refuse_memory.so", TOP / "tests" / "refuse_memory.c"
    subprocess.run(["cc", "-shared", "-fPIC", "-o", library, source, "-ldl"], check=True, timeout=SECONDS)
    refused = 0
    for number in range(1, 400):
        try:
            with run(PROGRAM, env={"LD_PRELOAD": str(library), "REFUSED": str(number)}) as user:
                a = dimer(user, record=path)
                try:
                    a.branch("k")
                except refusals.Memory:
                    refused += 1
                    a.branch("k")
                    assert replied(path)[1:] == [("BRANCH a k", "!"), ("BRANCH a k", "<")]
                    assert "! ERR 90 MEMORY" in without_checks(path)
                    user.close()
                    assert is_the_same(path) == []
                    return
        except ClientError:
            assert not path.exists() or not path.read_bytes()
            path.unlink(missing_ok=True)
        path.unlink(missing_ok=True)
    if not refused:
        pytest.skip("the program takes no library")


def test_a_file_stays_until_the_session_is_loaded(user: Any, path: Any) -> None:
    path.write_text("what was here")
    wrong: List[Dict[str, Any]] = [{"h": 0}, {"sigma": 100}]
    for words in wrong:
        with pytest.raises(Refused):
            dimer(user, record=path, **words)
    assert path.read_text() == "what was here"
    dimer(user, record=path)
    assert path.read_text().startswith("ljserve record 2\n")


def test_a_load_that_is_refused_leaves_no_file(user: Any, path: Any) -> None:
    with pytest.raises(refusals.StepFactor):
        dimer(user, h=0, record=path)
    assert not path.exists()
    assert user.sessions() == []


def test_files_that_cannot_be_written(user: Any, tmp_path: pathlib.Path) -> None:
    dimer(user).advance(3)
    os.mkfifo(tmp_path / "fifo")
    for record, fault in ((tmp_path, ValueError), (tmp_path / "fifo", ValueError), (tmp_path / "none" / "run.lj", OSError)):
        with pytest.raises(fault):
            dimer(user, replace=True, record=record)
    assert user._row("a").step == 3


def test_two_records_are_two_files(user: Any, path: Any) -> None:
    dimer(user, record=path)
    with pytest.raises(ValueError, match="it is a record that is being written; use another file, or close the user that writes it"):
        dimer(user, "b", record=path)
    with run(PROGRAM) as other, pytest.raises(ValueError, match="it is a record that is being written"):
        dimer(other, record=path)
    assert [row.name for row in user.sessions()] == ["a"]
    user.close()
    assert is_the_same(path) == []


def test_a_session_that_is_there_already(user: Any, path: Any, tmp_path: pathlib.Path) -> None:
    a = dimer(user, record=path)
    dimer(user, "b")
    for name in "ab":
        with pytest.raises(ValueError, match=f"cannot record {name} from here on: a record begins with the load of its session"):
            user.session(name, record=tmp_path / "other.lj")
        with pytest.raises(refusals.Exists):
            dimer(user, name, record=tmp_path / "other.lj")
    a.advance(2)
    user.close()
    assert os.listdir(tmp_path) == ["run.lj"]
    assert commands(path)[-1] == "ADVANCE a 2"
    assert is_the_same(path) == []


def test_a_session_that_is_loaded_again(user: Any, path: Any) -> None:
    dimer(user, record=path).advance(1)
    a = dimer(user, replace=True)
    a.advance(7)
    assert commands(path)[1:] == ["ADVANCE a 1", "DROP a"]
    assert without_checks(path)[-1] == "end"
    dimer(user, replace=True, record=path).advance(2)
    dimer(user, replace=True, record=path).advance(3)
    user.close()
    assert commands(path)[1:] == ["ADVANCE a 3"]
    assert is_the_same(path) == []


def test_commands_behind_a_drop(user: Any, path: Any) -> None:
    dimer(user, record=path)
    with pytest.raises(refusals.NoSession):
        user.ask_all(["DROP a", "SHOW a 0"])
    user._ask_commands([("LOAD a 256 1 131072 rest 28", DIMER.encode()), ("ADVANCE a 1", b"")])
    assert without_checks(path)[-3:] == ["> DROP a", "< OK DROP a", "end"]
    assert is_the_same(path) == []


def test_atoms_in_the_order_of_space(path: Any) -> None:
    """They are sorted anew by tugs, as which it stands in the record."""
    with run(PROGRAM) as user:
        argon = user.load("argon", EXAMPLES / "argon_256.xyz", order="space", record=path, **ARGON)
        argon.heat(200)
        argon.advance(600)
        wanted = listed(argon.places())
        argon.branch("k")
        argon.advance(300)
        argon.restore("k")
        assert listed(argon.places()) == wanted
    lines = commands(path)
    assert "DROP argon" not in lines and [line.split()[0] for line in lines].count("LOAD") == 1
    assert any(line.startswith("TUG argon ") for line in lines[lines.index("ADVANCE argon 250") if "ADVANCE argon 250" in lines else 300 :])
    assert is_the_same(path) == []


def test_a_saved_session(user: Any, path: Any, tmp_path: pathlib.Path) -> None:
    a = dimer(user, record=path)
    a.advance(1)
    a.save(tmp_path / "a.saved")
    b = user.load_saved(tmp_path / "a.saved", "b", record=tmp_path / "b.lj")
    assert (b.advance(1), b.place(0)) == (2, (1774, 0, 0))
    b = user.load_saved(tmp_path / "a.saved", "b", replace=True, record=tmp_path / "b.lj")
    b.advance(3)
    user.load_saved(tmp_path / "a.saved", "b", replace=True)
    user.close()
    assert commands(tmp_path / "b.lj")[1:] == ["ADVANCE b 3", "DROP b"]
    assert commands(path)[1:] == ["ADVANCE a 1"]
    assert is_the_same(path) == is_the_same(tmp_path / "b.lj") == []


def test_a_record_that_continues_another(user: Any, path: Any, tmp_path: pathlib.Path) -> None:
    """Its head has the SHA-256 of the one before, of which the end may be missing."""
    a, saved, following = dimer(user, record=path), tmp_path / "a.saved", tmp_path / "b.lj"
    a.advance(1)
    a.save(saved)
    a.advance(1)
    user.close()
    text = "\n".join(without_checks(path)).replace(f"{CLIENT}\n", "client x\nprogram y\n")
    for cut in (f"{text}\n", text[: text.rindex("\nend") + 1], text[: text.rindex("> ADVANCE")]):
        path.write_text(with_checks(cut) + ("" if "\nend" in cut else "0123"))
        with run(PROGRAM) as other:
            other.load_saved(saved, record=following, continues=path).advance(1)
        wanted = hashlib.sha256(cut.encode()).hexdigest()
        assert [line for line in without_checks(following) if line.startswith("continues ")] == [f"continues {wanted}"]
        assert without_checks(following)[2].startswith("continues ")
        status, told, faults = verified("--quiet", following)
        assert (status, faults) == (0, [])
        assert f"; the file says that it continues {wanted}; its commands have the SHA-256 " in told[-1]


def test_what_no_record_continues(user: Any, path: Any, tmp_path: pathlib.Path) -> None:
    """Nothing is loaded or written then, and nothing is dropped."""
    saved, following = tmp_path / "a.saved", tmp_path / "b.lj"
    dimer(user, record=path).save(saved)
    wrong: List[Any] = [(None, path, ValueError), (path, path, ValueError), (following, saved, Damaged), (following, "none", OSError)]
    for record, continues, fault in wrong:
        with pytest.raises(fault):
            user.load_saved(saved, replace=True, record=record, continues=continues)
    assert not following.exists()
    assert user._row("a").step == 0
    user.close()
    assert commands(path)[1:] == []


def test_a_line_without_an_end(user: Any, path: Any) -> None:
    """It is no command, and ends the connection and the record."""
    a = dimer(user, record=path)
    a.advance(1)
    with pytest.raises(refusals.Long):
        user.ask("SHOW a " + "0" * 70_000)
    assert without_checks(path)[-2:] == ["< OK ADVANCE a 1", "end"]
    assert is_the_same(path) == []


def test_a_session_that_is_gone_without_a_new_connection(path: Any, tmp_path: pathlib.Path) -> None:
    """No command of the session has brought it about, and its record ends before."""
    with run(twisted(tmp_path, "OK REVERSE a 0", "ERR 10 NO_SESSION")) as user:
        a = dimer(user, record=path)
        a.advance(1)
        with pytest.raises(refusals.NoSession):
            a.reverse()
        user.ask("ADVANCE a 1")
    assert without_checks(path)[-2:] == ["< OK ADVANCE a 1", "end"]
    assert is_the_same(path) == []


def test_a_session_that_is_taken_up(user: Any, path: Any) -> None:
    a = dimer(user, record=path)
    a.advance(2)
    again = user.session("a", edge=256, sigma=1, h=131072)
    assert again.dump() == a.dump()
    again.reverse()
    user.close()
    assert commands(path)[-1] == "REVERSE a"
    assert is_the_same(path) == []


def test_what_is_asked_as_it_stands(user: Any, path: Any) -> None:
    dimer(user, record=path)
    user.ask(" ADVANCE\ta  1\r")
    refused = ["ADVANCE a", "ADVANCE a x", "SHOW a \u00e5", "TUG a 0 0 0 0 " + "0" * 300, "LOAD a " + "0" * 300, "LOAD a 0 0 0 x 0"]
    for line in [*refused, "NO a", "a", "LOAD a"]:
        with pytest.raises(Refused):
            user.ask(line)
    assert commands(path)[1:] == [" ADVANCE\ta  1\r", *refused, "LOAD a"]
    assert [mark for _, mark in replied(path)] == [*["<"] * 8, "!"]
    assert without_checks(path)[-2:] == ["! ERR 04 BODY", "end"]
    assert is_the_same(path) == []


def test_an_interrupt(user: Any, path: Any) -> None:
    argon = user.load("argon", EXAMPLES / "argon_256.xyz", record=path, **ARGON)
    told: List[Any] = []
    with interrupted_when(lambda: any(told)):
        argon.advance(10**6, progress=lambda done, total: told.append(done))
    step = argon.get_step()
    argon.reverse()
    user.close()
    assert step > 0
    assert commands(path)[-2:] == ["ADVANCE argon 0", "REVERSE argon"]
    assert is_the_same(path) == []


def test_a_reply_that_did_not_come(user: Any, path: Any) -> None:
    argon = user.load("argon", EXAMPLES / "argon_256.xyz", record=path, **ARGON)
    with interrupted_when(lambda: user.unanswered == ["ADVANCE argon 1000000"] and not user._wire._outgoing):
        argon.advance(10**6, piece=10**6)
    user.close()
    assert without_checks(path)[-2:] == ["? ADVANCE argon 1000000", "end"]
    assert is_the_same(path) == []


def test_a_program_that_is_lost(user: Any, path: Any) -> None:
    a = dimer(user, record=path)
    os.kill(process_of(user), signal.SIGKILL)
    with pytest.raises(ConnectionLost):
        a.measure()
    assert without_checks(path)[-2:] == ["? MEASURE a", "end"]
    assert is_the_same(path) == []


def test_a_process_that_is_killed(path: Any) -> None:
    """Each step that was told is in the file."""
    script = f"""
from ljclient import run
user = run({PROGRAM!r})
a = user.load("a", {DIMER!r}, edge=256, sigma=1, h=131072, record={str(path)!r})
while True:
    print(a.advance(1), flush=True)
"""
    child = subprocess.Popen([sys.executable, "-c", script], env=environment(), stdout=subprocess.PIPE, text=True)
    told = [int(present(child.stdout).readline()) for _ in range(20)]
    child.kill()
    told += [int(line) for line in present(child.stdout)]
    child.wait(SECONDS)
    present(child.stdout).close()
    assert told == list(range(1, len(told) + 1))
    steps = [line for line in without_checks(path) if line.startswith("< OK ADVANCE")]
    assert steps[: len(told)] == [f"< OK ADVANCE a {step}" for step in told]
    (fault,) = is_the_same(path)
    assert " has no `end`: its writer was killed" in fault or "is cut short here" in fault


def test_a_program_that_has_used_up_its_commands(path: Any, tmp_path: pathlib.Path) -> None:
    """The session goes on in a new one, with what is saved in it, and so does its record."""
    with mock.patch.object(users, "MAX_ITEMS", 300), run(PROGRAM) as user:
        a, b = dimer(user, record=path), dimer(user, "b")
        a.advance(2)
        a.branch("k")
        first = user._wire
        for step in range(3, 120):
            assert a.advance(1) == step
            b.advance(1)
        assert user._wire is not first
        assert a.restore("k") == 2
        assert listed(a.places()) == [(1774, 0, 0), (25164050, 0, 0)]
    assert without_checks(path).count("moved") == 1
    assert is_the_same(path) == []
    with Server() as server:
        words = ("--server", f"127.0.0.1:{server.port}", "ann")
        assert is_the_same(path, *words, LJSERVE_TOKEN=TOKEN) == []


def test_a_new_program_that_does_not_take_the_session(path: Any) -> None:
    """The session stays where it is, and its record goes on without one that has moved."""
    with mock.patch.object(users, "MAX_ITEMS", 300), run(PROGRAM) as user:
        a = dimer(user, record=path)
        a.branch("k")
        with mock.patch.object(user, "_restart", side_effect=ConnectionLost("no")):
            for _ in range(150):
                a.advance(1)
        assert a.restore("k") == 0
    assert "moved" not in without_checks(path)
    assert is_the_same(path) == []


def test_a_file_that_can_no_longer_be_written(user: Any, path: Any) -> None:
    a = dimer(user, record=path)
    a.advance(1)
    with mock.patch.object(record_target.RecordTarget, "write", side_effect=OSError(errno.ENOSPC, "No space left on device")):
        with pytest.raises(NotRecorded, match="run.lj: No space left on device; nothing more is recorded"):
            a.advance(1)
        with pytest.raises(NotRecorded):
            dimer(user, "b", record=path.with_name("b.lj"))
    assert a.advance(1) == 3
    assert [row.name for row in user.sessions()] == ["a"]
    user.close()
    assert commands(path)[1:] == ["ADVANCE a 1"]
    (fault,) = is_the_same(path)
    assert " has no `end`" in fault


# Over a server


def test_a_user_of_a_server(server: Any, path: Any) -> None:
    with joined(server.port) as user:
        played(user, path)
    assert TOKEN not in path.read_text()
    assert "\n".join([*without_checks(path), ""]) == DIMER_TEXT
    assert with_checks(DIMER_TEXT) == path.read_text()
    assert is_the_same(path) == []


def test_a_connection_that_has_used_up_its_commands(server: Any, path: Any) -> None:
    with mock.patch.object(users, "MAX_ITEMS", 100), joined(server.port) as user:
        a = dimer(user, record=path)
        for step in range(1, 120):
            assert a.advance(1) == step
        assert without_checks(path).count("connection") == 1
        a.drop()
    assert is_the_same(path) == []
    assert is_the_same(path, "--server", f"127.0.0.1:{server.port}", "ann", LJSERVE_TOKEN=TOKEN) == []


def test_another_connection_that_changes_the_session(server: Any, path: Any) -> None:
    """The record can't know of it, and verify says where it may have been."""
    with mock.patch.object(users, "MAX_ITEMS", 100), joined(server.port) as user:
        a = dimer(user, record=path)
        user.ask_all(["LIST"] * (users.MAX_ITEMS - 1 - user._wire.asked))
        reopen = user._reopen

        def after_another() -> Any:
            with joined(server.port) as other:
                other.session("a").tug(0, (5, 0, 0))
            return reopen()

        with mock.patch.object(user, "_reopen", after_another):
            a.advance(1)
        assert a.place(0) == (594, 0, 0)
    status, _, (fault,) = verified("--quiet", path)
    assert status == 1
    assert fault.endswith(
        "`SHOW a 0` was answered `OK SHOW a 1 0 594 0 0`, and `OK SHOW a 1 0 589 0 0` here; "
        "above it a new connection was begun, and another one may have changed the session"
    )


def test_replies_that_are_on_their_way_when_a_new_connection_begins(server: Any, path: Any) -> None:
    with mock.patch.object(users, "MAX_ITEMS", 100), joined(server.port) as user:
        argon = user.load("argon", EXAMPLES / "argon_256.xyz", record=path, watch=False, **ARGON)
        user.ask_all(["LIST"] * (users.MAX_ITEMS - 2 - user._wire.asked))
        with interrupted_when(lambda: user.unanswered == ["ADVANCE argon 10000"] and not user._wire._outgoing):
            argon.advance(10**6, piece=10000)
        assert argon.get_step() == 10000
        argon.drop()
    lines = [line for line in without_checks(path) if line[0] in ">c"]
    assert lines[-4:] == ["> ADVANCE argon 10000", "connection", "> ADVANCE argon 0", "> DROP argon"]
    assert is_the_same(path) == []


def test_a_server_that_was_started_again(server: Any, path: Any) -> None:
    with mock.patch.object(users, "MAX_ITEMS", 100), joined(server.port) as user:
        a = dimer(user, record=path)
        a.advance(1)
        user.ask_all(["LIST"] * (users.MAX_ITEMS - 1 - user._wire.asked))
        server.end()
        with mock.patch.object(support, "free_port", lambda: server.port), Server():
            with pytest.raises(refusals.NoSession, match="the server no longer has it"):
                a.measure()
            dimer(user)
            user.ask("ADVANCE a 5")
    assert without_checks(path)[-4:] == ["connection", "> MEASURE a", "! ERR 10 NO_SESSION", "end"]
    assert is_the_same(path) == []
