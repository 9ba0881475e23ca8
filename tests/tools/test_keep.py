"""A server that is kept by `tools/keep`: whatever ends, its users continue as if it had not, or are not let in."""
import contextlib
import json
import os
import pathlib
import re
import resource
import signal
import socket
import stat
import subprocess
import sys
import threading
from typing import Any, List

import pytest

from keepers import HELLO, LOAD, LOADED, TOKEN, USUAL, Keeper, ended, first_line, patched, until
from support import SECONDS, TOP, dimer
from test_watch import reset

# Of the two atoms after two steps: docs/PROTOCOL.md, "A step in half a page".
SHOW, SHOWN = b"SHOW a 0\n", b"OK SHOW a 2 0 1774 0 0\n"
DENIED = b"ERR 01 DENIED\n"
SYNCS = ("group", "second")


def test_a_user_goes_on_when_the_server_was_killed(tmp_path: pathlib.Path) -> None:
    with Keeper(tmp_path) as keeper, keeper.connected() as user:
        a = dimer(user)
        a.advance(1)
        keeper.kill_server()
        a.advance(1)
        assert a.place(0) == (1774, 0, 0)
        status, text = keeper.status()
        assert status == 0 and "last end of the server: it was ended by signal 9" in text
        assert [each["why"] for each in keeper.events("server ended")] == ["it was ended by signal 9"]
    assert keeper.errors.read_text() == ""


@pytest.mark.parametrize("sync", SYNCS)
def test_what_was_told_is_there_when_front_and_server_were_killed(tmp_path: pathlib.Path, sync: Any) -> None:
    with Keeper(tmp_path, "--sync", sync) as keeper:
        with keeper.raw("ann") as stream:
            stream.sendall(LOAD + b"ADVANCE a 1\nBRANCH a k\nSTART a 5\n")
            assert [first_line(stream) for _ in range(5)] == [
                HELLO, LOADED, b"OK ADVANCE a 1\n", b"OK BRANCH a k 1\n", b"OK START a 6\n"
            ]  # fmt: skip
            keeper.kill()
        keeper.begin()
        told = b"OK LIST 1\na 6 2 1\nOK RESTORE a k 1\nOK ADVANCE a 2\n" + SHOWN
        assert keeper.told(b"LIST\nRESTORE a k\nADVANCE a 1\n" + SHOW, "ann") == HELLO + told


def test_what_is_in_flight_is_done_once(tmp_path: pathlib.Path) -> None:
    """A kill interrupts a wait, with more commands behind it."""
    with Keeper(tmp_path) as keeper, keeper.raw("ann") as stream:
        stream.sendall(LOAD + b"ADVANCE a 1\nSTART a 500\n")
        assert [first_line(stream) for _ in range(4)] == [HELLO, LOADED, b"OK ADVANCE a 1\n", b"OK START a 501\n"]
        stream.sendall(b"REVERSE a\nREVERSE a\nTUG a 0 1 0 0\nTUG a 0 -1 0 0\n" + b"ADVANCE a 1\nREVERSE a\n" * 20)
        keeper.kill_server()
        told = [b"OK REVERSE a 500\n", b"OK REVERSE a 501\n", *[b"OK TUG a 0 501\n"] * 2]
        told += [b"OK ADVANCE a 502\n", b"OK REVERSE a 501\n", b"OK ADVANCE a 500\n", b"OK REVERSE a 501\n"] * 10
        assert [first_line(stream) for _ in told] == told
        stream.sendall(b"REVERSE a\nADVANCE a 500\nREVERSE a\nADVANCE a 1\n" + SHOW)
        assert [first_line(stream) for _ in range(5)] == [
            b"OK REVERSE a 500\n", b"OK ADVANCE a 0\n", b"OK REVERSE a 1\n", b"OK ADVANCE a 2\n", SHOWN
        ]  # fmt: skip


# A front whose store waits for a file before {function}: before it writes, or before it syncs the disk.
WAITING = """
import os, pathlib, time
from ljtools.keeping.sqlite import Sqlite
def wait(*words, write=Sqlite.{function}):
    pathlib.Path({noted!r}).touch()
    while not os.path.exists({go!r}):
        time.sleep(0.01)
    return write(*words)
Sqlite.{function} = wait
"""


def waiting(folder: Any, function: str) -> List[Any]:
    return patched(WAITING.format(function=function, noted=str(folder / "noted"), go=str(folder / "go")))


def test_what_is_told_is_written_in_one_transaction_before(tmp_path: pathlib.Path) -> None:
    go, noted = tmp_path / "go", tmp_path / "noted"
    with Keeper(tmp_path, tool=waiting(tmp_path, "write")) as keeper, keeper.raw("ann") as stream:
        stream.sendall(b"LIST\n")
        assert (first_line(stream), first_line(stream)) == (HELLO, b"OK LIST 0\n")
        stream.sendall(LOAD + b"REVERSE a\nREVERSE a\nLIST a\n")
        until(noted.exists)
        stream.settimeout(0.3)
        with pytest.raises(socket.timeout):
            stream.recv(1)
        stream.settimeout(SECONDS)
        go.touch()
        assert [first_line(stream) for _ in range(4)] == [LOADED, b"OK REVERSE a -1\n", b"OK REVERSE a 0\n", b"OK LIST a 0\n"]


def test_what_is_told_is_written_where_it_is_on_the_disk_within_a_second(tmp_path: pathlib.Path) -> None:
    go, noted = tmp_path / "go", tmp_path / "noted"
    with Keeper(tmp_path, "--sync", "second", tool=waiting(tmp_path, "sync")) as keeper, keeper.raw("ann") as stream:
        stream.sendall(LOAD)
        assert (first_line(stream), first_line(stream)) == (HELLO, LOADED)
        assert keeper.kept("ann") == [(1, LOAD, LOADED)]
        until(noted.exists)
        stream.sendall(b"REVERSE a\n")
        assert first_line(stream) == b"OK REVERSE a -1\n"
        go.touch()


def test_always_is_taken_as_group(tmp_path: pathlib.Path) -> None:
    with Keeper(tmp_path, "--sync", "always") as keeper:
        assert keeper.told(LOAD, "ann") == HELLO + LOADED
        told = "keep: --sync always now means group: a command is on the disk before its reply is sent\n"
        assert keeper.errors.read_text() == told


def test_nothing_is_seen_of_the_tokens_and_its_owner_alone_may_look(tmp_path: pathlib.Path) -> None:
    wrong = "w" * 32
    with Keeper(tmp_path) as keeper:
        keeper.told(LOAD, "ann")
        assert keeper.told(b"", "ann", wrong) == DENIED
        assert keeper.told(b"", wrong) == DENIED
        keeper.killed_server()
        words = [pathlib.Path(f"/proc/{process}/cmdline").read_bytes() for process in (keeper.child.pid, keeper.server())]
        text = keeper.everything() + b"".join(words)
        assert TOKEN.encode() not in text and wrong.encode() not in text
        assert stat.S_IMODE(keeper.folder.stat().st_mode) == 0o700
        assert {stat.S_IMODE(each.stat().st_mode) for each in keeper.folder.iterdir()} == {0o600}


def begun_words(process: int) -> List[str]:
    """The words of a server; none while the process is still its launcher."""
    words = pathlib.Path(f"/proc/{process}/cmdline").read_text().split("\0")
    return words if "--listen" in words else []


def test_a_server_lets_nobody_in_but_through_the_front(tmp_path: pathlib.Path) -> None:
    with Keeper(tmp_path) as keeper:
        words = until(lambda: begun_words(keeper.server()))
        port = int(words[words.index("--listen") + 1].rpartition(":")[2])
        assert keeper.told(b"LIST\n", "ann") == HELLO + b"OK LIST 0\n"
        with socket.create_connection(("127.0.0.1", port), SECONDS) as stream:
            stream.sendall(f"HELLO ann {TOKEN}\n".encode())
            assert first_line(stream) == DENIED


def test_a_changed_record_stops_its_user_alone(tmp_path: pathlib.Path) -> None:
    with Keeper(tmp_path, users=("ann", "ben")) as keeper, keeper.raw("ann") as ann, keeper.raw("ben") as ben:
        for stream in (ann, ben):
            stream.sendall(LOAD + b"ADVANCE a 1\n")
            assert [first_line(stream) for _ in range(3)][-1] == b"OK ADVANCE a 1\n"
        keeper.kill()
        keeper.change("update record set item = ? where name = 'ann' and seq = 1", LOAD.replace(b"1.5", b"1.4"))
        keeper.begin()
        assert keeper.told(LOAD, "ann") == DENIED
        assert keeper.told(b"ADVANCE a 1\n" + SHOW, "ben") == b"OK HELLO ben\nOK ADVANCE a 2\n" + SHOWN
        assert keeper.stopped("ann") == "what is kept is damaged: record 1 was changed or is missing"
        status, text = keeper.status()
        assert status == 1 and "ann              stopped: what is kept is damaged" in text
        assert [(each["user"], each["why"]) for each in keeper.events("stopped")] == [("ann", keeper.stopped("ann"))]
        keeper.change("update record set item = ? where name = 'ann' and seq = 1", LOAD)
        keeper.child.send_signal(signal.SIGHUP)
        until(lambda: keeper.known()["users"]["ann"]["state"] == "ready")
        assert keeper.told(b"ADVANCE a 1\n" + SHOW, "ann") == HELLO + b"OK ADVANCE a 2\n" + SHOWN


def test_a_quota_that_was_lowered_stops_its_user_alone_until_it_is_raised(tmp_path: pathlib.Path) -> None:
    with Keeper(tmp_path, users=("ann", "ben")) as keeper, keeper.connected("ben") as ben:
        keeper.told(LOAD, "ann")
        b = dimer(ben)
        keeper.put_users({"ann": (1, 1, 1), "ben": USUAL})
        keeper.child.send_signal(signal.SIGHUP)
        assert keeper.stopped("ann").startswith("the program replied ERR 21 QUOTA_ATOMS to LOAD a 256000000000e-9 ")
        assert keeper.told(b"", "ann") == DENIED
        b.advance(2)
        assert b.place(0) == (1774, 0, 0)
        keeper.put_users({"ann": USUAL, "ben": USUAL})
        keeper.child.send_signal(signal.SIGHUP)
        until(lambda: keeper.known()["users"]["ann"]["state"] == "ready")
        assert keeper.told(b"ADVANCE a 2\n" + SHOW, "ann") == HELLO + b"OK ADVANCE a 2\n" + SHOWN


def test_new_users_with_clients_connected(tmp_path: pathlib.Path) -> None:
    with Keeper(tmp_path, users=("ann", "ben")) as keeper, keeper.connected("ann") as ann, keeper.raw("ben") as ben:
        a = dimer(ann)
        a.advance(1)
        assert first_line(ben) == b"OK HELLO ben\n"
        keeper.put_users({"ann": USUAL, "cleo": USUAL})
        keeper.child.send_signal(signal.SIGHUP)
        assert keeper_lets_in(keeper, "cleo")
        a.advance(1)
        assert a.place(0) == (1774, 0, 0)
        assert ben.recv(1) == b""
        assert keeper.told(b"", "ben") == DENIED


def keeper_lets_in(keeper: Any, name: Any) -> Any:
    return until(lambda: keeper.told(b"", name) == f"OK HELLO {name}\n".encode())


def test_users_with_a_fault_change_nothing(tmp_path: pathlib.Path) -> None:
    with Keeper(tmp_path) as keeper:
        server = keeper.server()
        keeper.users.write_text("ann short 8 16384 16\n")
        keeper.child.send_signal(signal.SIGHUP)
        (told,) = until(lambda: keeper.events("not begun anew"))
        assert told["why"] == f"{keeper.users}: line 1: a token must have 32 characters, got 5"
        assert keeper.told(LOAD, "ann") == HELLO + LOADED
        assert keeper.server() == server


def wrapped(path: Any, before: Any, after: Any) -> str:
    """A program that is the reference of conformance/ as a server, with `before` replaced by `after`."""
    server = TOP / "clients" / "python" / "tests" / "reference_server.py"
    path.write_text(f'#!/bin/sh\nexec {sys.executable} {server} {before!r} {after!r} "$@"\n')
    path.chmod(0o700)
    return str(path)


def test_a_program_that_computes_otherwise_is_not_begun(tmp_path: pathlib.Path) -> None:
    """It pushes twice as hard."""
    program = tmp_path / "program"
    wrapped(program, "", "")
    with Keeper(tmp_path, program=str(program)) as keeper, keeper.raw("ann") as stream:
        stream.sendall(LOAD + b"ADVANCE a 1\n")
        assert [first_line(stream) for _ in range(3)] == [HELLO, LOADED, b"OK ADVANCE a 1\n"]
        server = keeper.server()
        wrapped(program, "PUSHES = [int_div(24", "PUSHES = [int_div(48")
        keeper.child.send_signal(signal.SIGHUP)
        (told,) = until(lambda: keeper.events("not begun anew"))
        assert (
            told["why"] == f"cannot go on by {program}: it computes differently from the last program; use the last one, or another folder"
        )
        stream.sendall(b"ADVANCE a 1\n" + SHOW)
        assert (first_line(stream), first_line(stream)) == (b"OK ADVANCE a 2\n", SHOWN)
        assert keeper.server() == server
        keeper.kill()
        keeper.begin()
        assert until(lambda: keeper.known()["last_end"]) == told["why"]
        wrapped(program, "", "")
        assert keeper.told(SHOW, "ann") == HELLO + SHOWN


def test_a_program_that_answers_otherwise_at_once_is_not_told(tmp_path: pathlib.Path) -> None:
    """Its replies to a client are compared with those that follow from the commands."""
    program = wrapped(tmp_path / "program", 'return f"{target}"', 'return f"{target + (target == 2)}"')
    with Keeper(tmp_path, program=program) as keeper:
        assert keeper.told(LOAD + b"ADVANCE a 1\n", "ann") == HELLO + LOADED + b"OK ADVANCE a 1\n"
        assert keeper.told(b"ADVANCE a 1\n", "ann") == HELLO
        assert keeper.stopped("ann") == "the program replied OK ADVANCE a 3 in place of OK ADVANCE a 2"


def test_a_file_names_the_version_of_the_program(tmp_path: pathlib.Path) -> None:
    program = tmp_path / "program"
    wrapped(program, "", "")
    with Keeper(tmp_path, program=str(program)) as keeper:
        version = keeper.folder / "version"
        until(lambda: version.exists() and version.read_text() == "reference\n")
        program.write_text(program.read_text().replace("exec", 'test "$1" = --version && exec echo new\nexec'))
        keeper.child.send_signal(signal.SIGHUP)
        until(lambda: version.read_text() == "new\n")
        (told,) = keeper.events("program")
        assert (told["before"], told["version"]) == ("reference", "new")


def test_a_disk_that_is_full_ends_front_and_server_before_anyone_is_told(tmp_path: pathlib.Path) -> None:
    """No file may have more than 200,000 bytes, as on a disk that is full."""
    limit = 200_000

    def prepare() -> None:
        resource.setrlimit(resource.RLIMIT_FSIZE, (limit, limit))

    with Keeper(tmp_path, prepare=prepare) as keeper:
        server = keeper.server()
        with keeper.raw("ann") as stream:
            stream.sendall(LOAD + b"TUG a 0 1 0 0\nADVANCE a 1\n" * 50)
            assert [first_line(stream) for _ in range(102)][-1] == b"OK ADVANCE a 50\n"
            for step in range(51, 300):
                stream.sendall(b"TUG a 0 1 0 0\nADVANCE a 1\n")
                if not first_line(stream) or first_line(stream) != b"OK ADVANCE a %d\n" % step:
                    break
        assert keeper.child.wait(SECONDS) == 1
        assert not os.path.exists(f"/proc/{server}")
        assert b"kept.sqlite: disk I/O error" in keeper.everything()
        assert 51 < step < 299
        assert keeper.status()[0] == 1 and "does not run" in keeper.status()[1]
        keeper.prepare = None
        keeper.begin()
        # Commands with a reply are there, and commands that were written without one may be.
        (now,) = [int(line.split()[3]) for line in keeper.told(SHOW, "ann").splitlines()[1:]]
        assert now in (step - 1, step)


def test_a_snapshot_is_in_place_of_records_when_a_client_has_left(tmp_path: pathlib.Path) -> None:
    with Keeper(tmp_path) as keeper:
        told = keeper.told(LOAD + b"ADVANCE a 1\nREVERSE a\n" * 700 + b"ADVANCE a 2\n", "ann")
        assert told.endswith(b"OK ADVANCE a 2\n")
        until(lambda: keeper.kept("ann") == [])
        keeper.killed_server()
        assert keeper.told(SHOW, "ann") == HELLO + SHOWN
        keeper.kill()
        keeper.begin()
        assert keeper.told(SHOW, "ann") == HELLO + SHOWN


# A front that takes a snapshot after {} records, and after {} seconds of computing.
OFTEN = "from ljtools.keeping import user; user.MAX_RECORDS = {}; user.SECONDS_OF_BUDGET = {}"


def test_snapshots_while_a_client_goes_on(tmp_path: pathlib.Path) -> None:
    items = LOAD + b"TUG a 0 1 0 0\nADVANCE a 1\nBRANCH a k\nREVERSE a\nRESTORE a k\nFORGET a k\nLIST\nDUMP a\n" * 100
    with Keeper(tmp_path, tool=patched(OFTEN.format(20, 10))) as keeper:
        told = keeper.told(items, "ann")
    (tmp_path / "other").mkdir()
    with Keeper(tmp_path / "other", tool=patched(OFTEN.format(10**9, 10**9))) as other:
        assert told == other.told(items, "ann") and told.count(b"OK ") == 802


@pytest.mark.parametrize("ends", ["server", "both"])
def test_an_advance_that_takes_long_is_done_in_pieces_with_snapshots_between(tmp_path: pathlib.Path, ends: Any) -> None:
    """Its client waits until it is done, or another one does, and sends what follows."""
    slow = f"{OFTEN.format(4000, 0.02)}; from ljtools.keeping import sessions; sessions.MAX_PIECE = 100"
    with Keeper(tmp_path, tool=patched(slow)) as keeper, keeper.raw("ann") as stream:
        back = b"REVERSE a\nADVANCE a 19998\nREVERSE a\n"
        stream.sendall(LOAD + b"ADVANCE a 20000\n" + (back if ends == "server" else b""))
        assert [first_line(stream) for _ in range(2)] == [HELLO, LOADED]
        until(lambda: keeper.running("ann").startswith(b"ADVANCE a "))
        if ends == "server":
            keeper.killed_server()
            assert [first_line(stream) for _ in range(2)] == [b"OK ADVANCE a 20000\n", b"OK REVERSE a 19999\n"]
            assert [first_line(stream) for _ in range(2)] == [b"OK ADVANCE a 1\n", b"OK REVERSE a 2\n"]
            stream.sendall(SHOW)
            assert first_line(stream) == SHOWN
        else:
            keeper.kill()
            keeper.begin()
            told = HELLO + b"OK LIST 1\na 20000 2 0\nOK REVERSE a 19999\nOK ADVANCE a 1\nOK REVERSE a 2\n" + SHOWN
            assert keeper.told(b"LIST\n" + back + SHOW, "ann") == told


def test_term_takes_a_snapshot_of_what_was_taken(tmp_path: pathlib.Path) -> None:
    with Keeper(tmp_path) as keeper, keeper.raw("ann") as stream:
        stream.sendall(LOAD + b"ADVANCE a 2\n")
        assert [first_line(stream) for _ in range(3)] == [HELLO, LOADED, b"OK ADVANCE a 2\n"]
        assert keeper.end() == 0 and first_line(stream) == b""
        assert keeper.kept("ann") == []
        keeper.begin()
        assert keeper.told(b"LIST\n" + SHOW, "ann") == HELLO + b"OK LIST 1\na 2 2 0\n" + SHOWN


def test_other_connections_of_a_user_wait_at_the_front(tmp_path: pathlib.Path) -> None:
    with Keeper(tmp_path) as keeper, keeper.raw("ann") as first, keeper.raw("ann") as second, keeper.raw("ann") as gone:
        assert first_line(first) == HELLO
        second.sendall(LOAD)
        gone.shutdown(socket.SHUT_WR)
        assert gone.recv(1) == b""
        keeper.killed_server()
        first.sendall(b"LIST\n")
        assert first_line(first) == b"OK LIST 0\n"
        second.settimeout(0.2)
        with pytest.raises(socket.timeout):
            second.recv(1)
        second.settimeout(SECONDS)
        first.sendall(b"BYE\nLIST\n")
        assert (first_line(first), first_line(first)) == (b"OK BYE\n", b"")
        assert (first_line(second), first_line(second)) == (HELLO, LOADED)


def test_who_is_gone_in_the_middle_has_done_what_the_server_had(tmp_path: pathlib.Path) -> None:
    with Keeper(tmp_path) as keeper:
        with keeper.raw("ann") as stream:
            stream.sendall(LOAD + b"ADVANCE a 1\n")
            assert [first_line(stream) for _ in range(3)][-1] == b"OK ADVANCE a 1\n"
            stream.sendall(b"START a 2000\n")
            assert first_line(stream) == b"OK START a 2001\n"
            stream.sendall(b"REVERSE a\n")
        # REVERSE may have come or not.
        assert keeper.told(b"LIST\n", "ann") in {HELLO + b"OK LIST 1\na %d 2 0\n" % step for step in (2000, 2001)}


def test_a_client_that_does_not_read_holds_nobody_else_up(tmp_path: pathlib.Path) -> None:
    def send(stream: Any) -> None:
        with contextlib.suppress(OSError):
            stream.sendall(LOAD + b"DUMP a\n" * 200_000)

    with Keeper(tmp_path, users=("ann", "ben")) as keeper, keeper.raw("ann") as deaf:
        sender = threading.Thread(target=send, args=(deaf,), daemon=True)
        sender.start()
        assert keeper.told(LOAD + b"ADVANCE a 2\n" + SHOW, "ben").endswith(SHOWN)
        memory = int(next(line for line in pathlib.Path(f"/proc/{keeper.child.pid}/status").open() if "VmRSS" in line).split()[1])
        assert memory < 150_000
        # It leaves by a reset: the system's probes of a peer that does not read become rarer and rarer.
        deaf.shutdown(socket.SHUT_WR)
        sender.join(SECONDS)
        reset(deaf)
        assert keeper.told(b"LIST\n", "ann").startswith(HELLO + b"OK LIST 1\na 0 2 0\n")


def test_a_connection_to_the_server_has_as_many_items_as_it_may(tmp_path: pathlib.Path) -> None:
    """The limit is 50 here in place of a million, for 1,000 commands and then their replay."""
    tool = patched("from ljtools.keeping import ends; ends.Link.most_items = 50")
    with Keeper(tmp_path, tool=tool) as keeper:
        told = keeper.told(LOAD + b"TUG a 0 1 0 0\nADVANCE a 1\n" * 500, "ann")
        assert told.count(b"OK ") == 1002
        shown = keeper.told(SHOW, "ann")
        keeper.killed_server()
        assert keeper.told(SHOW + b"ADVANCE a 0\n" * 100, "ann") == shown + b"OK ADVANCE a 500\n" * 100


def test_behind_a_balancer(tmp_path: pathlib.Path) -> None:
    with Keeper(tmp_path, "--proxy") as keeper:
        with socket.create_connection(("127.0.0.1", keeper.port), SECONDS) as stream:
            stream.sendall(f"PROXY TCP4 192.0.2.7 127.0.0.1 4242 4000\r\nHELLO ann {TOKEN}\nLIST\n".encode())
            assert (first_line(stream), first_line(stream)) == (HELLO, b"OK LIST 0\n")
        assert until(lambda: keeper.events("ended"))[0]["from"] == "192.0.2.7:4242"
        assert keeper.told(b"", "ann") == b""
        assert until(lambda: keeper.events("not in"))[0]["refusal"] == "no PROXY header: the first bytes must be a header"


def is_well(keeper: Any) -> Any:
    """Whether a check succeeds."""
    with socket.create_connection(("127.0.0.1", keeper.port), SECONDS) as stream:
        stream.sendall(b"HELLO - -\n")
        return first_line(stream) == DENIED


def test_a_server_that_does_not_answer_is_seen_and_ended(tmp_path: pathlib.Path) -> None:
    tool = patched("from ljtools.keeping import hosts; hosts.SECONDS_TO_ANSWER, hosts.SECONDS_TO_END = 1.5, 4")
    with Keeper(tmp_path, tool=tool) as keeper, keeper.raw("ann") as stream:
        stream.sendall(LOAD + b"ADVANCE a 1\n")
        assert [first_line(stream) for _ in range(3)][-1] == b"OK ADVANCE a 1\n"
        server = keeper.server()
        until(lambda: is_well(keeper))
        os.kill(server, signal.SIGSTOP)
        until(lambda: not is_well(keeper))
        status, text = keeper.status()
        assert status == 1 and f"server: process {server}, begun 1 times, does not answer\n" in text
        stream.sendall(b"ADVANCE a 1\n" + SHOW)
        assert (first_line(stream), first_line(stream)) == (b"OK ADVANCE a 2\n", SHOWN)
        assert [each["process"] for each in keeper.events("server does not answer")] == [server]
        until(lambda: is_well(keeper))
        assert keeper.status()[0] == 0


def test_a_front_that_does_not_answer_is_seen(tmp_path: pathlib.Path) -> None:
    with Keeper(tmp_path) as keeper:
        until(lambda: keeper.status()[0] == 0)
        os.kill(keeper.child.pid, signal.SIGSTOP)
        try:
            status, text = keeper.status()
            assert status == 1 and ", does not answer\n" in text
        finally:
            os.kill(keeper.child.pid, signal.SIGCONT)


def test_eight_connections_of_a_user_wait(tmp_path: pathlib.Path) -> None:
    with Keeper(tmp_path, users=("ann", "ben")) as keeper, keeper.raw("ann") as first, contextlib.ExitStack() as stack:
        assert first_line(first) == HELLO
        waiting = [stack.enter_context(keeper.raw("ann")) for _ in range(8)]
        with keeper.raw("ann") as ninth:
            assert ninth.recv(1) == b""
        assert keeper.told(b"LIST\n", "ben") == b"OK HELLO ben\nOK LIST 0\n"
        first.close()
        assert first_line(waiting[0]) == HELLO


# A front that waits after it says that it listens, before it serves.
SLOW = """
import time
from ljtools.keeping.front import Front
async def late(front, run=Front.run):
    time.sleep(0.5)
    return await run(front)
Front.run = late
"""


def test_it_ends_in_order_as_soon_as_it_says_that_it_listens(tmp_path: pathlib.Path) -> None:
    with Keeper(tmp_path, tool=patched(SLOW)) as keeper:
        assert (keeper.end(), keeper.known()["end"]) == (0, "it was told to end")


def test_a_token_that_was_changed_ends_connections(tmp_path: pathlib.Path) -> None:
    with Keeper(tmp_path) as keeper, keeper.raw("ann") as first, keeper.raw("ann") as second:
        first.sendall(LOAD)
        assert (first_line(first), first_line(first)) == (HELLO, LOADED)
        other = TOKEN.replace("k", "x")
        keeper.users.write_text(keeper.users.read_text().replace(TOKEN, other))
        keeper.child.send_signal(signal.SIGHUP)
        assert first_line(first) == b"" and first_line(second) == DENIED
        assert keeper.told(b"", "ann") == DENIED
        assert keeper.told(b"LIST\n", "ann", other) == HELLO + b"OK LIST 1\na 0 2 0\n"


def test_who_is_kicked_may_come_again(tmp_path: pathlib.Path) -> None:
    with Keeper(tmp_path, users=("ann", "ben")) as keeper, keeper.raw("ben") as other:
        assert first_line(other) == b"OK HELLO ben\n"
        with keeper.raw("ann") as first, keeper.raw("ann") as second:
            first.sendall(LOAD)
            assert (first_line(first), first_line(first)) == (HELLO, LOADED)
            status, err = ended(tmp_path, ["kept", "--kick", "ann"])
            assert (status, err) == (0, "")
            assert (first_line(first), first_line(second)) == (b"", b"")
        assert [each["user"] for each in keeper.events("kicked")] == ["ann"]
        assert keeper.told(b"LIST\n", "ann") == HELLO + b"OK LIST 1\na 0 2 0\n"
        other.sendall(b"LIST\n")
        assert first_line(other) == b"OK LIST 0\n"
        assert ended(tmp_path, ["kept", "--kick", "../ann"]) == (1, "keep: cannot end the connections of ../ann: kept has no such user\n")


def test_steps_of_a_day(tmp_path: pathlib.Path) -> None:
    """A user who asks for more gets all replies up to there, and may come again for what needs none. A restart gives none back."""
    with Keeper(tmp_path, "--steps-a-day", "10", users=("ann", "ben")) as keeper:
        assert keeper.told(LOAD + b"ADVANCE b 9\n", "ann") == HELLO + LOADED + b"ERR 10 NO_SESSION\n"
        assert keeper.told(b"ADVANCE a 6\nSTART a 5\nLIST\n", "ann") == HELLO + b"OK ADVANCE a 6\n"
        assert keeper.told(b"START a 4\nADVANCE a 0\nADVANCE a 1\nLIST\n", "ann") == HELLO + b"OK START a 10\nOK ADVANCE a 10\n"
        assert [each["user"] for each in keeper.events("no steps left today")] == ["ann"]
        keeper.killed_server()
        assert keeper.told(b"LIST\nADVANCE a 1\nLIST\n", "ann") == HELLO + b"OK LIST 1\na 10 2 0\n"
        until(lambda: keeper.known()["users"]["ann"]["today"]["steps"] == 10)
        status, text = keeper.status()
        assert status == 0 and re.search("^ann +ready, [0-9]+ records, no steps left today$", text, re.M)
        assert keeper.told(LOAD + b"ADVANCE a 10\n", "ben").endswith(b"OK ADVANCE a 10\n")
        keeper.kill()
        keeper.begin()
        assert keeper.told(b"ADVANCE a 1\n", "ann") == HELLO


def test_nobody_is_kicked_where_no_front_is(tmp_path: pathlib.Path) -> None:
    tool = patched("from ljtools.keeping import kick; kick.SECONDS_TO_WAIT = 0.2")
    with Keeper(tmp_path, tool=tool) as keeper:
        assert keeper.told(b"LIST\n", "ann") == HELLO + b"OK LIST 0\n"
        keeper.end()
        done = subprocess.run([*tool, str(keeper.folder), "--kick", "ann"], capture_output=True, text=True, timeout=SECONDS)
        assert (done.returncode, done.stderr) == (1, f"keep: cannot end the connections of ann: no front uses {keeper.folder}\n")
        assert not (keeper.folder / "ann.kick").exists()
    assert ended(tmp_path, ["none", "--kick", "ann"]) == (1, "keep: cannot use none: No such file or directory\n")


@pytest.mark.parametrize("last", [b"", b"BYE\n"], ids=["no more items", "BYE"])
def test_who_never_reads_the_last_replies_is_let_go(tmp_path: pathlib.Path, last: Any) -> None:
    """The user's next connection is let in in the meantime."""
    small = "ends.prepare = lambda stream: stream.setsockopt(1, 7, 4096)"
    tool = patched(f"from ljtools.keeping import ends; ends.SECONDS_TO_READ = 2.0; {small}")
    body = b"2000\n\n" + b"".join(b"A %d %d %d\n" % (n % 13, n // 13 % 13, n // 169) for n in range(2000))
    with Keeper(tmp_path, tool=tool) as keeper, socket.socket() as deaf:
        deaf.setsockopt(socket.SOL_SOCKET, socket.SO_RCVBUF, 4096)
        deaf.connect(("127.0.0.1", keeper.port))
        deaf.sendall(f"HELLO ann {TOKEN}\nLOAD a 13 1 1 rest {len(body)}\n".encode() + body + b"DUMP a\n" + last)
        if not last:
            deaf.shutdown(socket.SHUT_WR)
        assert keeper.told(b"LIST\n", "ann") == HELLO + b"OK LIST 1\na 0 2000 0\n"
        assert [each["commands"] for each in until(lambda: keeper.events("ended")[1:] and keeper.events("ended"))] == [
            1,
            2 + bool(last),
        ]
        with deaf.makefile("rb") as replies:
            assert 1000 < len(replies.read()) < 30_000  # the DUMP has twice as much


def test_who_says_nothing_and_who_is_one_too_many(tmp_path: pathlib.Path) -> None:
    tool = patched("from ljtools.keeping import ends, front; ends.SECONDS_FOR_HELLO = 0.5; front.MAX_OPEN = 2")
    with Keeper(tmp_path, tool=tool) as keeper, keeper.raw("ann") as stream:
        assert first_line(stream) == HELLO
        with socket.create_connection(("127.0.0.1", keeper.port), SECONDS) as silent:
            with socket.create_connection(("127.0.0.1", keeper.port), SECONDS) as third:
                assert third.recv(1) == b""
            silent.sendall(b"HELLO")
            assert silent.recv(1) == b""
        stream.sendall(b"LIST\n")
        assert first_line(stream) == b"OK LIST 0\n"


def test_it_ends_when_it_is_told_to(tmp_path: pathlib.Path) -> None:
    with Keeper(tmp_path) as keeper, keeper.raw("ann") as stream:
        assert first_line(stream) == HELLO
        server = keeper.server()
        assert keeper.end() == 0
        assert stream.recv(1) == b"" and not os.path.exists(f"/proc/{server}")
        assert keeper.status()[1].startswith("does not run: it was told to end\n")
        assert json.loads((keeper.folder / "status.json").read_text())["server"] is None
        assert keeper.errors.read_bytes() == b""
