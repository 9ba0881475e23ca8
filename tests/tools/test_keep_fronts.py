"""Fronts of `tools/keep` over a database that they share: any of them takes any user, and what one has replied outlasts it."""
import contextlib
import os
import pathlib
import re
import shutil
import signal
import socket
import subprocess
import sys
import time
from typing import Any, Iterator

import pytest

from keepers import LOAD, LOADED, TOKEN, TOP, USUAL, Fronts, Keeper, first_line, patched, until
from support import PROGRAM, SECONDS, free_port

sys.path.append(str(TOP / "tools"))
from ljtools.keeping.place import shown_place  # noqa: E402

HELLO = b"OK HELLO ann\n"
# Of the two atoms after two steps: docs/PROTOCOL.md, "A step in half a page".
SHOW, SHOWN = b"SHOW a 0\n", b"OK SHOW a 2 0 1774 0 0\n"
USERS = {"ann": USUAL, "ben": USUAL}


@contextlib.contextmanager
def fronts(folder: Any, cluster: Any, *options: Any, words: str = "", **more: Any) -> Iterator[Any]:
    """Two fronts that are ready, patched by some words of Python."""
    with Fronts(folder, cluster, PROGRAM, USERS, options, patched(words), **more) as both:
        until(both.is_ready)
        yield both


@pytest.fixture
def both(tmp_path: pathlib.Path, cluster: Any) -> Iterator[Any]:
    with fronts(tmp_path, cluster) as both:
        yield both


def told(stream: Any, sent: bytes, count: int) -> Any:
    """The next `count` lines of replies to `sent`."""
    stream.sendall(sent)
    return [first_line(stream) for _ in range(count)]


def again(front: Any, name: str = "ann") -> Any:
    """A connection that is let in, tried until one is."""
    end = time.monotonic() + SECONDS
    while time.monotonic() < end:
        with contextlib.suppress(OSError):
            stream = front.raw(name)
            if first_line(stream) == f"OK HELLO {name}\n".encode():
                return stream
            stream.close()
    raise AssertionError("it is not let in")


def test_a_user_is_passed_on_to_the_front_that_has_it(both: Any) -> None:
    one, other = both.each
    with one.raw("ann") as stream:
        assert told(stream, LOAD + b"ADVANCE a 1\nBYE\n", 5) == [HELLO, LOADED, b"OK ADVANCE a 1\n", b"OK BYE\n", b""]
    with other.raw("ann") as stream:
        assert told(stream, b"ADVANCE a 1\n" + SHOW, 3) == [HELLO, b"OK ADVANCE a 2\n", SHOWN]
        second = one.raw("ann")
        second.sendall(b"LIST\n")
        stream.shutdown(socket.SHUT_WR)
        assert first_line(stream) == b"" and told(second, b"", 2) == [HELLO, b"OK LIST 1\n"]
    # The user counts only at its owner.
    assert [each["user"] for each in one.events("in")] == ["ann"] * 3 and other.events("in") == []
    assert other.events("ended") == other.events("not in") == []
    assert other.told(b"LIST\n", "ben") == b"OK HELLO ben\nOK LIST 0\n"
    until(lambda: [each.known()["users"].keys() for each in both.each] == [{"ann"}, {"ben"}])


def test_who_is_passed_on_behind_a_balancer(tmp_path: pathlib.Path, cluster: Any) -> None:
    with fronts(tmp_path, cluster, "--proxy") as both:
        for front in both.each:
            with socket.create_connection(("127.0.0.1", front.port), SECONDS) as stream:
                stream.sendall(f"PROXY TCP4 192.0.2.7 127.0.0.1 4242 4000\r\nHELLO ann {TOKEN}\nBYE\n".encode())
                assert (first_line(stream), first_line(stream), first_line(stream)) == (HELLO, b"OK BYE\n", b"")
        assert [each["from"] for each in until(lambda: both.each[0].events("in")[1:])] == ["192.0.2.7:4242"]


def test_a_large_body_and_many_replies_are_passed_on(both: Any) -> None:
    one, other = both.each
    with one.raw("ann") as stream:
        assert first_line(stream) == HELLO
    rows = "".join(f"Ar {n % 16 * 1.5} {n // 16 % 16 * 1.5} {n // 256 * 1.5}\n" for n in range(4096))
    body = f"4096\nc\n{rows}".encode()
    load = b"LOAD a 256 1 131072 rest %d\n%s" % (len(body), body)
    assert other.told(load + b"DUMP a\n" * 20, "ann") == one.told(b"DROP a\n" + load + b"DUMP a\n" * 20, "ann").replace(b"OK DROP a\n", b"")


def test_users_of_a_front_that_was_killed_are_at_the_other(both: Any) -> None:
    one, other = both.each
    with one.raw("ann") as stream:
        assert told(stream, LOAD + b"ADVANCE a 1\nSTART a 1\n", 4)[3] == b"OK START a 2\n"
        one.child.kill()
        begun = time.monotonic()
        with again(other) as stream:
            took = time.monotonic() - begun
            assert told(stream, SHOW, 1) == [SHOWN]
    assert took < 5
    until(lambda: other.status()[0] == 0)
    one.child.wait(SECONDS)
    one.begin()
    assert one.told(b"ADVANCE a 0\n" + SHOW, "ann") == HELLO + b"OK ADVANCE a 2\n" + SHOWN


def test_term_hands_over(both: Any) -> None:
    one, other = both.each
    with one.raw("ann") as stream:
        assert told(stream, LOAD + b"ADVANCE a 2\n", 3)[2] == b"OK ADVANCE a 2\n"
        with other.raw("ann") as passed:
            assert one.end() == 0 and first_line(stream) == b""
            # The connection is passed on, or its owner is still looked for.
            assert first_line(passed) in (b"", HELLO)
    assert other.told(SHOW, "ann") == HELLO + SHOWN
    status, text = until(lambda: (told := other.status())[1].count("ann") and told)
    assert status == 0 and text.startswith("runs since ") and "ann              ready" in text
    assert other.end() == 0 and other.status() == (1, "no front runs\n")


def test_one_that_was_stopped_tells_nothing_more(both: Any, cluster: Any) -> None:
    """The database takes it as gone, as if its machine was cut off."""
    one, other = both.each
    with one.raw("ann") as stream:
        assert told(stream, LOAD, 2) == [HELLO, LOADED]
        os.kill(one.child.pid, signal.SIGSTOP)
        try:
            stream.sendall(SHOW + b"ADVANCE a 1\n" + SHOW)
            lock = "from pg_locks where locktype = 'advisory' and objid = 1"
            cluster.ask("postgres", f"select pg_terminate_backend(pid) {lock}")
            until(lambda: cluster.ask("postgres", f"select pid {lock}") == [])
            with again(other) as second:
                assert told(second, b"ADVANCE a 1\nREVERSE a\n", 2) == [b"OK ADVANCE a 1\n", b"OK REVERSE a 0\n"]
        finally:
            os.kill(one.child.pid, signal.SIGCONT)
        assert first_line(stream) == b"" and one.child.wait(SECONDS) == 1
        assert [each["why"] for each in one.events("failed")] == ["another front has taken over"]
    assert other.told(b"LIST\n", "ann") == HELLO + b"OK LIST 1\na 0 2 0\n"


# The front in the first folder does not reach the database while there is a file.
CUT_OFF = """
import os, sys, psycopg2
from ljtools.keeping.postgres import Line
def asked(line, *words, ask=Line._asked):
    if os.path.exists({file!r}) and any("/0/log" in word for word in sys.argv):
        raise psycopg2.OperationalError("cut off")
    return ask(line, *words)
Line._asked = asked
"""


def test_one_that_is_cut_off_from_the_database_alone(tmp_path: pathlib.Path, cluster: Any) -> None:
    """It answers others, and lets nobody in."""
    cut = tmp_path / "cut"
    with fronts(tmp_path, cluster, words=CUT_OFF.format(file=str(cut))) as both:
        one, other = both.each
        with one.raw("ann") as stream:
            assert told(stream, LOAD, 2) == [HELLO, LOADED]
            cut.touch()
            until(lambda: not is_well(one))
            stream.sendall(SHOW + b"ADVANCE a 1\n" + SHOW)
            assert one.told(b"", "ann") == b""
            with again(other) as second:
                assert told(second, b"LIST\n", 2) == [b"OK LIST 1\n", b"a 0 2 0\n"]
            cut.unlink()
            assert first_line(stream) == b"" and one.child.wait(SECONDS) == 1


def test_what_needs_no_record_is_told_when_the_database_is_there_again(tmp_path: pathlib.Path, cluster: Any) -> None:
    words = "from ljtools.keeping.postgres import Postgres; Postgres.seconds_of_lease = 1.5"
    with fronts(tmp_path, cluster, words=words, count=1) as both, both.raw("ann") as stream:
        assert told(stream, LOAD + b"ADVANCE a 2\n", 3)[2] == b"OK ADVANCE a 2\n"
        assert told(stream, SHOW, 1) == [SHOWN]
        cluster.end()
        try:
            until(lambda: not is_well(both.each[0]))
            stream.sendall(SHOW)
            stream.settimeout(0.5)
            with pytest.raises(socket.timeout):
                stream.recv(1)
        finally:
            cluster.begin()
        stream.settimeout(SECONDS)
        assert told(stream, b"", 1) == [SHOWN]
        until(lambda: is_well(both.each[0]))


def is_well(front: Any) -> Any:
    """Whether a check succeeds."""
    with socket.create_connection(("127.0.0.1", front.port), SECONDS) as stream:
        stream.sendall(b"HELLO - -\n")
        return first_line(stream) == b"ERR 01 DENIED\n"


def test_a_changed_record_is_repaired_while_fronts_run(both: Any, cluster: Any) -> None:
    one, other = both.each
    one.told(LOAD + b"ADVANCE a 2\n", "ann")
    other.told(LOAD, "ben")
    until(lambda: cluster.ask(both.store, "select * from record") == [])
    one.kill()
    cluster.ask(both.store, "update snapshot set seq = 9 where name = 'ann'")
    assert other.told(LOAD, "ann") == b"ERR 01 DENIED\n"
    assert until(lambda: other.known()["users"].get("ann")) == {
        "state": "stopped",
        "why": "what is kept is damaged: its snapshot was changed",
    }
    keep = [sys.executable, str(TOP / "tools" / "keep"), both.store]
    done = subprocess.run([*keep, "--repair", "ann"], capture_output=True, text=True, timeout=SECONDS)
    assert (done.returncode, done.stdout.splitlines()[0]) == (
        0,
        "ann: 1 sessions and branches stay, and 0 are removed: those of records []",
    )
    done = subprocess.run([*keep, "--repair", "ben"], capture_output=True, text=True, timeout=SECONDS)
    assert (done.returncode, done.stderr) == (
        1,
        f"keep: cannot change ben: the front at 127.0.0.1:{other.port} has this user; end it first\n",
    )
    other.child.send_signal(signal.SIGHUP)
    with again(other) as stream:
        assert told(stream, SHOW, 1) == [SHOWN]


def test_a_user_comes_from_a_folder_and_goes_to_another_one(tmp_path: pathlib.Path, cluster: Any) -> None:
    file, asked = tmp_path / "ann.json", b"LIST\nLIST a\nDUMP a\nSHOW a 0\nRESTORE a k\nSHOW a 0\n"
    tops = [tmp_path / name for name in ("one", "other")]
    for top in tops:
        top.mkdir()
    with Keeper(tops[0]) as keeper:
        keeper.told(LOAD + b"ADVANCE a 1\nBRANCH a k\nREVERSE a\nTUG a 0 1 0 0\nADVANCE a 3\n", "ann")
        file.write_text(said(keeper.store, "--export", "ann"))
        expected = keeper.told(asked, "ann")
    with fronts(tmp_path, cluster) as both:
        assert said(both.store, "--import-user", file) == f"{shown_place(both.store)} has ann now\n"
        file.write_text(said(both.store, "--export", "ann"))
        assert both.each[0].told(asked, "ann") == expected
    with Keeper(tops[1], users=("ben",)) as keeper:
        assert keeper.end() == 0
        assert said(keeper.store, "--import-user", file) == f"{keeper.store} has ann now\n"
        keeper.put_users({"ann": USUAL})
        keeper.begin()
        assert keeper.told(asked, "ann") == expected


def said(*words: Any) -> Any:
    """The output for an operator."""
    return subprocess.check_output([sys.executable, str(TOP / "tools" / "keep"), *words], text=True, timeout=SECONDS)


def test_who_is_kicked_at_the_front_that_has_it(both: Any) -> None:
    keep = [*patched("from ljtools.keeping import kick; kick.SECONDS_TO_WAIT = 2"), both.store, "--kick"]
    one, other = both.each
    with one.raw("ann") as stream, other.raw("ben") as ben:
        assert told(stream, LOAD, 2) == [HELLO, LOADED] and told(ben, b"", 1) == [b"OK HELLO ben\n"]
        with other.raw("ann") as passed:
            assert said(both.store, "--kick", "ann") == "ann: all connections are ended\n"
            assert first_line(stream) == first_line(passed) == b""
        assert [each["user"] for each in one.events("kicked")] == ["ann"] and other.events("kicked") == []
        assert other.told(b"LIST\n", "ann") == HELLO + b"OK LIST 1\na 0 2 0\n"
        assert told(ben, b"LIST\n", 1) == [b"OK LIST 0\n"]
    one.kill()
    for name, why in (("ann", "the front of this user does not answer"), ("cleo", f"no front of {shown_place(both.store)} has this user")):
        done = subprocess.run([*keep, name], capture_output=True, text=True, timeout=SECONDS)
        assert (done.returncode, done.stderr) == (1, f"keep: cannot end the connections of {name}: {why}\n")
    assert other.told(b"LIST\n", "ann") == HELLO + b"OK LIST 1\na 0 2 0\n" and other.events("kicked") == []


def test_steps_of_a_day_outlast_fronts(tmp_path: pathlib.Path, cluster: Any) -> None:
    with fronts(tmp_path, cluster, "--steps-a-day", "10") as both:
        one, other = both.each
        with one.raw("ann") as stream:
            assert told(stream, LOAD + b"ADVANCE a 6\n", 3)[2] == b"OK ADVANCE a 6\n"
            assert one.end() == 0
        with again(other) as stream:
            assert told(stream, b"ADVANCE a 3\nADVANCE a 2\n", 2) == [b"OK ADVANCE a 9\n", b""]
        until(lambda: other.known()["users"].get("ann", {}).get("today", {}).get("is_used_up"))
        one.begin()
        other.kill()
        with again(one) as stream:
            assert told(stream, b"ADVANCE a 1\nADVANCE a 1\n", 2) == [b"OK ADVANCE a 10\n", b""]
        assert other.events("no steps left today") and one.events("no steps left today") == []


def test_a_front_has_the_program_of_the_others(tmp_path: pathlib.Path, both: Any, cluster: Any) -> None:
    cluster.ask(both.store, "update note set text = 'other' where name = 'trial'")
    one = both.each[0]
    one.kill()
    one.begin()
    assert (
        until(lambda: one.known().get("last_end"))
        == f"cannot go on by {PROGRAM}: it computes differently from the last program; use the last one, or another folder"
    )


def test_where_other_fronts_reach_it(tmp_path: pathlib.Path, cluster: Any) -> None:
    def ended(*words: Any) -> Any:
        keep = [sys.executable, str(TOP / "tools" / "keep"), *words, "--", PROGRAM, "serve", "--users", "none"]
        done = subprocess.run(keep, cwd=tmp_path, capture_output=True, text=True, timeout=SECONDS)
        return done.returncode, done.stderr

    store = cluster.new()
    assert ended("0.0.0.0:0", store) == (
        2,
        "keep: --advertise must be given if LISTEN is all addresses; use --advertise HOST:PORT, at which other fronts reach this one\n",
    )
    assert ended("0.0.0.0:0", store, "--advertise", "here") == (2, "keep: an address must be HOST:PORT, got here\n")
    assert ended("127.0.0.1:0", "mysql://x") == (
        2,
        "keep: LISTEN and STORE must be given; use HOST:PORT, and a folder or postgresql://HOST/NAME\n",
    )


HAPROXY = shutil.which("haproxy", path=f"{os.environ['PATH']}:/usr/sbin")
BALANCED = pytest.mark.skipif(HAPROXY is None or shutil.which("openssl") is None, reason="haproxy or openssl is not installed")


@contextlib.contextmanager
def balanced(folder: Any, both: Any) -> Iterator[Any]:
    """The port of HAProxy in front of two fronts, with the config of packaging/haproxy."""
    shards = [sys.executable, str(TOP / "tools" / "shards"), "--certificate", "localhost"]
    subprocess.run(shards, cwd=folder, check=True, stdout=subprocess.DEVNULL)
    text = (TOP / "packaging" / "haproxy" / "fronts.cfg").read_text()
    (folder / "fronts.cfg").write_text(re.sub(r"\n    (user|group) haproxy", "", text) if os.geteuid() else text)
    port = free_port()
    words = {"LJSERVE_FOLDER": str(folder / "shards"), "LJSERVE_PLAIN": f"127.0.0.1:{port}"}
    words |= {f"LJSERVE_{name}": f"127.0.0.1:{free_port()}" for name in ("TLS", "METRICS")}
    words |= {f"LJSERVE_FRONT_{number}": f"127.0.0.1:{front.port}" for number, front in enumerate(both.each, 1)}
    with open(folder / "haproxy.log", "wb") as log:
        child = subprocess.Popen([str(HAPROXY), "-f", str(folder / "fronts.cfg")], env={**os.environ, **words}, stdout=log, stderr=log)
    try:
        yield port
    finally:
        child.kill()
        child.wait(SECONDS)


@BALANCED
def test_a_balancer_needs_no_map_of_users(tmp_path: pathlib.Path, both: Any) -> None:
    with balanced(tmp_path, both) as port:
        users = [again(Balancer(port), name) for name in ("ann", "ben")]
        for stream in users:
            assert told(stream, LOAD + b"ADVANCE a 1\n", 2) == [LOADED, b"OK ADVANCE a 1\n"]
        owners = {name: each for each in both.each for name in until(lambda: each.known()["users"])}
        assert len(owners) == 2
        owners["ann"].kill()
        users[0].close()
        users[0] = again(Balancer(port), "ann")
        for stream in users:
            assert told(stream, b"ADVANCE a 1\n" + SHOW, 2) == [b"OK ADVANCE a 2\n", SHOWN]
            stream.close()
        with socket.create_connection(("127.0.0.1", port), SECONDS) as stream:
            assert told(stream, f"HELLO cleo {TOKEN}\n".encode(), 2) == [b"ERR 01 DENIED\n", b""]
        # Its checks are in no log.
        assert len(until(lambda: owners["ben"].events("denied"))) == 1 and owners["ben"].events("not in") == []


@BALANCED
def test_who_guesses_is_shut_out_by_name(tmp_path: pathlib.Path, both: Any) -> None:
    """A name at an address is shut out after 31 denials in a minute. Other names at that address are not."""

    def guess(name: Any, source: Any) -> Any:
        with Balancer(port, source).raw(name, "w" * 32) as stream:
            return first_line(stream)

    with balanced(tmp_path, both) as port:
        again(Balancer(port, "127.0.30.1"), "ann").close()
        assert [guess("ann", "127.0.30.2") for _ in range(34)] == [b"ERR 01 DENIED\n"] * 31 + [b""] * 3
        assert guess("cleo", "127.0.30.2") == b"ERR 01 DENIED\n"
        for name, source in (("ben", "127.0.30.2"), ("ann", "127.0.30.3")):
            again(Balancer(port, source), name).close()


class Balancer:
    """HAProxy, as users connect to it from an address of this machine."""

    def __init__(self, port: Any, source: Any = "127.0.0.1") -> None:
        self.port, self.source = port, source

    def raw(self, name: Any, token: Any = TOKEN) -> Any:
        stream = socket.create_connection(("127.0.0.1", self.port), SECONDS, (self.source, 0))
        stream.sendall(f"HELLO {name} {token}\n".encode())
        return stream
