"""How many connections `tools/watch` lets in: of a user, of an address, and before their first line. The next one is closed."""
import contextlib
import io
import json
import pathlib
import re
import select
import socket
import subprocess
import sys
import threading
import types
from typing import Any, Iterator, List, Tuple

import pytest

from ljclient import ConnectionLost, connect
from support import SECONDS, TOKEN, TOP, Server, dimer, peer, present, read_line, wait_until
from terminals import Terminal
from test_watch import WATCH, Watcher, many_peers, read_all, reset
from test_watch_metrics import Seen

sys.path.append(str(TOP / "tools"))
from ljtools import admission, event_log, watching  # noqa: E402

WRONG = "b" * 32
USERS = f"ann {TOKEN} 8 16384 16\nben {TOKEN} 8 16384 16\n"
ANN = (b"ann", TOKEN.encode())


def hello(name: str = "ann", token: str = TOKEN) -> bytes:
    return f"HELLO {name} {token}\n".encode()


class Crowd(contextlib.ExitStack):
    """Connections to a port, which are open until the end of the block."""

    def __init__(self, port: Any) -> None:
        super().__init__()
        self.port = port

    def says(self, first: bytes = b"", source: str = "127.0.0.1") -> Any:
        """A connection from an address of this machine, which has sent `first`."""
        stream = self.enter_context(socket.create_connection(("127.0.0.1", self.port), SECONDS, (source, 0)))
        stream.sendall(first)
        return stream


def is_closed(stream: Any) -> bool:
    """Whether a connection has ended without a byte. The end may be a reset, if it was closed before its bytes came."""
    with contextlib.suppress(ConnectionResetError):
        return bool(stream.recv(1) == b"")
    return True


@contextlib.contextmanager
def silent_server() -> Iterator[Tuple[Any, List[Any]]]:
    """The port of a server that answers nothing, and the first bytes of each of its connections."""
    heard: List[Any] = []

    def talk(connection: Any) -> None:
        heard.append(connection.recv(1 << 16))
        read_all(connection)

    with many_peers(talk) as port:
        yield port, heard


@pytest.fixture
def server() -> Iterator[Any]:
    with Server(users=("ann", "ben")) as begun:
        yield begun


def test_eight_connections_of_a_user_wait_and_others_come_in(server: Any) -> None:
    """The server never sees the next ones, which would count in its --connections."""
    seen = Seen(server.port)
    with seen.watcher, seen.join() as ann, Crowd(seen.port) as crowd:
        assert dimer(ann).advance(1) == 1
        waiting = [crowd.says(hello()) for _ in range(8)]
        seen.until('ljserve_open_connections{state="waits"}', 8)
        for _ in range(60):
            assert is_closed(crowd.says(hello()))
        with pytest.raises(ConnectionLost, match="do many connections of ann wait"):
            seen.join()
        with seen.join("ben") as ben:
            assert dimer(ben).advance(2) == 2
            values = seen.until("ljserve_closed_total", 61)
            assert (values["ljserve_connections_total"], values["ljserve_places_taken"]) == (10, 10)
        ann.close()
        (first, *_), _, _ = select.select(waiting, [], [], SECONDS)
        assert first.recv(100) == b"OK HELLO ann\n"
        seen.until('ljserve_open_connections{state="waits"}', 7)
        crowd.says(hello())
        seen.until('ljserve_open_connections{state="waits"}', 8)
        assert is_closed(crowd.says(hello()))


def test_who_waited_and_is_gone_counts_until_the_server_lets_go(server: Any) -> None:
    """It sent more than HELLO and was reset, so the server has it until its turn. Otherwise one user could have all places."""
    seen = Seen(server.port)
    with seen.watcher, Crowd(seen.port) as crowd:
        with seen.join() as ann:
            for _ in range(8):
                reset(crowd.says(hello() + b"LIST\n"))
            seen.until("ljserve_gone_connections", 8)
            assert seen.until('ljserve_open_connections{state="waits"}', 0)["ljserve_places_taken"] == 9
            assert is_closed(crowd.says(hello()))
            assert dimer(ann).advance(1) == 1
        seen.until("ljserve_places_taken", 0)
        assert crowd.says(hello()).recv(100) == b"OK HELLO ann\n"


def test_what_the_server_has_ended_keeps_no_place(pair: Any, monkeypatch: pytest.MonkeyPatch) -> None:
    """Even if its client stays. The server would read for another second."""
    monkeypatch.setattr(watching, "SECONDS_AFTER_END", 3600)
    over = threading.Event()

    def talk(connection: Any, stop: Any) -> None:
        assert [read_line(connection) for _ in range(2)] == [hello(), b"BYE\n"]
        connection.sendall(b"OK HELLO ann\nOK BYE\n")
        connection.shutdown(socket.SHUT_WR)
        assert connection.recv(1) == b""
        over.set()

    board, connection = watching.Board(None), watching.Connection("192.0.2.7:4242")
    assert board.admits(connection)
    pair[0].sendall(hello() + b"BYE\n")
    with peer(talk) as port:
        thread = threading.Thread(target=watching.serve, args=(pair[1], connection, ("127.0.0.1", port), board))
        thread.start()
        assert over.wait(SECONDS)
        assert read_all(pair[0]) == b"OK HELLO ann\nOK BYE\n"
        pair[0].close()
        thread.join(SECONDS)
    assert not thread.is_alive()


@pytest.mark.parametrize("are_known", [False, True])
def test_who_knows_a_name_alone_takes_no_place_of_the_user(tmp_path: pathlib.Path, are_known: bool) -> None:
    """The tokens are others. If the users are known, such connections are counted by their address alone."""
    (tmp_path / "users").write_text(USERS)
    options = ["--users", tmp_path / "users"] if are_known else []
    with silent_server() as (port, heard), Watcher(port, *options) as watcher, Crowd(watcher.port) as crowd:
        for _ in range(8 if not are_known else 11):
            crowd.says(hello("ann", WRONG))
        for _ in range(8):
            crowd.says(hello())
        wait_until(lambda: heard.count(hello()) == 8)
        assert is_closed(crowd.says(hello()))
        crowd.says(hello("ben"))
        wait_until(lambda: hello("ben") in heard)
    assert len(heard) == (17 if not are_known else 20)


def test_twenty_of_an_address_that_are_not_in(server: Any) -> None:
    """Connections that are in are not counted, and neither are those of another address."""
    with Watcher(server.port) as watcher, Crowd(watcher.port) as crowd:
        with connect("127.0.0.1", watcher.port, "ann", TOKEN, timeout=SECONDS) as ann:
            first = [crowd.says() for _ in range(20)]
            for _ in range(100):
                assert is_closed(crowd.says())
            assert is_closed(crowd.says(hello("ben")))
            assert crowd.says(hello("ben"), "127.0.0.2").recv(100) == b"OK HELLO ben\n"
            first[0].close()
            assert re.match("TIME in ann .*", watcher.lines(3)[0])
            assert len([crowd.says()]) == 1 and is_closed(crowd.says())
            assert dimer(ann).advance(2) == 2


def test_as_many_of_an_address_as_are_said() -> None:
    with silent_server() as (port, heard), Watcher(port, "--of-an-address", 2) as watcher, Crowd(watcher.port) as crowd:
        for name in ("ann", "ben"):
            crowd.says(hello(name))
        assert is_closed(crowd.says(hello("cleo")))
        wait_until(lambda: len(heard) == 2)
    assert sorted(heard) == [hello("ann"), hello("ben")]


def test_of_an_address_in_a_header_of_proxy() -> None:
    """It is the client's address, not the balancer's."""
    options = ["--proxy", "--of-an-address", 1]
    headers = [f"PROXY TCP4 192.0.2.{number} 192.0.2.1 5000 4000\r\n".encode() for number in (7, 7, 8)]
    with silent_server() as (port, heard), Watcher(port, *options) as watcher, Crowd(watcher.port) as crowd:
        crowd.says(headers[0] + hello())
        wait_until(lambda: heard == [hello()])
        assert is_closed(crowd.says(headers[1] + hello("ben")))
        crowd.says(headers[2] + hello("cleo"))
        wait_until(lambda: heard == [hello(), hello("cleo")])


def test_a_server_sees_nothing_of_who_says_nothing() -> None:
    with silent_server() as (port, heard), Watcher(port) as watcher, Crowd(watcher.port) as crowd:
        for first in (b"", b"HELLO ann ", hello("ann")[:-1]):
            crowd.says(first)
        crowd.says(hello("ben"))
        wait_until(lambda: heard)
        assert heard == [hello("ben")]


@pytest.fixture
def pair() -> Iterator[Any]:
    one, other = socket.socketpair()
    with one, other:
        one.settimeout(SECONDS)
        yield one, other


@pytest.mark.parametrize("first", [b"", b"HELLO ann " + TOKEN.encode(), b" " * 5000])
def test_a_first_line_that_does_not_come(pair: Any, monkeypatch: pytest.MonkeyPatch, first: bytes) -> None:
    """The wait for it is at most ten seconds, however slowly it comes."""
    monkeypatch.setattr(admission, "SECONDS_FOR_FIRST_LINE", 0.05)
    shown = io.StringIO()
    board, connection = watching.Board(shown), watching.Connection("192.0.2.7:4242")
    assert board.admits(connection)
    pair[0].sendall(first)
    watching.serve(pair[1], connection, ("192.0.2.1", 4000), board)
    assert read_all(pair[0]) == b""
    assert re.search(r"  not in - +192\.0\.2\.7:4242 +since [0-9:]+ +0 commands  no first line within 10 seconds\n$", shown.getvalue())


def test_a_first_line_has_ten_seconds_in_all(pair: Any, monkeypatch: pytest.MonkeyPatch) -> None:
    """Bytes that come in the meantime do not extend them."""
    waits: List[float] = []
    now = iter(range(100))
    monkeypatch.setattr(admission, "time", types.SimpleNamespace(monotonic=lambda: float(next(now))))

    class Slow:
        def settimeout(self, seconds: Any) -> None:
            waits.append(seconds)

        def recv(self, _: int) -> bytes:
            if waits[-1] < 0.01:
                raise socket.timeout()
            return b"H"

    slow: Any = Slow()
    with pytest.raises(OSError):
        admission.first_bytes(slow)
    assert waits == [9, 8, 7, 6, 5, 4, 3, 2, 1, 0.001]


@pytest.mark.parametrize("sent", [b"LIST\n", b"HELLO ann t\r\nLIST\n", b"x" * (1 << 16)])
def test_a_first_line_or_what_is_too_long_for_one(pair: Any, sent: bytes) -> None:
    pair[0].sendall(sent)
    assert admission.first_bytes(pair[1]) == sent and pair[1].gettimeout() is None


@pytest.mark.parametrize("end", ["", "HELLO ann"])
def test_a_client_that_sends_no_line_and_ends(pair: Any, end: str) -> None:
    pair[0].sendall(end.encode())
    pair[0].shutdown(socket.SHUT_WR)
    assert admission.first_bytes(pair[1]) == end.encode()


@pytest.mark.parametrize(
    "first, account",
    [
        (hello(), ANN),
        (f"\tHELLO  ann\t{TOKEN} \r\nLIST\n".encode(), ANN),
        (f"HELLO ann {TOKEN}".encode(), None),
        (f"HELLO ann {TOKEN} ann\n".encode(), None),
        (f"HELLO ann\n{TOKEN}\n".encode(), None),
        (f"HELLO ann {TOKEN}a\n".encode(), None),
        (f"hello ann {TOKEN}\n".encode(), None),
        (b"LIST\n", None),
    ],
)
def test_whose_a_first_line_is(first: bytes, account: Any) -> None:
    assert admission.Limits().account_of(first) == account
    assert admission.Limits(accounts=frozenset([ANN])).account_of(first) == account
    assert admission.Limits(accounts=frozenset([(b"ben", ANN[1])])).account_of(first) is None


def test_a_flood_is_one_line_for_ten_seconds(tmp_path: pathlib.Path, monkeypatch: pytest.MonkeyPatch) -> None:
    """It has the name of a user, or the address of others, on the board and in the log. Then a new count begins."""
    now = [100.0]
    monkeypatch.setattr(admission, "time", types.SimpleNamespace(monotonic=lambda: now[0]))
    shown, path = io.StringIO(), tmp_path / "log"
    limits = admission.Limits(of_an_address=9, accounts=frozenset([(b"student04", TOKEN.encode())]))
    board = watching.Board(shown, event_log.EventLog(str(path)), "192.0.2.10:4000", limits)

    def come(count: int, first: bytes = b"", host: str = "192.0.2.31") -> List[bool]:
        """Which of `count` connections are let in."""
        coming = [watching.Connection(f"{host}:{number}") for number in range(count)]
        return [board.admits(each) and board.lets_wait(each, first) for each in coming]

    assert come(248, hello("student04")) == [True] * 8 + [False] * 240
    assert come(3, hello("student04", WRONG), "192.0.2.32") == [True] * 3
    assert come(9, hello("student05"), "192.0.2.32") == [True] * 6 + [False] * 3
    now[0] += 9.5
    board.tell_closed()
    assert shown.getvalue() == ""
    now[0] += 0.5
    board.tell_closed()
    board.tell_closed()
    lines = [line.split("  ", 1)[1] for line in shown.getvalue().splitlines()]
    assert lines == ["student04: 240 closed in 10 s", "192.0.2.32: 3 closed in 10 s"]
    told = [json.loads(line) for line in path.read_text().splitlines()]
    assert [{name: value for name, value in each.items() if name != "time"} for each in told] == [
        {"event": "closed", "user": "student04", "count": 240, "seconds": 10},
        {"event": "closed", "from": "192.0.2.32", "count": 3, "seconds": 10},
    ]
    assert come(1, hello("student04")) == [False]
    board.close("the end")
    assert [line.split("  ", 1)[1] for line in shown.getvalue().splitlines()][2] == "student04: 1 closed in 1 s"
    assert TOKEN not in shown.getvalue() + path.read_text()


def test_a_screen_has_the_address_first_and_the_flood_below_it(server: Any) -> None:
    terminal = Terminal([*WATCH, "127.0.0.1:0", f"127.0.0.1:{server.port}"])
    try:
        port = int(present(re.search(r":(\d+), for", terminal.until(r"listens on 127\.0\.0\.1:\d+, for")))[1])
        terminal.until(rf"\n127\.0\.0\.1:{port}  0 open\n")
        with connect("127.0.0.1", port, "ann", TOKEN), Crowd(port) as crowd:
            for _ in range(8):
                crowd.says(hello())
            terminal.until(rf"\n127\.0\.0\.1:{port}  9 open\nin +ann [^\n]*\n(waits +ann [^\n]*\n){{8}}")
            for _ in range(3):
                assert is_closed(crowd.says(hello()))
            terminal.until(rf"\n127\.0\.0\.1:{port}  9 open\nann: 3 closed in \d+ s\nin +ann ")
            terminal.until(r"  ann: 3 closed in 10 s\n")
            terminal.until(rf"\n127\.0\.0\.1:{port}  9 open\nin +ann ")
    finally:
        terminal.close()


@pytest.mark.parametrize("word", ["0", "-1", "many", "1e3", ""])
def test_words_that_are_no_number(word: str) -> None:
    words = [*WATCH, f"--of-an-address={word}", "127.0.0.1:0", "127.0.0.1:4000"]
    done = subprocess.run(words, capture_output=True, text=True, timeout=SECONDS)
    wanted = f"watch: --of-an-address must be a whole number from 1 on, got {word}\n"
    assert (done.returncode, done.stdout, done.stderr) == (2, "", wanted)


@pytest.mark.parametrize(
    "text, why",
    [
        (None, "cannot read {}: No such file or directory"),
        ("ann\n", "{}: line 1: a line must have 5 words (name, token, sessions, atoms, branches), got 1"),
    ],
)
def test_users_that_cannot_be_had(tmp_path: pathlib.Path, text: Any, why: str) -> None:
    path = tmp_path / "users"
    if text is not None:
        path.write_text(text)
    words = [*WATCH, "--users", str(path), "127.0.0.1:0", "127.0.0.1:4000"]
    done = subprocess.run(words, capture_output=True, text=True, timeout=SECONDS)
    assert (done.returncode, done.stdout) == (1, "") and done.stderr.startswith(f"watch: {why.format(path)}")
