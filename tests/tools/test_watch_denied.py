"""`tools/watch` shows who is denied as `denied`, while the connection is open and after it."""
import contextlib
import re
import socket
import sys
from typing import Any, Iterator

import pytest

from support import SECONDS, TOKEN, TOP, Server, peer, present, read_line
from terminals import Terminal

sys.path.append(str(TOP / "tools"))
from ljtools import watching  # noqa: E402

WATCH = str(TOP / "tools" / "watch")


@contextlib.contextmanager
def screen(port: Any) -> Iterator[Any]:
    """A terminal with `watch` in front of a server at this port, and a connection to `watch`."""
    terminal = Terminal([WATCH, "127.0.0.1:0", f"127.0.0.1:{port}"])
    try:
        front = int(present(re.search(r":(\d+), for", terminal.until(r"listens on 127\.0\.0\.1:\d+, for")))[1])
        with socket.create_connection(("127.0.0.1", front), SECONDS) as stream:
            yield terminal, stream
    finally:
        terminal.close()


def answers(reply: Any) -> Any:
    """A peer that answers the first line by `reply`, and ends when the client does."""

    def talk(connection: Any, stop: Any) -> None:
        first = read_line(connection)
        connection.sendall(reply)
        assert not connection.recv(1 << 16), first

    return talk


@pytest.mark.parametrize("line, name", [(f"HELLO ann {'b' * 32}\n", "ann"), (f"{TOKEN}\n", "-")], ids=["hello", "no hello"])
def test_denied_while_and_after(line: Any, name: Any) -> None:
    with peer(answers(b"ERR 01 DENIED\n")) as port, screen(port) as (terminal, stream):
        stream.sendall(line.encode())
        terminal.until(rf"1 open\ndenied {name} +127\.0\.0\.1:\d+ [^\n]*  ERR 01 DENIED\n")
        stream.close()
        terminal.until(rf"denied {name} [^\n]*  ERR 01 DENIED\n127\.0\.0\.1:\d+  0 open\n")


def test_denied_before_its_first_line_is_whole() -> None:
    """Bytes that a client sends after this are no second HELLO."""
    connection = watching.Connection("192.0.2.7:4242")
    connection.hear_client(b"HEL")
    connection.hear_server(b"ERR 01 DENIED\n")
    connection.hear_client(f"HELLO ann {TOKEN}".encode())
    assert (connection.state, connection.user) == ("denied", "")


def test_who_is_let_in_or_waits_is_not_denied() -> None:
    with Server() as server, screen(server.port) as (terminal, stream):
        stream.sendall(f"HELLO ann {TOKEN}\n".encode())
        terminal.until(r"1 open\nin +ann ")
        stream.sendall(f"HELLO ann {TOKEN}\nSHOW a 0\n".encode())
        terminal.until(r"1 open\nin +ann [^\n]*  ERR 10 NO_SESSION\n")
