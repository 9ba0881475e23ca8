"""The header of the PROXY protocol, which `tools/watch --proxy` removes, in the forms of the protocol's document."""
import contextlib
import os
import pathlib
import shutil
import socket
import struct
import subprocess
import sys
import threading
import time
from typing import Any, Iterator

import pytest

from ljclient import ConnectionLost, connect
from support import SECONDS, TOKEN, TOP, Server, dimer, free_port, peer, read_line
from test_watch import Watcher, read_all

sys.path.append(str(TOP / "tools"))
from ljtools import proxy_header  # noqa: E402

HAPROXY = shutil.which("haproxy", path=f"{os.environ['PATH']}:/usr/sbin")
SIGNATURE = bytes.fromhex("0D0A0D0A000D0A515549540A")
FOUR = socket.inet_aton("192.0.2.7") + socket.inet_aton("127.0.0.1") + struct.pack("!HH", 4242, 4000)
SIX = socket.inet_pton(socket.AF_INET6, "2001:db8::7") + bytes(16) + struct.pack("!HH", 4242, 4000)
LONGEST = "PROXY UNKNOWN {0} {0} 65535 65535\r\n".format(":".join(["ffff"] * 8))
FIELD = struct.pack("!BH", 0x04, 5) + bytes(5)


def version_2(command: Any, family: Any, body: Any) -> Any:
    return SIGNATURE + struct.pack("!BBH", command, family, len(body)) + body


SOURCES = {
    "TCP4": (b"PROXY TCP4 192.0.2.7 127.0.0.1 4242 4000\r\n", "192.0.2.7:4242"),
    "TCP6": (b"PROXY TCP6 2001:db8::7 ::1 4242 4000\r\n", "[2001:db8::7]:4242"),
    "unknown": (b"PROXY UNKNOWN\r\n", None),
    "unknown with words": (LONGEST.encode(), None),
    "2 over IPv4": (version_2(0x21, 0x11, FOUR), "192.0.2.7:4242"),
    "2 over IPv6": (version_2(0x21, 0x21, SIX), "[2001:db8::7]:4242"),
    "2 with a field": (version_2(0x21, 0x11, FOUR + FIELD), "192.0.2.7:4242"),
    "2 of a check": (version_2(0x20, 0x11, FOUR), None),
    "2 of no family": (version_2(0x21, 0x00, b""), None),
    "2 of a local socket": (version_2(0x21, 0x31, bytes(216)), None),
}
NONE = {
    "HELLO": f"HELLO ann {TOKEN}\n".encode(),
    "a long line": b"PROXY UNKNOWN " + bytes(200),
    "a line feed alone": b"PROXY TCP4 192.0.2.7 127.0.0.1 4242 4000\n" + bytes(100),
    "a bad address": b"PROXY TCP4 192.0.2.777 127.0.0.1 4242 4000\r\n",
    "a bad port": b"PROXY TCP4 192.0.2.7 127.0.0.1 70000 4000\r\n",
    "version 3": version_2(0x31, 0x11, FOUR),
    "another command": version_2(0x2F, 0x11, FOUR),
    "too short": version_2(0x21, 0x11, FOUR[:-1]),
    "the end within it": b"PROXY TCP4 192.0.2.7",
    "the end within 2": version_2(0x21, 0x11, FOUR)[:-1],
    "nothing": b"",
}


@pytest.fixture
def pair() -> Iterator[Any]:
    ends = socket.socketpair()
    yield ends
    for end in ends:
        end.close()


@pytest.mark.parametrize("header, source", SOURCES.values(), ids=SOURCES)
def test_the_source_is_told_and_no_byte_more_is_read(pair: Any, header: Any, source: Any) -> None:
    assert len(LONGEST) == 107
    pair[0].sendall(header + b"HELLO")
    assert proxy_header.source_of(pair[1]) == source
    assert (pair[1].recv(100), pair[1].gettimeout()) == (b"HELLO", None)


@pytest.mark.parametrize("header, source", SOURCES.values(), ids=SOURCES)
def test_bytes_that_have_come(header: Any, source: Any) -> None:
    assert proxy_header.source_of_bytes(header + b"HELLO") == (source, b"HELLO")
    for end in range(len(header)):
        with pytest.raises(proxy_header.NotWhole):
            proxy_header.source_of_bytes(header[:end])


@pytest.mark.parametrize("name", ["HELLO", "a bad address", "a bad port", "version 3", "another command", "too short"])
def test_bytes_that_are_no_header(name: Any) -> None:
    with pytest.raises(ValueError):
        proxy_header.source_of_bytes(NONE[name])


@pytest.mark.parametrize("name", ["TCP6", "2 with a field"])
def test_byte_by_byte(pair: Any, name: Any) -> None:
    header, source = SOURCES[name]
    threading.Thread(target=lambda: [pair[0].sendall(bytes([byte])) for byte in header], daemon=True).start()
    assert proxy_header.source_of(pair[1]) == source


@pytest.mark.parametrize("first", NONE.values(), ids=NONE)
def test_what_is_no_header(pair: Any, first: Any) -> None:
    pair[0].sendall(first)
    pair[0].shutdown(socket.SHUT_WR)
    with pytest.raises(ValueError):
        proxy_header.source_of(pair[1])


def test_a_header_that_does_not_come(pair: Any, monkeypatch: pytest.MonkeyPatch) -> None:
    monkeypatch.setattr(proxy_header, "SECONDS_FOR_HEADER", 0.05)
    pair[0].sendall(b"PROXY TCP4 ")
    with pytest.raises(OSError):
        proxy_header.source_of(pair[1])


@pytest.mark.parametrize("name", ["TCP4", "2 over IPv6"])
def test_watch_shows_the_source_and_the_server_never_sees_the_header(name: Any) -> None:
    header, source = SOURCES[name]
    heard = []

    def talk(connection: Any, stop: Any) -> None:
        heard.append(read_line(connection))
        connection.sendall(b"OK HELLO ann\n" + read_all(connection)[::-1])

    with peer(talk) as port, Watcher(port, "--proxy") as watcher, watcher.connected() as stream:
        stream.sendall(header + b"HELLO ann t\nLIST\n")
        stream.shutdown(socket.SHUT_WR)
        assert read_all(stream) == b"OK HELLO ann\n\nTSIL"
        assert watcher.lines(1)[0].startswith(f"TIME in ann {source} since")
    assert heard == [b"HELLO ann t\n"]


def test_a_connection_without_a_header_is_closed() -> None:
    heard = []
    with peer(lambda connection, stop: heard.append(read_all(connection))) as port, Watcher(port, "--proxy") as watcher:
        with watcher.connected() as stream:
            stream.sendall(f"HELLO ann {TOKEN}\n".encode())
            with contextlib.suppress(ConnectionResetError):
                assert read_all(stream) == b""
        (line,) = watcher.lines(1)
        assert line.startswith("TIME not in - 127.0.0.1:") and line.endswith("0 commands no PROXY header: the first bytes must be a header")
        assert TOKEN not in line
        with watcher.connected() as stream:
            stream.sendall(b"PROXY UNKNOWN\r\nthe first that comes")
            stream.shutdown(socket.SHUT_WR)
            assert read_all(stream) == b""
    assert heard == [b"the first that comes"]


def test_without_the_option_a_header_is_a_first_line_like_any_other() -> None:
    with Server() as server, Watcher(server.port) as watcher, watcher.connected() as stream:
        stream.sendall(SOURCES["TCP4"][0])
        assert read_all(stream) == b"ERR 01 DENIED\n"
        with connect("127.0.0.1", watcher.port, "ann", TOKEN, timeout=SECONDS) as user:
            assert dimer(user).advance(2) == 2


@pytest.mark.skipif(HAPROXY is None, reason="haproxy is not installed")
@pytest.mark.parametrize("word", ["send-proxy", "send-proxy-v2"])
def test_haproxy_names_the_client(tmp_path: pathlib.Path, word: Any) -> None:
    """Its checks too begin with a header, which names no client."""
    with Server(connections=100_000) as server, Watcher(server.port, "--proxy") as watcher:
        port = free_port()
        times = "timeout client 1m\ntimeout server 1m\ntimeout connect 1m\n"
        listen = f"bind 127.0.0.1:{port}\nserver one 127.0.0.1:{watcher.port} {word} check check-send-proxy inter 50ms\n"
        (tmp_path / "config").write_text(f"defaults\nmode tcp\n{times}listen all\n{listen}")
        child = subprocess.Popen([str(HAPROXY), "-f", tmp_path / "config"], stdin=subprocess.DEVNULL, stderr=subprocess.DEVNULL)
        try:
            with await_user(port) as user:
                source = "127.0.0.1:{}".format(user._wire._transport._socket.getsockname()[1])
                assert dimer(user).advance(2) == 2
                lines: Iterator[str] = iter(lambda: str(watcher.lines(1)[0]), "")
                line = next(line for line in lines if line.startswith("TIME in ann "))
                assert line == f"TIME in ann {source} since TIME 0 commands"
        finally:
            child.kill()
            child.wait(SECONDS)


def await_user(port: Any) -> Any:
    """The user ann at a port, when something listens there."""
    end = time.monotonic() + SECONDS
    while True:
        try:
            return connect("127.0.0.1", port, "ann", TOKEN, timeout=SECONDS)
        except ConnectionLost:
            assert time.monotonic() < end
            time.sleep(0.02)
