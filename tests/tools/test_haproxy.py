"""HAProxy with the config of packaging/haproxy in front of three servers, with files by `tools/shards`."""
import contextlib
import json
import os
import re
import select
import shutil
import signal
import socket
import ssl
import subprocess
import sys
import time
import urllib.request
from concurrent.futures import ThreadPoolExecutor

import pytest
from typing import Any, Dict, List, Tuple

from ljclient import connect
from support import DIMER, PROGRAM, SECONDS, TOP, free_port

sys.path.append(str(TOP / "conformance"))
from playing import FOLDED, USUAL, difference, stored  # noqa: E402

CONFIG = TOP / "packaging" / "haproxy"
LOADED = f"LOAD a 256 1 131072 rest 28\n{DIMER}".encode()
HAPROXY = shutil.which("haproxy", path=f"{os.environ['PATH']}:/usr/sbin")
SERVERS = 3
# Ports of HAProxy: for plain text, for TLS and for its metrics.
FRONTS = 3
# Shorter times for the config, so that tests wait for seconds in place of minutes.
SHORTER = {
    "inspect-delay 10s": "inspect-delay 2s",
    "timeout client 15s": "timeout client 3s",
    "client-fin 10s": "client-fin 1s",
    "inter 30s": "inter 1s",
    "downinter 2s": "downinter 200ms",
}

pytestmark = [
    pytest.mark.skipif(HAPROXY is None, reason="haproxy is not installed"),
    pytest.mark.skipif(shutil.which("openssl") is None, reason="openssl is not installed"),
]


def token(name: Any) -> str:
    return f"{name:Z<32}"


def consecutive_ports() -> Any:
    """The first of some consecutive free ports."""
    while True:
        first = free_port()
        with contextlib.suppress(OSError, OverflowError), contextlib.ExitStack() as taken:
            for port in range(first, first + SERVERS + FRONTS):
                taken.enter_context(socket.create_server(("127.0.0.1", port)))
            return first


class Farm:
    """Three servers with users of some quotas spread over them, and HAProxy in front with times that may be shorter."""

    def __init__(self, folder: Any, quotas: Any, shorter: Any) -> None:
        self.folder = folder / "shards"
        self.first = consecutive_ports()
        self.plain, self.tls, self.metrics = range(self.first + SERVERS, self.first + SERVERS + FRONTS)
        lines = ["{} {} {} {} {}\n".format(name, token(name), *quota) for name, quota in quotas.items()]
        (folder / "users").write_text("".join(lines))
        tool = [sys.executable, str(TOP / "tools" / "shards")]
        subprocess.run([*tool, "users", str(SERVERS), "--port", str(self.first)], cwd=folder, check=True, stdout=subprocess.DEVNULL)
        subprocess.run([*tool, "--certificate", "localhost"], cwd=folder, check=True, stdout=subprocess.DEVNULL)
        self.at = {number: self.users_of(number) for number in range(1, SERVERS + 1)}
        self.children: Dict[Any, Any] = {}
        for number in self.at:
            self.begin(number)
        self.log = folder / "log"
        self.front = self.balancer(folder, shorter)

    def users_of(self, number: Any) -> List[Any]:
        return [line.split()[0] for line in (self.folder / f"users{number}").read_text().splitlines()]

    def port(self, number: Any) -> Any:
        return self.first + number - 1

    def words(self, number: Any) -> Any:
        """The variables with which a unit starts a server."""
        return dict(line.split("=") for line in (self.folder / f"server{number}.env").read_text().splitlines())

    def begin(self, number: Any) -> None:
        """Starts a server by its variables, as the unit does."""
        options = [word for name, value in self.words(number).items() for word in (f"--{name.lower()}", value)]
        self.begin_by(number, [PROGRAM, "serve", *options])

    def begin_by(self, number: Any, command: Any) -> Any:
        self.children[number] = subprocess.Popen(command, stdin=subprocess.DEVNULL, stdout=subprocess.DEVNULL)
        until(lambda: is_there(self.port(number)))

    @contextlib.contextmanager
    def kept(self, number: Any, folder: Any) -> Any:
        """Replaces a server by one of tools/keep, as the unit of a kept server does. The value is the folder of its store."""
        (command,) = re.findall("^ExecStart=(.*)$", (CONFIG / "ljserve-keep@.service").read_text(), re.M)
        words = {**self.words(number), "STATE_DIRECTORY": folder / "kept", "RUNTIME_DIRECTORY": folder, "METRICS": "127.0.0.1:0"}
        shutil.copy(words["USERS"], folder / "users")
        command = command.replace("/opt/ljserve/bin/ljserve", PROGRAM).replace("/opt/ljserve", str(TOP))
        self.end_child(number)
        self.begin_by(number, re.sub(r"\$\{(\w+)\}", lambda name: str(words[name[1]]), command).split())
        try:
            yield folder / "kept"
        finally:
            self.end_child(number)
            self.begin(number)

    def end_child(self, number: Any) -> Any:
        self.children[number].kill()
        self.children[number].wait(SECONDS)

    def balancer(self, folder: Any, shorter: Any) -> Any:
        text = (CONFIG / "haproxy.cfg").read_text()
        for usual, time_in_place in shorter.items():
            assert usual in text
            text = text.replace(usual, time_in_place)
        if os.geteuid() != 0:
            text = re.sub(r"\n    (user|group) haproxy", "", text)
        (folder / "haproxy.cfg").write_text(text)
        told: Dict[str, Any] = {
            "FOLDER": self.folder,
            "HAPROXY": CONFIG,
            "PLAIN": f"127.0.0.1:{self.plain}",
            "TLS": f"127.0.0.1:{self.tls}",
        }
        told["METRICS"] = f"127.0.0.1:{self.metrics}"
        environment: Dict[str, Any] = {**os.environ, **{f"LJSERVE_{name}": str(value) for name, value in told.items()}}
        words = [HAPROXY, "-f", folder / "haproxy.cfg", "-f", self.folder / "servers.cfg"]
        with open(self.log, "w") as log:
            child = subprocess.Popen(words, env=environment, stdin=subprocess.DEVNULL, stdout=log, stderr=log)
        until(lambda: is_there(self.tls) or child.poll() is not None)
        assert child.poll() is None, self.log.read_text()
        return child

    def context(self) -> Any:
        return ssl.create_default_context(cafile=self.folder / "class.crt")

    def connected(self, source: str = "127.0.0.1", tls: bool = False) -> Any:
        """A connection through HAProxy, from an address of this machine."""
        stream = socket.create_connection(("127.0.0.1", self.tls if tls else self.plain), SECONDS, (source, 0))
        return self.context().wrap_socket(stream, server_hostname="localhost") if tls else stream

    def joined(self, name: Any, **words: Any) -> Tuple[Any, Any]:
        """A connection of a user who was let in, and a reader of its replies. It is made again if its line came too late."""
        end = time.monotonic() + SECONDS
        while True:
            stream = self.connected(**words)
            stream.sendall(hello(name))
            replies = stream.makefile("rb")
            told = replies.readline()
            if told or time.monotonic() > end:
                break
            stream.close()
        assert told == f"OK HELLO {name}\n".encode()
        return stream, replies

    def values(self, metric: str = "sessions_total") -> Dict[Any, Any]:
        """A metric of HAProxy for each of its servers: the connections that it has had, or another one."""
        with urllib.request.urlopen(f"http://127.0.0.1:{self.metrics}/metrics", timeout=SECONDS) as answer:
            text = answer.read().decode()
        rows = re.findall(rf'^haproxy_server_{metric}{{proxy="server(\d)",server="server\d"}} (\d+)', text, re.M)
        return {int(number): int(count) for number, count in rows}

    def is_let_in(self, name: Any, source: Any) -> Any:
        with self.connected(source=source) as stream:
            stream.sendall(hello(name) + b"BYE\n")
            return read_all(stream) == f"OK HELLO {name}\nOK BYE\n".encode()

    def end(self) -> Any:
        for number in self.children:
            self.end_child(number)
        self.front.kill()
        self.front.wait(SECONDS)


def until(holds: Any) -> None:
    end = time.monotonic() + SECONDS
    while not holds():
        assert time.monotonic() < end
        time.sleep(0.02)


def is_there(port: Any) -> bool:
    with contextlib.suppress(OSError):
        socket.create_connection(("127.0.0.1", port), SECONDS).close()
        return True
    return False


def hello(name: Any) -> bytes:
    return f"HELLO {name} {token(name)}\n".encode()


def read_all(stream: Any) -> bytes:
    """All bytes up to the end, which may be a reset."""
    pieces = []
    with contextlib.suppress(ConnectionResetError):
        while piece := stream.recv(1 << 16):
            pieces.append(piece)
    return b"".join(pieces)


@pytest.fixture(scope="module")
def farm(tmp_path_factory: Any) -> Any:
    """Three servers of 20 users each."""
    begun = Farm(tmp_path_factory.mktemp("farm"), {f"user{number}": USUAL for number in range(20 * SERVERS)}, SHORTER)
    yield begun
    begun.end()


@pytest.mark.parametrize("tls", [False, True], ids=["plain", "TLS"])
def test_each_user_lands_at_its_own_server(farm: Any, tls: Any) -> None:
    """A session loaded through HAProxy is at the user's server, as seen without HAProxy, and at no other."""
    for number, names in farm.at.items():
        name = names[1 + tls]
        stream, replies = farm.joined(name, tls=tls, source="127.0.1.1")
        with stream, replies:
            stream.sendall(LOADED + b"ADVANCE a 2\nSHOW a 0\n")
            assert [replies.readline() for _ in range(3)][-1] == b"OK SHOW a 2 0 1774 0 0\n"
        with connect("127.0.0.1", farm.port(number), name, token(name), timeout=SECONDS) as user:
            assert [(row.name, row.step) for row in user.sessions()] == [("a", 2)]
        other = number % SERVERS + 1
        with socket.create_connection(("127.0.0.1", farm.port(other)), SECONDS) as stream:
            stream.sendall(hello(name))
            assert read_all(stream) == b"ERR 01 DENIED\n"


@pytest.mark.parametrize(
    "sent",
    [b"HELLO {0} {1}\nLIST\nBYE\n", b" \tHELLO\t{0} \t {1} \nLIST\nBYE\n", b"HELLO {0} {1}\r\nLIST\r\nBYE\r\n"],
    ids=["with commands behind", "blanks", "CR LF"],
)
@pytest.mark.parametrize("size", [1, 7, 4096])
def test_a_first_line_of_any_shape(farm: Any, sent: Any, size: Any) -> None:
    name = farm.at[1][3]
    text = sent.replace(b"{0}", name.encode()).replace(b"{1}", token(name).encode())
    with farm.connected(source=f"127.0.2.{size % 200 + 1}") as stream:
        for place in range(0, len(text), size):
            stream.sendall(text[place : place + size])
            time.sleep(0.001)
        assert read_all(stream) == f"OK HELLO {name}\nOK LIST 0\nOK BYE\n".encode()


def test_who_is_no_user_is_denied_and_comes_to_no_server(farm: Any) -> None:
    name = farm.at[1][4]
    before = farm.values()
    lines = [f"HELLO {name} {'b' * 32}", f"HELLO eve {token(name)}", f"HELLO {token(name)} {name}", "LIST", "", "HELLO"]
    lines += [f"HELLO {'x' * 300}", f"HELLO {name}:{token(name)}", f"hello {farm.at[2][4]} {token(name)}"]
    for line in lines:
        with farm.connected(source="127.0.3.1") as stream:
            stream.sendall(f"{line}\n".encode())
            assert read_all(stream) == b"ERR 01 DENIED\n", line
    with farm.connected(source="127.0.3.1") as stream:
        stream.sendall(b"x" * 257)
        assert read_all(stream) == b"ERR 01 DENIED\n"
    assert farm.values() == before


def test_no_token_is_logged(farm: Any) -> None:
    """An unknown name may be a token, so it is not logged either."""
    name = farm.at[1][5]
    with farm.connected(source="127.0.3.2") as stream:
        stream.sendall(f"HELLO {token('user99')} {token(name)}\n".encode())
        read_all(stream)
    farm.joined(name, source="127.0.3.2")[0].close()
    until(lambda: re.search(rf"^127\.0\.3\.2:\d+ {name} server1 ", farm.log.read_text(), re.M))
    assert "ZZZZZZZZ" not in farm.log.read_text()
    assert re.search(r"^127\.0\.3\.2:\d+ - ljserve ", farm.log.read_text(), re.M)


def test_a_first_line_that_does_not_come(farm: Any) -> None:
    """A client that sends nothing, one that sends byte by byte, and one that begins no TLS handshake hold no place."""
    before = farm.values()
    with farm.connected(source="127.0.4.1") as silent, farm.connected(source="127.0.4.1") as slow:
        with socket.create_connection(("127.0.0.1", farm.tls), SECONDS) as shy:
            with contextlib.suppress(OSError):
                for _ in range(60):
                    slow.sendall(b" ")
                    time.sleep(0.1)
            assert [read_all(stream) for stream in (silent, slow, shy)] == [b"", b"", b""]
    assert farm.values() == before


def test_plain_text_at_the_port_of_tls_and_an_unknown_certificate(farm: Any) -> None:
    name = farm.at[2][5]
    with socket.create_connection(("127.0.0.1", farm.tls), SECONDS, ("127.0.5.1", 0)) as stream:
        stream.sendall(hello(name))
        assert b"OK HELLO" not in read_all(stream)
    with socket.create_connection(("127.0.0.1", farm.tls), SECONDS, ("127.0.5.1", 0)) as stream, pytest.raises(ssl.SSLError):
        ssl.create_default_context().wrap_socket(stream, server_hostname="localhost")
    with socket.create_connection(("127.0.0.1", farm.tls), SECONDS, ("127.0.5.1", 0)) as stream, pytest.raises(ssl.SSLError):
        farm.context().wrap_socket(stream, server_hostname="elsewhere")
    farm.joined(name, tls=True, source="127.0.5.1")[0].close()


@pytest.mark.parametrize("tls", [False, True], ids=["plain", "TLS"])
def test_who_says_nothing_more_is_let_be(farm: Any, tls: Any) -> None:
    """A user who was let in may be silent for longer than a first line may take."""
    stream, replies = farm.joined(farm.at[1][6 + tls], tls=tls, source="127.0.6.1")
    with stream, replies:
        time.sleep(4)
        stream.sendall(b"LIST\n")
        assert replies.readline() == b"OK LIST 0\n"


def test_who_has_sent_all_gets_all_replies(farm: Any) -> None:
    """As with `printf .. | nc`, even if they take longer than a first line may."""
    name = farm.at[3][6]
    with farm.connected(source="127.0.6.2") as stream:
        stream.settimeout(4 * SECONDS)
        stream.sendall(hello(name) + LOADED + b"ADVANCE a 1000000\nSHOW a 5\n")
        stream.shutdown(socket.SHUT_WR)
        assert read_all(stream).endswith(b"OK ADVANCE a 1000000\nERR 14 NO_ATOM\n")


def test_who_does_not_read_holds_nobody_up(farm: Any) -> None:
    name, other = farm.at[2][7:9]
    text = b"2000\nmany\n" + b"".join(b"X %d %d %d\n" % (i % 13, i // 13 % 13, i // 169) for i in range(2000))
    stream, replies = farm.joined(name, source="127.0.7.1")
    with stream, replies:
        stream.sendall(b"LOAD a 20 1 1 rest %d\n" % len(text) + text + b"DUMP a\n" * 300)
        friend, told = farm.joined(other, source="127.0.7.1")
        with friend, told:
            friend.sendall(b"LIST\n")
            assert told.readline() == b"OK LIST 0\n"
        stream.shutdown(socket.SHUT_WR)
        assert sum(line.startswith(b"OK DUMP a 0 2002") for line in replies) == 300


def test_a_user_has_four_connections_at_once(farm: Any) -> None:
    name = farm.at[1][9]
    until(lambda: farm.values("current_sessions")[1] == 0)
    with contextlib.ExitStack() as streams:
        first, replies = farm.joined(name, source="127.0.8.1")
        streams.enter_context(first)
        waiting = [streams.enter_context(farm.connected(source="127.0.8.1")) for _ in range(3)]
        for stream in waiting:
            stream.sendall(hello(name))
        until(lambda: farm.values("current_sessions")[1] == 4)
        with farm.connected(source="127.0.8.1") as fifth:
            fifth.sendall(hello(name))
            assert read_all(fifth) == b""
        first.sendall(b"LIST\n")
        assert replies.readline() == b"OK LIST 0\n"


def test_the_63rd_waits_and_is_let_in_when_another_ends(farm: Any) -> None:
    """A server has 64 places, and two of them stay free. A connection may wait for longer than a first line may take."""
    names = farm.at[3][10:20] + farm.at[3][:6]
    until(lambda: farm.values("current_sessions")[3] == 0)
    with contextlib.ExitStack() as streams:
        opened = []
        for place in range(62):
            stream = streams.enter_context(farm.connected(source="127.0.9.1"))
            stream.sendall(hello(names[place // 4]))
            opened.append(stream)
            if place % 4 == 0:
                assert stream.recv(100) == f"OK HELLO {names[place // 4]}\n".encode()
        until(lambda: farm.values("current_sessions")[3] == 62)
        last = streams.enter_context(farm.connected(source="127.0.9.1"))
        free = farm.at[3][6]
        last.sendall(hello(free))
        last.settimeout(4)
        with pytest.raises(socket.timeout):
            last.recv(100)
        opened[0].close()
        last.settimeout(SECONDS)
        assert last.recv(100) == f"OK HELLO {free}\n".encode()


def test_a_server_that_is_killed(farm: Any) -> None:
    """The next server lets its users in, and others notice nothing."""
    here, there = farm.at[1][12], farm.at[2][12]
    stream, replies = farm.joined(there, source="127.0.10.1")
    lost, _ = farm.joined(here, source="127.0.10.1")
    with stream, replies, lost:
        farm.end_child(1)
        assert read_all(lost) == b""
        with farm.connected(source="127.0.10.1") as again:
            again.sendall(hello(here))
            assert read_all(again) == b""
        stream.sendall(b"LIST\n")
        assert replies.readline() == b"OK LIST 0\n"
        farm.begin(1)
        until(lambda: farm.is_let_in(here, "127.0.10.1"))


def test_a_kept_server_that_is_killed(farm: Any, tmp_path: Any) -> None:
    """Its user continues over the same connection, with its session."""
    name = farm.at[2][14]
    with farm.kept(2, tmp_path) as folder:
        until(lambda: farm.is_let_in(name, "127.0.13.1"))
        stream, replies = farm.joined(name, tls=True, source="127.0.13.1")
        with stream, replies:
            stream.sendall(LOADED + b"ADVANCE a 1\n")
            assert [replies.readline() for _ in range(2)] == [b"OK LOAD a 0 2\n", b"OK ADVANCE a 1\n"]
            os.kill(json.loads((folder / "status.json").read_text())["server"], signal.SIGKILL)
            stream.sendall(b"ADVANCE a 1\nSHOW a 0\n")
            assert [replies.readline() for _ in range(2)] == [b"OK ADVANCE a 2\n", b"OK SHOW a 2 0 1774 0 0\n"]


def told_to(farm: Any, line: str, source: str) -> Any:
    """The reply to a first line from an address, or nothing if the connection is closed."""
    with contextlib.suppress(OSError), farm.connected(source=source) as stream:
        stream.sendall(f"{line}\n".encode())
        return read_all(stream)
    return b""


def test_who_guesses_is_shut_out(farm: Any) -> None:
    """A name from an address is shut out after 30 wrong first lines in a minute. Another name or address is not."""
    name = farm.at[2][13]
    told = [told_to(farm, f"HELLO {name} bbb", "127.0.11.1") for _ in range(40)]
    assert told == [b"ERR 01 DENIED\n"] * 30 + [b""] * 10
    assert told_to(farm, "HELLO eve bbb", "127.0.11.1") == b"ERR 01 DENIED\n"
    assert told_to(farm, f"HELLO {name} bbb", "127.0.11.2") == b"ERR 01 DENIED\n"
    farm.joined(name, source="127.0.11.1")[0].close()


def test_an_address_that_guesses_many_names_is_shut_out(farm: Any) -> None:
    """It is shut out after more than 300 such lines. Other addresses are not."""
    told = [told_to(farm, f"HELLO eve{number} bbb", "127.0.11.3") for number in range(310)]
    assert told == [b"ERR 01 DENIED\n"] * 301 + [b""] * 9
    farm.joined(farm.at[2][13], source="127.0.11.4")[0].close()


def exchanged(stream: Any, sent: Any, count: Any) -> Any:
    """The replies over TLS to all of `sent`, up to `count` lines or to the end. Neither direction waits for the other."""
    stream.setblocking(False)
    left, told = memoryview(sent), bytearray()
    while left or count > 0:
        try:
            while left:
                left = left[stream.send(left[:16384]) :]
        except (ssl.SSLWantReadError, ssl.SSLWantWriteError):
            pass
        except OSError:
            left = left[:0]  # the server has ended the connection, and reads no more
        with contextlib.suppress(ssl.SSLWantReadError):
            while piece := stream.recv(1 << 16):
                told += piece
                count -= piece.count(b"\n")
            return bytes(told)
        if left or count > 0:
            assert any(select.select([stream], [stream] if left else [], [], 10 * SECONDS)), bytes(told[-200:])
    stream.settimeout(SECONDS)
    stream.unwrap().close()  # raises if more replies come
    return bytes(told)


def found_over_tls(farm: Any, name: Any, stream: Any) -> Any:
    """The difference of a user's replies to a stream from those expected, if any."""
    lines = stream.replies.count(b"\n") + sum(int(folded[1]) - 1 for folded in FOLDED.finditer(stream.replies))
    with farm.connected(tls=True) as connection:
        greeting, _, told = exchanged(connection, hello(name) + stream.sent, 1 + lines).partition(b"\n")
    assert greeting == f"OK HELLO {name}".encode(), stream.name
    return difference(stream, told)


def test_the_streams_of_conformance_over_tls(tmp_path: Any) -> None:
    """All play at the same time, each by a user of its quota, through HAProxy with the times of its config."""
    streams = {f"user{number}": stream for number, stream in enumerate(stored())}
    assert len(streams) > 130
    farm = Farm(tmp_path, {name: stream.quota for name, stream in streams.items()}, {})
    try:
        with ThreadPoolExecutor(len(streams)) as threads:
            found = [*threads.map(found_over_tls, [farm] * len(streams), streams, streams.values())]
    finally:
        farm.end()
    assert [each for each in found if each] == []


def test_metrics_and_no_other_page(farm: Any) -> None:
    assert set(farm.values()) == {1, 2, 3}
    with pytest.raises(urllib.error.HTTPError):
        urllib.request.urlopen(f"http://127.0.0.1:{farm.metrics}/", timeout=SECONDS)
