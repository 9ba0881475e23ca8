"""The metrics of `tools/watch --metrics` about a server and its users."""
import contextlib
import re
import socket
import subprocess
import sys
import time
import urllib.error
import urllib.request
from typing import Any, Dict, Iterator

import pytest

from ljclient import connect
from support import SECONDS, TOKEN, TOP, Server, dimer, free_port, present
from test_watch import WATCH, Watcher, read_all, reset

sys.path.append(str(TOP / "tools"))
from ljtools import metrics, server_process, watching  # noqa: E402


class Seen:
    """`watch` with metrics in front of a server, or of a port where there is none."""

    def __init__(self, port: Any) -> None:
        self.watcher = Watcher(port, "--metrics", "127.0.0.1:0")
        self.port = self.watcher.port
        line = present(self.watcher.child.stdout).readline()
        self.url = present(re.search(r"metrics are at (http://127\.0\.0\.1:\d+/metrics)\n", line))[1]

    def text(self) -> str:
        with urllib.request.urlopen(self.url, timeout=SECONDS) as answer:
            assert answer.headers["Content-Type"] == "text/plain; version=0.0.4; charset=utf-8"
            told: str = answer.read().decode()
            return told

    def values(self) -> Dict[Any, Any]:
        """The samples by their names, with their labels."""
        lines = [line for line in self.text().splitlines() if not line.startswith("#")]
        return {name: int(value) for name, value in (line.rsplit(" ", 1) for line in lines)}

    def until(self, name: Any, value: Any) -> Any:
        """All samples, when one of them has a value."""
        end = time.monotonic() + SECONDS
        while (values := self.values()).get(name) != value and time.monotonic() < end:
            time.sleep(0.02)
        assert values.get(name) == value, values
        return values

    def join(self, name: str = "ann") -> Any:
        return connect("127.0.0.1", self.port, name, TOKEN, timeout=SECONDS)


@pytest.fixture
def server() -> Iterator[Any]:
    with Server(users=("ann", "ben")) as begun:
        yield begun


@pytest.fixture
def seen(server: Any) -> Iterator[Any]:
    begun = Seen(server.port)
    yield begun
    begun.watcher.__exit__()


def test_commands_and_steps_of_users(seen: Any) -> None:
    with seen.join() as user:
        dimer(user), dimer(user, "b")
        lines = "ADVANCE a 100,REVERSE a,ADVANCE a 50,START b 20,BRANCH b k,ADVANCE b 5,RESTORE b k,START b 7"
        for line in lines.split(","):
            user.ask(line)
        values = seen.until('ljserve_commands_total{user="ann"}', 11)
        assert values['ljserve_steps_total{user="ann"}'] == 100 + 50 + 20 + 5 + 7
    with seen.join() as user:
        for line in ("ADVANCE a 3", "DROP a"):
            user.ask(line)
        dimer(user).advance(2)
    with seen.join("ben") as user:
        user.ask("LIST")
    values = seen.until('ljserve_commands_total{user="ben"}', 3)
    # LIST, LOAD, LOAD and the eight; LIST, LIST b, ADVANCE, DROP, LOAD and ADVANCE; and a BYE each
    assert values['ljserve_commands_total{user="ann"}'] == 11 + 6 + 2
    assert values['ljserve_steps_total{user="ann"}'] == 182 + 3 + 2
    assert values['ljserve_steps_total{user="ben"}'] == 0
    assert values["ljserve_connections_total"] == 3


def test_who_waits_and_whose_client_is_gone(seen: Any, server: Any) -> None:
    with seen.join() as user:
        user.ask("LIST")
        second = socket.create_connection(("127.0.0.1", seen.port), SECONDS)
        second.sendall(f"HELLO ann {TOKEN}\n".encode())
        values = seen.until('ljserve_open_connections{state="waits"}', 1)
        assert [values[f'ljserve_open_connections{{state="{state}"}}'] for state in ("new", "in", "denied")] == [0, 1, 0]
        assert (values["ljserve_gone_connections"], values["ljserve_places"]) == (0, 64)
        assert seen.until("ljserve_places_taken", 2)
        with server.stopped():  # otherwise it would drop a client that is gone
            second.close()
            values = seen.until("ljserve_gone_connections", 1)
            assert (values['ljserve_open_connections{state="waits"}'], values["ljserve_places_taken"]) == (1, 2)
    values = seen.until("ljserve_gone_connections", 0)
    assert seen.until("ljserve_places_taken", 0)


def test_who_waits_and_is_reset_keeps_a_place(seen: Any, server: Any) -> None:
    """The connection has ended here, but the server has it until its turn."""
    with seen.join() as user:
        user.ask("LIST")
        second = socket.create_connection(("127.0.0.1", seen.port), SECONDS)
        second.sendall(f"HELLO ann {TOKEN}\n".encode())
        seen.until('ljserve_open_connections{state="waits"}', 1)
        with server.stopped():
            reset(second)
            values = seen.until('ljserve_open_connections{state="waits"}', 0)
            assert (values["ljserve_gone_connections"], values["ljserve_places_taken"]) == (1, 2)
    assert seen.until("ljserve_gone_connections", 0)


def test_who_is_denied_is_counted_and_is_no_user(seen: Any) -> None:
    for words in (f"ann {'b' * 32}", f"eve {TOKEN}", f"{TOKEN} ann"):
        with seen.watcher.connected() as stream:
            stream.sendall(f"HELLO {words}\n".encode())
            assert read_all(stream) == b"ERR 01 DENIED\n"
    seen.until("ljserve_denied_total", 3)
    text = seen.text()
    assert "user=" not in text and TOKEN not in text and "b" * 32 not in text


def test_connections_that_are_left_and_those_that_go_round(seen: Any, server: Any) -> None:
    """A connection that does not come through `watch` counts in the places, which are read from /proc."""
    before = seen.values()
    assert (before["ljserve_up"], before["ljserve_connections_left"]) == (1, 100)
    with seen.join(), socket.create_connection(("127.0.0.1", server.port), SECONDS):
        values = seen.until("ljserve_places_taken", 2)
        assert (values["ljserve_connections_left"], values["ljserve_connections_total"]) == (99, 1)


def test_a_server_that_has_ended(seen: Any, server: Any) -> None:
    server.end()
    values = seen.until("ljserve_up", 0)
    assert values["ljserve_places_taken"] == 0 and "ljserve_connections_left" not in values


def test_a_new_server_accepts_connections_anew(monkeypatch: pytest.MonkeyPatch) -> None:
    """Connections since the last look at the previous server count, since it is not known which server had them."""
    board = watching.Board(None)
    told = metrics.Metrics(("127.0.0.1", 4000), board)
    server = server_process.Server(True, 0, 0, 10, (7, "100"))
    monkeypatch.setattr(metrics, "server_at", lambda _: server)

    def left(connections: Any) -> int:
        for _ in range(connections):
            board.note_passed()
        return int(present(re.search(r"^ljserve_connections_left (\d+)$", told.text(), re.M))[1])

    assert [left(0), left(3), left(1)] == [10, 7, 6]
    server = server_process.Server(True, 0, 0, 10, (7, "200"))
    assert [left(2), left(0), left(20)] == [8, 8, 0]


def test_a_server_on_another_machine() -> None:
    """192.0.2.1 is no machine's address. Only connections that pass through are known, and a silent one does not."""
    assert server_process.server_at(("192.0.2.1", 4000)) is None
    board = watching.Board(None)
    passed, new = (watching.Connection(f"192.0.2.{number}:4242") for number in (7, 8))
    passed.hear_client(f"HELLO ann {TOKEN}\n".encode())
    board.begins(passed)
    board.begins(new)
    text = metrics.Metrics(("192.0.2.1", 4000), board).text()
    assert "\nljserve_places_taken 1\n" in text
    assert not re.search("ljserve_(up|connections_left)", text)


def test_a_host_of_which_one_address_cannot_be_had(monkeypatch: pytest.MonkeyPatch) -> None:
    """As with `localhost` if the machine has no IPv6."""
    both = [each for host in ("192.0.2.1", "127.0.0.1") for each in socket.getaddrinfo(host, 0, type=socket.SOCK_DGRAM)]
    here = server_process.hosts_here("127.0.0.1")
    monkeypatch.setattr(socket, "getaddrinfo", lambda *_, **__: both)
    assert server_process.hosts_here("localhost") == here


@pytest.mark.parametrize(
    "words, accepts",
    [
        ("ljserve serve --listen 127.0.0.1:4000 --users u --workers 4 --connections 70", 70),
        ("sh bin/ljserve serve --connections 8 --listen 0.0.0.0:4000", 8),
        ("ljserve serve --listen [::]:4000 --connections 9", 9),
        ("ljserve serve --listen 127.0.0.1:4001 --connections 70", None),
        ("ljserve serve --listen 127.0.0.2:4000 --connections 70", None),
        ("ljserve serve --listen 127.0.0.1:4000", None),
        ("ljserve serve --listen 127.0.0.1:4000 --connections", None),
        ("ljserve serve --listen 127.0.0.1:4000 --connections many", None),
        ("watch 127.0.0.1:4000 127.0.0.1:4001", None),
    ],
)
def test_the_words_of_a_server(words: Any, accepts: Any) -> None:
    assert server_process.connections_of(words.split(), server_process.hosts_here("127.0.0.1"), 4000) == accepts


def test_sockets_of_another_address_are_not_the_servers() -> None:
    """A front may listen at the port of the server, at another address of the machine."""
    with socket.create_server(("127.0.0.1", 0)) as one:
        address = one.getsockname()
        with socket.create_server(("127.0.0.2", address[1])) as other, socket.create_connection(other.getsockname()):
            accepted, _ = other.accept()
            told = [server_process.server_at((host, address[1])) for host in ("127.0.0.1", "127.0.0.2")]
            assert [(present(each).listens, present(each).taken, present(each).process) for each in told] == [
                (True, 0, None),
                (True, 1, None),
            ]
            accepted.close()


def test_each_metric_has_its_help_and_type(seen: Any) -> None:
    with seen.join() as user:
        user.ask("LIST")
        text = seen.text()
    lines = text.splitlines()
    names = [line.split()[2] for line in lines if line.startswith("# HELP ")]
    assert len(names) == len(set(names)) == 11 and all(name.startswith("ljserve_") for name in names)
    for name in names:
        (at,) = [number for number, line in enumerate(lines) if line.startswith(f"# HELP {name} ")]
        kind = "counter" if name.endswith("_total") else "gauge"
        assert lines[at + 1] == f"# TYPE {name} {kind}"
        assert re.match(rf'{name}({{[a-z]+="[^"]*"}})? \d+$', lines[at + 2])
    assert text.endswith("\n")


def test_prometheus_reads_it(seen: Any) -> None:
    parser = pytest.importorskip("prometheus_client.parser", reason="prometheus_client is not installed")
    with seen.join() as user:
        user.ask("LIST")
        families = {family.name: family for family in parser.text_string_to_metric_families(seen.text())}
    (sample,) = families["ljserve_commands"].samples
    assert (families["ljserve_commands"].type, sample.labels, sample.value) == ("counter", {"user": "ann"}, 2)
    assert families["ljserve_places"].type == "gauge" and families["ljserve_places"].documentation


def test_labels_are_escaped() -> None:
    parser = pytest.importorskip("prometheus_client.parser", reason="prometheus_client is not installed")
    value = 'a"b\\c\nd'
    text = metrics.written(("x_total", "counter", "X.", [({"user": value}, 1)]))
    assert text.splitlines()[2] == 'x_total{user="a\\"b\\\\c\\nd"} 1'
    (family,) = parser.text_string_to_metric_families(text)
    assert family.samples[0].labels == {"user": value}


def test_steps_of_a_session_that_was_not_seen_before_are_from_there_on() -> None:
    sessions: Dict[Any, Any] = {"ann": {}}
    connection = watching.Connection("x", sessions)
    connection.hear_server(b"OK HELLO ann\nOK ADVANCE a 500\nOK ADVANCE a 510\nOK SHOW a 510 0 1 2 3\n")
    connection.hear_server(b"OK LIST 1\na 510 2 0\nOK DROP a\n")
    assert (connection.commands, connection.steps, sessions["ann"]) == (5, 10, {})
    connection.hear_server(b"ERR 10 NO_SESSION\nOK LOADMIX a 0 2\nOK START a 4\nOK REVERSE a 3\nOK ADVANCE a -1\n")
    assert (connection.steps, sessions["ann"]) == (10 + 4 + 4, {b"a": -1})


def test_another_path_and_one_who_is_gone(seen: Any) -> None:
    with pytest.raises(urllib.error.HTTPError) as error:
        urllib.request.urlopen(seen.url.replace("/metrics", "/"), timeout=SECONDS)
    assert (error.value.code, error.value.read()) == (404, b"Metrics are at /metrics.\n")
    host, port = present(re.search(r"//([^:]+):(\d+)/", seen.url)).groups()
    for first in (b"", b"GET /met", b"\0\xff\n\n"):
        with contextlib.suppress(OSError), socket.create_connection((host, int(port)), SECONDS) as stream:
            stream.sendall(first)
    assert seen.values()["ljserve_up"] == 1


def test_an_address_that_is_none_or_taken() -> None:
    port = free_port()
    words = ["127.0.0.1:0", f"127.0.0.1:{port}"]
    with socket.create_server(("127.0.0.1", 0)) as taken:
        there = f"127.0.0.1:{taken.getsockname()[1]}"
        for address, status, cause in [("x", 2, "an address must be HOST:PORT, got x"), (there, 1, f"cannot listen on {there}: ")]:
            done = subprocess.run([*WATCH, "--metrics", address, *words], capture_output=True, text=True, timeout=SECONDS)
            assert (done.returncode, done.stdout) == (status, "")
            assert done.stderr.startswith(f"watch: {cause}") and done.stderr.count("\n") == 1
