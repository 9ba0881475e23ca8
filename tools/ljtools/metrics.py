"""Figures of a server and its users, for Prometheus.

https://prometheus.io/docs/instrumenting/exposition_formats/
"""
import contextlib
import socket
import threading
from http.server import BaseHTTPRequestHandler, ThreadingHTTPServer
from typing import Callable, Dict, Iterator, List, Mapping, Optional, Sequence, Tuple

from .server_process import Server, server_at
from .watching import Address, Board, Totals

PLACES = 64
STATES = ("new", "waits", "in", "denied")
KIND = "text/plain; version=0.0.4; charset=utf-8"
SECONDS_FOR_REQUEST = 10.0
METRICS = "/metrics"
Labels = Dict[str, str]
Sample = Tuple[Labels, float]
Metric = Tuple[str, str, str, Sequence[Sample]]
# The status of an answer, and its text.
Page = Callable[[], Tuple[int, str]]


class Metrics:
    """The metrics of a server that connections are passed on to."""

    def __init__(self, server: Address, board: Board):
        self._server = server
        self._board = board
        self._lock = threading.Lock()
        self._process: Optional[Tuple[int, str]] = None
        self._passed_before = 0
        self._last_passed = 0

    def text(self) -> str:
        """All metrics as they are now."""
        with self._lock:
            totals, server = self._board.totals(), server_at(self._server)
            left = self._left(totals.passed, server)
        return text_of([*of_connections(totals), *of_server(server, totals, left), *of_users(totals)])

    def _left(self, passed: int, server: Optional[Server]) -> Optional[int]:
        """How many connections the server still accepts. A new process has had at most those since the last call."""
        if server and server.process and server.process != self._process:
            self._passed_before = self._last_passed if self._process else 0
            self._process = server.process
        self._last_passed = passed
        if server is None or server.accepts is None:
            return None
        return max(server.accepts - (passed - self._passed_before), 0)


def of_connections(totals: Totals) -> Iterator[Metric]:
    states = [({"state": state}, totals.states.get(state, 0)) for state in STATES]
    yield "ljserve_open_connections", "gauge", "Connections that are open here, by state; those that wait have said HELLO.", states
    yield "ljserve_connections_total", "counter", "Connections that were passed to the server.", [({}, totals.passed)]
    yield "ljserve_denied_total", "counter", "Connections that the server denied.", [({}, totals.denied)]
    yield "ljserve_closed_total", "counter", "Connections that were closed here: too many of a user or an address.", [({}, totals.closed)]


def of_server(server: Optional[Server], totals: Totals, left: Optional[int]) -> Iterator[Metric]:
    """The metrics of the server. If /proc has nothing of it, its taken places are the connections that are passed on to it."""
    if server:
        yield "ljserve_up", "gauge", "Whether the server listens.", [({}, int(server.listens))]
    taken, gone = (server.taken, server.gone) if server else (sum(totals.states.values()) - totals.states.get("new", 0), totals.gone)
    yield "ljserve_places", "gauge", "How many connections the server has room for.", [({}, PLACES)]
    yield "ljserve_places_taken", "gauge", "Connections that the server has open.", [({}, taken)]
    yield "ljserve_gone_connections", "gauge", "Connections that the server has open whose client has ended its side.", [({}, gone)]
    if left is not None:
        about = "Connections that the server accepts before it ends, if all of them come through here."
        yield "ljserve_connections_left", "gauge", about, [({}, left)]


def of_users(totals: Totals) -> Iterator[Metric]:
    commands, steps = ([({"user": user}, each[user]) for user in sorted(each)] for each in (totals.commands, totals.steps))
    yield "ljserve_commands_total", "counter", "Commands that were answered, by user.", commands
    yield "ljserve_steps_total", "counter", "Steps that ADVANCE and START were answered for, by user.", steps


def text_of(metrics: Sequence[Metric]) -> str:
    return "".join(map(written, metrics))


def written(metric: Metric) -> str:
    """A metric with its lines of HELP and TYPE."""
    name, kind, about, samples = metric
    lines: List[str] = [f"# HELP {name} {about}", f"# TYPE {name} {kind}"]
    lines += [f"{name}{in_braces(labels)} {value}" for labels, value in samples]
    return "".join(f"{line}\n" for line in lines)


def in_braces(labels: Labels) -> str:
    pairs = ",".join(f'{name}="{escaped(value)}"' for name, value in labels.items())
    return f"{{{pairs}}}" if pairs else ""


def escaped(value: str) -> str:
    """The value of a label, escaped."""
    return value.replace("\\", "\\\\").replace('"', '\\"').replace("\n", "\\n")


class Endpoint(ThreadingHTTPServer):
    """An HTTP server that returns pages by their paths."""

    daemon_threads = True

    def __init__(self, listener: socket.socket, pages: Mapping[str, Page]):
        super().__init__(listener.getsockname()[:2], Answer, bind_and_activate=False)
        self.socket.close()
        self.socket = listener
        self.pages = pages

    def handle_error(self, request: object, client_address: object) -> None:
        """Ignores clients that are gone."""


class Answer(BaseHTTPRequestHandler):
    """An answer to a request."""

    server: Endpoint
    timeout = SECONDS_FOR_REQUEST

    def do_GET(self) -> None:
        path = self.path.partition("?")[0]
        page = self.server.pages.get(path)
        status, text = page() if page else (404, f"Metrics are at {METRICS}.\n")
        body = text.encode()
        self.send_response(status)
        self.send_header("Content-Type", KIND if page and path == METRICS else "text/plain; charset=utf-8")
        self.send_header("Content-Length", str(len(body)))
        self.end_headers()
        with contextlib.suppress(OSError):
            self.wfile.write(body)

    def log_message(self, *_: object) -> None:
        """Logs no requests."""


def tell(listener: socket.socket, pages: Mapping[str, Page]) -> None:
    """Serves pages to all who ask, in a thread of its own."""
    threading.Thread(target=Endpoint(listener, pages).serve_forever, daemon=True).start()
