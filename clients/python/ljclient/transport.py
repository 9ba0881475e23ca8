"""The streams that a wire reads and writes: over a socket, or to a child process."""
from __future__ import annotations

import os
import socket
import subprocess
from typing import IO, TYPE_CHECKING, Dict, List, Optional, Protocol, Set, Tuple, cast

from .errors import CannotStart, ConnectionLost, printable
from .later import Later
from .tokens import environment_without_token
from .warning import warn_caller

if TYPE_CHECKING:
    import ipaddress
    import tempfile
else:
    ipaddress, tempfile = Later("ipaddress"), Later("tempfile")

PATIENCE = 5.0
MAX_LAST_WORDS = 500
# The hosts for which a warning was given.
warned: Set[str] = set()


class PlainTextWarning(UserWarning):
    """A connection to another machine is not encrypted, so the network sees the token and all else. It is given once for each host."""


class Transport(Protocol):
    """A stream that does not block: it reads what is there, and writes as much as there is room for."""

    def source(self) -> int:
        """The descriptor that is read."""

    def sink(self) -> int:
        """The descriptor that is written to."""

    def read(self, size: int) -> bytes:
        """At most `size` bytes; none at the end. Raises BlockingIOError if none are there yet."""

    def write(self, data: bytes) -> int:
        """Writes the first of these bytes, and returns how many. Raises BlockingIOError if there is no room yet."""

    def close(self) -> None:
        """Closes the stream."""

    def last_words(self) -> str:
        """Why the other side has ended. Empty if this is not known."""


class OpenSocket:
    """A stream over a connected socket, which no longer blocks."""

    def __init__(self, connected: socket.socket):
        self._socket = connected
        self._socket.setblocking(False)

    def source(self) -> int:
        return self._socket.fileno()

    def sink(self) -> int:
        return self._socket.fileno()

    def read(self, size: int) -> bytes:
        return self._socket.recv(size)

    def write(self, data: bytes) -> int:
        return self._socket.send(data)

    def close(self) -> None:
        self._socket.close()

    def last_words(self) -> str:
        return ""


class SocketTransport(OpenSocket):
    """A TCP connection."""

    def __init__(self, host: str, port: int, timeout: float):
        self._where = f"{host}:{port}"
        try:
            plain = socket.create_connection((host, port), timeout)
        except OSError as error:
            why = error.strerror or str(error) or "no answer"
            raise ConnectionLost(f"cannot connect to {self._where}: {why}") from error
        plain.setsockopt(socket.IPPROTO_TCP, socket.TCP_NODELAY, 1)
        super().__init__(self._opened(plain, timeout))

    def _opened(self, plain: socket.socket, timeout: float) -> socket.socket:
        """The socket that is read and written."""
        return plain

    def peer(self) -> str:
        """The address of the other side; empty if the other side has ended the connection already."""
        try:
            return str(self._socket.getpeername()[0])
        except OSError:
            return ""


def opened_plainly(host: str, port: int, timeout: float) -> SocketTransport:
    """A TCP connection that is not encrypted. For another machine, a `PlainTextWarning` is given before anything is sent."""
    transport = SocketTransport(host, port, timeout)
    if host in warned or is_this_machine(host, transport.peer()):
        return transport
    try:
        warn_caller(
            f"the connection to {host} is not encrypted, so the network sees the token; use tls=True or --tls if the server has TLS, "
            "or connect through ssh -L",
            PlainTextWarning,
        )
    except PlainTextWarning:
        transport.close()
        raise
    warned.add(host)
    return transport


def is_this_machine(host: str, address: str) -> bool:
    """Whether a connection stays on this machine: the host is localhost, or the address is a loopback address or not known."""
    if host.lower().rstrip(".") == "localhost" or not address:
        return True
    number = ipaddress.ip_address(address.partition("%")[0])
    return (getattr(number, "ipv4_mapped", None) or number).is_loopback


class ChildTransport:
    """A child process: its standard input and output.

    It runs in its own process group, so that an interrupt from the keyboard stops the code that waits for it and not the
    process. `close` ends the process and waits for it. Its environment has no LJSERVE_TOKEN.
    """

    def __init__(self, command: List[str], env: Optional[Dict[str, str]] = None):
        self._command = command
        self._errors = tempfile.TemporaryFile()
        try:
            self._child = subprocess.Popen(
                command,
                stdin=subprocess.PIPE,
                stdout=subprocess.PIPE,
                stderr=self._errors,
                bufsize=0,
                start_new_session=True,
                env=environment_without_token(env),
            )
        except OSError as error:
            self._errors.close()
            raise CannotStart(f"cannot start {command[0]}: {error.strerror or error}") from error
        self._pipes = cast(Tuple[IO[bytes], IO[bytes]], (self._child.stdout, self._child.stdin))
        for end in self._pipes:
            os.set_blocking(end.fileno(), False)

    @property
    def pid(self) -> int:
        """The number of the process."""
        return self._child.pid

    def source(self) -> int:
        return self._pipes[0].fileno()

    def sink(self) -> int:
        return self._pipes[1].fileno()

    def read(self, size: int) -> bytes:
        return os.read(self.source(), size)

    def write(self, data: bytes) -> int:
        return os.write(self.sink(), data)

    def close(self) -> None:
        for end in self._pipes:
            try:
                end.close()
            except OSError:
                pass
        self._end_child()
        self._errors.close()

    def last_words(self) -> str:
        try:
            status = self._child.wait(PATIENCE)
        except subprocess.TimeoutExpired:
            return ""
        self._errors.seek(0)
        said = printable(self._errors.read(MAX_LAST_WORDS).decode(errors="replace").strip())
        return f"{self._command[0]} has ended with status {status}" + (f" ({said})" if said else "")

    def _end_child(self) -> None:
        """Waits for the process. If it still computes, or does not see the end of its input, it is terminated."""
        for end in (lambda: None, self._child.terminate, self._child.kill):
            end()
            try:
                self._child.wait(PATIENCE if end == self._child.kill else 0.5)
                return
            except subprocess.TimeoutExpired:
                pass
