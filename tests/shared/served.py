"""Servers that a test starts, and the connections of clients to them."""
import select
import socket
import subprocess
import time
from typing import Any, List, Optional, Tuple

from shared.program import Ended, Program, descriptors_of, end_of, file_of, is_emulated, status_of
from shared.serving import begun, options_of
from shared.sockets import connected, reset
from shared.texts import must_be, shown
from shared.words import AT_ONCE, hello, welcome


class Client:
    """A connection to a server on a port. `end` says how its input ended: it is "end", "reset" or "late"."""

    def __init__(self, port: int, room: Optional[int] = None) -> None:
        self.socket = connected(port, room=room)
        self.ahead = b""
        self.end: Optional[str] = None

    def send(self, data: bytes) -> None:
        self.socket.sendall(data)

    def piece(self) -> bytes:
        """The next bytes, or none at the end."""
        try:
            piece = self.socket.recv(1 << 16)
            self.end = None if piece else "end"
        except ConnectionResetError:
            piece, self.end = b"", "reset"
        except socket.timeout:
            piece, self.end = b"", "late"
        return piece

    def lines(self, count: int) -> bytes:
        """The next `count` lines, or those that come within the time limit."""
        while self.ahead.count(b"\n") < count and (piece := self.piece()):
            self.ahead += piece
        parts = self.ahead.split(b"\n", count)
        self.ahead = parts.pop() if len(parts) > count else b""
        return b"".join(part + b"\n" for part in parts) if self.end is None else b"\n".join(parts)

    def rest(self) -> bytes:
        """All bytes up to the end."""
        pieces = [self.ahead]
        while piece := self.piece():
            pieces.append(piece)
        self.ahead = b""
        return b"".join(pieces)

    def says(self, data: bytes, reply: bytes) -> None:
        """Sends these bytes, which must be answered by this reply."""
        self.send(data)
        self.is_told(reply, data)

    def is_told(self, reply: bytes, data: object = b"") -> None:
        must_be(self.lines(reply.count(b"\n")), reply, f"the reply to {shown(data)}")

    def is_told_last(self, reply: bytes) -> None:
        """Exactly these bytes must come, and then the end."""
        must_be(self.rest(), reply, "the last that is told")
        assert self.end == "end", f"the connection ends by {self.end} after {shown(reply)}"

    def is_quiet(self, seconds: float = 0.2) -> bool:
        """Whether nothing comes for `seconds`."""
        return not self.ahead and not select.select([self.socket], [], [], seconds)[0]

    def leaves(self) -> None:
        self.says(b"BYE\n", b"OK BYE\n")
        self.is_told_last(b"")
        self.close()

    def half_close(self) -> None:
        self.socket.shutdown(socket.SHUT_WR)

    def close(self) -> None:
        self.socket.close()

    def reset(self) -> None:
        reset(self.socket)


class Server:
    """A server on a port, which ends after `connections` connections."""

    def __init__(self, child: "subprocess.Popen[bytes]", port: int, connections: int) -> None:
        self.child, self.port = child, port
        self.connections = self.left = connections
        self.clients: List[Client] = []

    def connect(self, room: Optional[int] = None) -> Client:
        client = Client(self.port, room)
        self.left -= 1
        self.clients.append(client)
        return client

    def enter(self, name: str, room: Optional[int] = None) -> Client:
        """A connection that was let in as this user."""
        client = self.connect(room)
        client.says(hello(name), welcome(name))
        return client

    def let_in(self, name: str) -> Client:
        """A connection as this user, tried until there is room for it."""
        end = time.monotonic() + AT_ONCE
        client, line = self.knock(name)
        while line == b"" and time.monotonic() < end:
            time.sleep(0.05)
            client, line = self.knock(name)
        assert line == welcome(name), f"there is no room for one more: {line!r}"
        return client

    def knock(self, name: str) -> Tuple[Client, bytes]:
        """A connection as this user, and its first line of replies, if any."""
        client = self.connect()
        try:
            client.send(hello(name))
            return client, client.lines(1)
        except (BrokenPipeError, ConnectionResetError):
            return client, b""

    def finish(self, tiles: int, more: int = 0) -> None:
        """Opens and closes the connections that are left. The server must have computed `tiles` tiles, or up to `more` in
        addition, which were begun for a connection that did not wait for them."""
        status, out, err = self.ended()
        wanted = [f"served {self.connections} connections, {tiles + wasted} tiles\n".encode() for wasted in range(more + 1)]
        about = f"the server ends with {status}, {out!r}, {err!r}, in place of {wanted[0]!r} to {wanted[-1]!r}"
        assert status == 0 and out in wanted and err == b"", about

    def ended(self) -> Ended:
        """The status and outputs of the server, after all connections were made and closed."""
        for client in self.clients:
            client.close()
        for _ in range(self.left):
            self.connect().close()
        return self.wait()

    def wait(self) -> Ended:
        """The status and outputs of the server."""
        return end_of(self.child)

    def kill(self) -> None:
        """Kills the server if it still runs, and closes the connections to it."""
        if self.child.poll() is None:
            self.child.kill()
            self.child.communicate()
        for client in self.clients:
            client.close()

    def held(self) -> Tuple[int, int]:
        """How many descriptors and threads the server has."""
        return descriptors_of(self.child.pid), self.threads()

    def threads(self) -> int:
        """How many threads the program has, without qemu's own thread if qemu runs the program."""
        return self.status("Threads") - int(is_emulated(self.child.pid))

    def status(self, word: str) -> int:
        return status_of(f"/proc/{self.child.pid}", word)


class Servers:
    """The servers of a program with a kind of pool, or with the default one."""

    def __init__(self, program: Program, pool: Optional[str]) -> None:
        self.program, self.pool = program, pool
        self.begun: List[Server] = []

    def __call__(self, users: bytes, connections: int, workers: int = 2, **streams: Any) -> Server:
        """A server with the users of these lines, which ends after `connections` connections."""
        child, port = begun(self.program.path, users, options_of(workers, connections, self.pool), **streams)
        server = Server(child, port, connections)
        self.begun.append(server)
        return server

    def ended_with(self, users_file: str, address: str) -> Ended:
        """The status and outputs of a server with this file of users that cannot start on this address."""
        return self.program.run(["serve", "--listen", address, "--users", users_file, *options_of(2, 1, self.pool)])

    def ended_on(self, users: bytes, address: str) -> Ended:
        """The same for the users of these lines."""
        with file_of(users) as path:
            return self.ended_with(path, address)

    def end(self) -> None:
        for server in self.begun:
            server.kill()
        self.begun.clear()
