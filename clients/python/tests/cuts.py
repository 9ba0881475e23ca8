"""Connections that are cut after so many bytes of the client, and what a session is, read by the protocol alone."""
import contextlib
import socket
from typing import Any, Iterator, List, NamedTuple, Tuple
from unittest import mock

from keepers import TOKEN as KEPT_TOKEN, Keeper
from ljclient import ClientError, connect, transport
from ljclient.transport import SocketTransport
from support import SECONDS, TOKEN, Server

NEVER = 1 << 62


class Cut(SocketTransport):
    """A connection of which the server gets so many bytes more, and then the end. It has answered them when the client is told."""

    def __init__(self, host: Any, port: Any, timeout: Any) -> None:
        super().__init__(host, port, timeout)
        self.left, self.sent = NEVER, 0

    def write(self, data: bytes) -> int:
        if not self.left:
            raise BrokenPipeError(32, "cut")
        count = super().write(data[: self.left])
        self.sent += count
        self.left -= count
        if not self.left:
            self._end()
        return count

    def cut_after(self, count: int) -> None:
        """Has the server get so many bytes more."""
        self.left = count
        if not count:
            self._end()

    def _end(self) -> None:
        with contextlib.suppress(OSError):
            self._socket.settimeout(SECONDS)
            self._socket.shutdown(socket.SHUT_WR)
            while self._socket.recv(1 << 16):
                pass
            self._socket.setblocking(False)


class Where(NamedTuple):
    """A server on a port of this machine, and the token of its user `ann`."""

    port: int
    token: str = TOKEN


def joined(where: Where) -> Any:
    """The user `ann`, by the client."""
    return connect("127.0.0.1", where.port, "ann", where.token, timeout=SECONDS)


@contextlib.contextmanager
def cuttable(where: Where) -> Iterator[Any]:
    """The user `ann` over a connection that can be cut."""
    with mock.patch.object(transport, "SocketTransport", Cut):
        user = joined(where)
    try:
        yield user
    finally:
        with contextlib.suppress(ClientError):
            user.close()


def transport_of(user: Any) -> Any:
    return user._wire._transport


class Seen(NamedTuple):
    """A session as the protocol tells it: step, direction, the atoms in any order with their places now and before, and what is
    saved in it."""

    step: int
    direction: int
    atoms: List[Tuple[Any, ...]]
    saved: List[str]


class Talk:
    """A dialogue line by line, without the client."""

    def __init__(self, where: Where) -> None:
        self.socket = socket.create_connection(("127.0.0.1", where.port), SECONDS)
        self.file = self.socket.makefile("rb")
        self.told(f"HELLO ann {where.token}")

    def told(self, *lines: str) -> List[List[str]]:
        """The words of the first line of each reply, and for LIST and DUMP the lines after it as further rows."""
        self.socket.sendall("".join(f"{line}\n" for line in lines).encode())
        rows = []
        for line in lines:
            words = self.file.readline().decode().split()
            rows.append(words)
            if words[:2] in (["OK", "LIST"], ["OK", "DUMP"]):
                rows += [self.file.readline().decode().split() for _ in range(int(words[-1]))]
        return rows

    def sessions(self) -> List[str]:
        return [row[0] for row in self.told("LIST")[1:]]

    def seen(self, name: str) -> Seen:
        dumped = self.told(f"DUMP {name}")[3:]
        shows = [f"SHOW {name} {atom}" for atom in range(len(dumped))]
        turn = f"REVERSE {name}"
        rows = self.told(*shows, turn, *shows, turn)
        count = len(dumped)
        now, before = rows[:count], rows[count + 1 : 2 * count + 1]
        step = int(now[0][3])
        atoms = [(row[0], *map(int, one[5:]), *map(int, other[5:])) for row, one, other in zip(dumped, now, before)]
        saved = [" ".join(row) for row in self.told(f"LIST {name}")[1:]]
        return Seen(step, step - int(before[0][3]), atoms, saved)

    def close(self) -> None:
        self.told("BYE")
        self.file.close()
        self.socket.close()


def seen(where: Where, name: str = "a") -> Any:
    """A session as it is, or None where it is not there."""
    talk = Talk(where)
    try:
        return talk.seen(name) if name in talk.sessions() else None
    finally:
        talk.close()


def places(total: int, count: int) -> List[int]:
    """So many numbers of bytes from none to all but one, as far apart as can be."""
    return sorted({number * total // count for number in range(count)})


@contextlib.contextmanager
def served(kind: str, folder: Any) -> Iterator[Where]:
    """A server over the pool of this name, or one behind `tools/keep`."""
    if kind == "keep":
        with Keeper(folder, "--sync", "second") as keeper:
            yield Where(keeper.port, KEPT_TOKEN)
    else:
        with Server(connections=100_000, pool=kind) as server:
            yield Where(server.port)
