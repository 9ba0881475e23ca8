"""Links to the reference of conformance/ that are cut after so many bytes of the client, or of the replies. All in one process, so each
cut is where it is said."""
import contextlib
import copy
import errno
import io
import socket
from typing import Any, Iterator, List, NamedTuple, Optional, Tuple
from unittest import mock

import reference
from ljclient import ClientError, ConnectionLost, connecting, retrying
from support import SECONDS, TOKEN

NEVER = 1 << 62
QUOTA = (8, 4096, 16)
CHANGES = (b"LOAD", b"LOADMIX", b"ADVANCE", b"START", b"REVERSE", b"TUG", b"BRANCH", b"RESTORE", b"FORGET", b"DROP")


class Cut(NamedTuple):
    """After how many bytes a link ends: of those that the server gets, and of those that the client gets."""

    asked: int = NEVER
    told: int = NEVER


class Server:
    """A server of one user.

    cuts     of the links that are begun next, in order
    others   of those after them
    granted  each command that changed something, in order
    refuses  how many links are refused before the next one is there
    allowed  how many seconds each link was allowed to take
    """

    def __init__(self) -> None:
        self.user = reference.User(QUOTA)
        self.cuts: List[Cut] = []
        self.others = Cut()
        self.granted: List[bytes] = []
        self.refuses = 0
        self.allowed: List[float] = []
        self.links: List["Link"] = []

    def open(self, seconds: float) -> Any:
        """A link of the client."""
        self.allowed.append(seconds)
        if self.refuses:
            self.refuses -= 1
            raise ConnectionLost("cannot connect: refused")
        self.links.append(Link(self, self.cuts.pop(0) if self.cuts else self.others))
        return self.links[-1]

    def connected(self, retry: float = SECONDS) -> Any:
        """The user over a link that is made again."""
        return connecting.joined(self.open, "ann", TOKEN, SECONDS, "", retry)

    def cut_next(self, cut: Cut) -> None:
        """Has the link that is open end after so many bytes more."""
        self.links[-1].left = cut

    def state(self) -> str:
        """All that the server has of the user."""
        return repr([(name, each.sim, each.symbols, each.saved) for name, each in self.user.sessions.items()])

    def answers(self, data: bytes) -> Tuple[bytes, int]:
        """The replies to the whole items at the start of some bytes, and how many bytes these have."""
        stream, told, taken = io.BytesIO(data), b"", 0
        before = self.state()
        for reply in reference.replies_to(stream, self.user):
            line = data[taken : stream.tell()].split(b"\n")[0]
            after = self.state()
            if line.split()[:1] and line.split()[0] in CHANGES and reply.startswith(b"OK") and after != before:
                self.granted.append(line)
            before, told, taken = after, told + reply, stream.tell()
        return told, taken


class Link:
    """A stream of `transport.Transport`."""

    def __init__(self, server: Server, cut: Cut) -> None:
        self._server = server
        self._ends = socket.socketpair()
        for end in self._ends:
            end.setblocking(False)
        self._asked = b""
        self._is_greeted = False
        self._is_cut = False
        self.left = cut
        self.heard = self.said = 0

    def source(self) -> int:
        return self._ends[0].fileno()

    def sink(self) -> int:
        return self._ends[0].fileno()

    def read(self, size: int) -> bytes:
        return self._ends[0].recv(size)

    def write(self, data: bytes) -> int:
        """The server gets them and answers at once, up to where the link is cut."""
        if self._is_cut:
            raise BrokenPipeError(errno.EPIPE, "cut")
        asked, told = self.left
        got = data[:asked]
        self.heard += len(got)
        self._asked += got
        replies = self._replies()
        self._ends[1].sendall(replies[:told])
        self.said += len(replies[:told])
        self.left = Cut(asked - len(got), told - len(replies[:told]))
        if not self.left.asked or not self.left.told:
            self._is_cut = True
            self._ends[1].close()
        return len(data)

    def _replies(self) -> bytes:
        if not self._is_greeted:
            line, found, rest = self._asked.partition(b"\n")
            if not found:
                return b""
            assert line == f"HELLO ann {TOKEN}".encode()
            self._is_greeted, self._asked = True, rest
            return b"OK HELLO ann\n" + self._replies()
        replies, taken = self._server.answers(self._asked)
        self._asked = self._asked[taken:]
        return replies

    def close(self) -> None:
        for end in self._ends:
            end.close()

    def last_words(self) -> str:
        return ""


@contextlib.contextmanager
def no_waits() -> Iterator[None]:
    """Nobody waits between two tries."""
    with mock.patch.object(retrying, "FIRST_WAIT", 1e-6), mock.patch.object(retrying, "LONGEST_WAIT", 1e-6):
        yield


def copied(server: Server) -> Server:
    """Another server, with the same sessions."""
    other = Server()
    other.user = copy.deepcopy(server.user)
    return other


def outcome(call: Any) -> Any:
    """What a call returns or raises, in a form that can be compared."""
    try:
        told: Optional[Any] = call()
    except ClientError as error:
        return type(error), str(error)
    return repr(told)
