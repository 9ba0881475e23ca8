"""Which connections `watch` and `class` let in: how many of a user may wait, and how many of an address may not be in yet."""
import contextlib
import math
import re
import socket
import time
from dataclasses import dataclass
from typing import Dict, FrozenSet, Iterator, List, NamedTuple, Optional, Tuple

from .user_files import rows_of

# The server ends a connection after so many bytes without a line feed.
MAX_UNENDED = 1 << 16
PIECE = 1 << 16
SECONDS_FOR_FIRST_LINE = 10.0
SECONDS_OF_A_COUNT = 10.0
USUAL_OF_AN_ADDRESS = 20
USUAL_OF_A_USER = 8
MAX_HOSTS = 1000
FIRST_LINE = re.compile(rb"[ \t]*HELLO[ \t]+([A-Za-z0-9_-]{1,16})[ \t]+([A-Za-z0-9]{32})[ \t]*\r?\n")
# The name and the token of a user.
Account = Tuple[bytes, bytes]


def accounts_of(path: str) -> FrozenSet[Account]:
    """The users of a file. Raises Fault if it cannot be read or something is wrong with it."""
    return frozenset((row[0], row[1]) for row in rows_of(path))


@dataclass(frozen=True)
class Limits:
    """How many connections there may be at once.

    of_an_address  connections of an address that are not in: not yet answered `OK HELLO`
    of_a_user      waiting connections with one name and one token
    accounts       the users, if they are known: connections of others are counted by their address alone
    """

    of_an_address: int = USUAL_OF_AN_ADDRESS
    of_a_user: int = USUAL_OF_A_USER
    accounts: Optional[FrozenSet[Account]] = None

    def account_of(self, first: bytes) -> Optional[Account]:
        """The user whom a first line asks for by name and token. None if it asks for none, or for an unknown one."""
        found = FIRST_LINE.match(first)
        account = (found[1], found[2]) if found else None
        return account if self.accounts is None or account in self.accounts else None


def of_an_address(word: str) -> int:
    """The number of --of-an-address. Raises ValueError if it is not one."""
    if not re.fullmatch("[1-9][0-9]{0,6}", word):
        raise ValueError(f"--of-an-address must be a whole number from 1 on, got {word}")
    return int(word)


def first_bytes(client: socket.socket) -> bytes:
    """The first bytes of a client: at least its first line, or less if it sends no more. Raises OSError if they do not come in time."""
    until, data = time.monotonic() + SECONDS_FOR_FIRST_LINE, b""
    while b"\n" not in data and len(data) < MAX_UNENDED:
        client.settimeout(max(until - time.monotonic(), 0.001))
        piece = client.recv(PIECE)
        if not piece:
            break
        data += piece
    client.settimeout(None)
    return data


def close_unanswered(client: socket.socket) -> None:
    """Closes a connection without a byte. Received bytes are read first: else the client would get a reset."""
    with client, contextlib.suppress(OSError):
        client.shutdown(socket.SHUT_WR)
        client.recv(PIECE, socket.MSG_DONTWAIT)


class Denials:
    """Wrong tokens, counted by address. Of each address, only so many are checked within ten seconds."""

    def __init__(self, of_an_address: int = USUAL_OF_AN_ADDRESS):
        self._most = of_an_address
        self._begun: Dict[str, float] = {}
        self._counts: Dict[str, int] = {}

    def is_full(self, host: str) -> bool:
        """Whether no more tokens of an address are checked for now."""
        if time.monotonic() >= self._begun.get(host, 0.0) + SECONDS_OF_A_COUNT:
            self._begun.pop(host, None)
            self._counts.pop(host, None)
        return self._counts.get(host, 0) >= self._most

    def add(self, host: str) -> None:
        """Counts a wrong one. Beyond MAX_HOSTS addresses, counts older than ten seconds are dropped."""
        now = time.monotonic()
        if len(self._begun) > MAX_HOSTS:
            self._begun = {each: begun for each, begun in self._begun.items() if now < begun + SECONDS_OF_A_COUNT}
            self._counts = {each: self._counts[each] for each in self._begun}
        self._begun.setdefault(host, now)
        self._counts[host] = self._counts.get(host, 0) + 1


class Whose(NamedTuple):
    """The user or the address whose connections were closed."""

    user: Optional[str] = None
    host: Optional[str] = None


@dataclass(frozen=True)
class Closed:
    """How many connections were closed within so many seconds."""

    whose: Whose
    count: int
    seconds: int

    def text(self) -> str:
        return f"{self.whose.user or self.whose.host}: {self.count} closed in {self.seconds} s"


class Closings:
    """The connections that were closed because there were too many, counted for ten seconds from the first one on."""

    def __init__(self) -> None:
        self.total = 0
        self._begun: Dict[Whose, float] = {}
        self._counts: Dict[Whose, int] = {}

    def add(self, whose: Whose) -> None:
        """Counts one."""
        self.total += 1
        self._begun.setdefault(whose, time.monotonic())
        self._counts[whose] = self._counts.get(whose, 0) + 1

    def counts(self) -> Iterator[Closed]:
        """The counts as they are now."""
        now = time.monotonic()
        for whose, begun in self._begun.items():
            seconds = min(max(math.ceil(now - begun), 1), round(SECONDS_OF_A_COUNT))
            yield Closed(whose, self._counts[whose], seconds)

    def take_ended(self) -> List[Closed]:
        """Removes and returns the counts whose ten seconds are over. The next closed connection begins a new count."""
        now = time.monotonic()
        ended = [each for each in self.counts() if now - self._begun[each.whose] >= SECONDS_OF_A_COUNT]
        for each in ended:
            del self._begun[each.whose], self._counts[each.whose]
        return ended
