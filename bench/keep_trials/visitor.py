"""A user with random commands; each reply is compared with an account."""
import contextlib
import random
import socket
import struct
import sys
import threading
import time
from typing import List, Optional, Protocol, Sequence

from keep_trials.account import QUESTIONS, Account, Wrong
from keep_trials.keeper import SECONDS, TOP, Quota

sys.path += [str(TOP / "tools"), str(TOP / "conformance")]
from chance import Chance, bounded  # noqa: E402
from ljtools.keeping.items import ItemReader, ReplyReader  # noqa: E402

MOST_STEPS = 25
MOST_ATOMS = 5
MOST_AT_ONCE = 20


def quota_of(seed: str, name: str) -> Quota:
    """The quota of a user, which every second user shares."""
    quota: Quota = Chance(f"{seed} {int(name[-1]) % 2}").quota
    return quota


class Entrance(Protocol):
    """Where a visitor connects."""

    def raw(self, name: str) -> socket.socket:
        """A connection that has sent its HELLO."""

    def is_ready(self) -> bool:
        """Whether a visitor is let in at once."""


class Visitor(threading.Thread):
    """Visits a front until it is ended. `breaks` is the probability, per round, of breaking off its connection."""

    def __init__(self, entrance: Entrance, name: str, seed: str, breaks: float, may_be_cut: bool):
        super().__init__(daemon=True)
        self.entrance, self.name, self.breaks, self.may_be_cut = entrance, name, breaks, may_be_cut
        self.fault: Optional[BaseException] = None
        self.is_to_end = False
        self.commands = self.checks = self.connections = 0
        self._rnd = random.Random(f"{seed} {name}")
        self._chance = Chance(f"{seed} {name}")
        self._chance.most_atoms = MOST_ATOMS
        self._account = Account(quota_of(seed, name))

    def run(self) -> None:
        try:
            self._ask_in_new_connection(QUESTIONS)
            while not self.is_to_end:
                self._visit()
            self._ask_in_new_connection(QUESTIONS)
        except BaseException as fault:
            self.fault = fault

    def items(self) -> List[bytes]:
        """Some random items, none of which ends the connection."""
        rnd, weights = self._rnd, self._chance.weights
        kinds = rnd.choices([*weights], [*weights.values()], k=rnd.choice((1, 1, 2, 5, MOST_AT_ONCE)))
        sent = bounded("".join(kind() for kind in kinds).encode("latin-1"), MOST_STEPS)
        reader = ItemReader()
        reader.feed(sent)
        return [each.raw for each in iter(reader.next, None) if not each.last_reply]

    def _visit(self) -> None:
        """A connection with some rounds of items. If it ends too early, the next one asks what was done."""
        try:
            with self._joined() as stream:
                for _ in range(self._rnd.randrange(1, 30)):
                    if self._rnd.random() < self.breaks:
                        self._break_off(stream)
                        return
                    self._ask(stream, self.items())
                    if self.is_to_end:
                        break
                self._ask(stream, [b"BYE\n"])
        except (OSError, EOFError):
            if not self.may_be_cut:
                raise
            self._ask_in_new_connection(QUESTIONS)

    def _break_off(self, stream: socket.socket) -> None:
        """Sends items, reads some of the replies, and closes or resets the connection."""
        items = self.items()
        heard = self._rnd.randrange(len(items) + 1)
        stream.sendall(b"".join(items))
        self._hear(stream, items[:heard], items[heard:])
        if self._rnd.random() < 0.5:
            stream.setsockopt(socket.SOL_SOCKET, socket.SO_LINGER, struct.pack("ii", 1, 0))
        stream.close()
        self._ask_in_new_connection(QUESTIONS)

    def _ask_in_new_connection(self, items: Sequence[bytes]) -> None:
        """Asks for the user's state in new connections, until one gets all replies."""
        while True:
            with contextlib.suppress(OSError, EOFError), self._joined() as stream:
                self._ask(stream, items)
                self.checks += 1
                return

    def _joined(self) -> socket.socket:
        """A connection that was let in."""
        end = time.monotonic() + SECONDS
        while time.monotonic() < end:
            try:
                stream = self.entrance.raw(self.name)
            except OSError:
                time.sleep(0.02)
                continue
            if (line := first_line(stream)) == f"OK HELLO {self.name}\n".encode():
                self.connections += 1
                return stream
            stream.close()
            if line:
                raise Wrong(f"{line!r} to HELLO {self.name}")
        raise Wrong("nobody lets it in")

    def _ask(self, stream: socket.socket, items: Sequence[bytes]) -> None:
        try:
            stream.sendall(b"".join(items))
        except OSError:
            self._account.lose(items)
            raise
        self._hear(stream, items)

    def _hear(self, stream: socket.socket, items: Sequence[bytes], more: Sequence[bytes] = ()) -> None:
        """Reads the replies to items. Unread replies, and those to the `more` items sent after, are lost."""
        reader, left = ReplyReader(), list(items)
        try:
            while left:
                data = stream.recv(1 << 16)
                if not data:
                    raise EOFError
                self._take(left, reader.feed(data))
        finally:
            self._account.lose([*left, *more])

    def _take(self, left: List[bytes], replies: Sequence[bytes]) -> None:
        """Takes replies to the first of the items that are left, and removes these items."""
        for reply in replies[: len(left)]:
            self._account.hear(left.pop(0), reply)
            self.commands += 1

    def end(self) -> None:
        """Ends it. Raises the fault that it found."""
        self.is_to_end = True
        self.join(SECONDS)
        if self.fault:
            raise self.fault
        if self.is_alive():
            raise TimeoutError(f"{self.name} does not end")


def first_line(stream: socket.socket) -> bytes:
    """The first line, read byte by byte, or the part of it that arrives."""
    line = b""
    with contextlib.suppress(OSError):
        while not line.endswith(b"\n") and (byte := stream.recv(1)):
            line += byte
    return line
