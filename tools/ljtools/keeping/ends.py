"""The connections of a front: of a client, of a user to the server, and of a client to another front."""
from __future__ import annotations

import asyncio
from typing import TYPE_CHECKING, Optional

from ..proxy_header import NotWhole, source_of_bytes
from ..watching import address_of, prepare, written
from .accounts import DENIED
from .items import MAX_BODY, MAX_ITEMS, MAX_LINE, Item, ItemReader, ReplyReader, words_of
from .receiving import Receiver

if TYPE_CHECKING:
    from .front import Front
    from .hosts import Seat
    from .place import Owner
    from .server import Server
    from .user import User

SECONDS_FOR_HELLO = 30.0
SECONDS_AFTER_END = 1.0
SECONDS_TO_READ = 10.0
# Sent by a check of the front, which is denied, or closed without a byte if no server answers.
CHECK = (b"HELLO", b"-", b"-")
MAX_BYTES_WAITING = MAX_BODY + MAX_LINE + 1


class Client(Receiver):
    """The connection of a client, from its first line on."""

    def __init__(self, front: Front):
        self._front = front
        self._transport: asyncio.Transport
        self._reader = ItemReader()
        self._next: Optional[Item] = None
        self._first = self._header = b""
        self._has_header = front.has_header
        self._is_over = self._has_sent_all = False
        self._is_paused = self.is_lost = self.is_left_out = False
        self.user: Optional[User] = None
        self.passed: Optional[Passed] = None
        self.is_full = False

    # Events.

    def connection_made(self, transport: asyncio.BaseTransport) -> None:
        assert isinstance(transport, asyncio.Transport)
        self._transport = transport
        prepare(transport.get_extra_info("socket"))
        self.seen = self._front.new_connection(written(transport.get_extra_info("peername")))
        self._timer = asyncio.get_running_loop().call_later(self._front.seconds_for_hello or SECONDS_FOR_HELLO, self.abort)
        self._front.begins(self)

    def data_received(self, data: bytes) -> None:
        if self._is_over:
            return
        if self.passed is not None:
            self.passed.transport.write(data)
        elif self.user is None:
            self._first += data
            self._hear_first()
        else:
            self._hear(data)
            self.user.go_on()

    def _hear(self, data: bytes) -> None:
        """Takes bytes. Reading pauses when more bytes wait than an item may have."""
        if self._reader.feed(data) > MAX_BYTES_WAITING and not self._is_paused:
            self._is_paused = True
            self._transport.pause_reading()

    def _hear_first(self) -> None:
        """Takes the PROXY header and the first line, when they are whole."""
        if self._has_header and not self._takes_header():
            return
        line, end, _ = self._first.partition(b"\n")
        if not end and len(line) <= MAX_LINE:
            return
        self._timer.cancel()
        self.seen.hear_client(line + b"\n")
        name = self._front.name_of(line) if end else None
        if name is not None:
            self._front.find(name, self)
        elif words_of(line) == CHECK:
            self._front.leaves_out(self)
            self.deny() if self._front.is_well() else self.abort()
        else:
            self.deny()

    def enter(self, user: User) -> None:
        """Assigns it to its user."""
        self.user = user
        rest, self._first = self._first.partition(b"\n")[2], b""
        self.read_on()
        self._hear(rest)
        user.enter(self)

    def wait(self) -> None:
        """Reads no more for now."""
        self._transport.pause_reading()

    def read_on(self) -> None:
        self._transport.resume_reading()

    async def pass_on(self, owner: Owner, seconds: float) -> None:
        """Passes it to another front. Raises OSError or `asyncio.TimeoutError` if the front is not reached."""
        header = (self._header or b"PROXY UNKNOWN\r\n") if owner.has_header else b""
        passed = Passed(self, header + self._first)
        await asyncio.wait_for(asyncio.get_running_loop().create_connection(lambda: passed, *address_of(owner.address)), seconds)
        if self.is_lost:
            passed.transport.abort()
        else:
            self.passed, self._first = passed, b""
            self.read_on()
            self._front.leaves_out(self)

    def _takes_header(self) -> bool:
        """Removes the header if it is whole. A connection without one is closed."""
        try:
            source, rest = source_of_bytes(self._first)
        except NotWhole:
            return False
        except ValueError as error:
            self.seen.refusal = f"no PROXY header: {error}"
            self.abort()
            return False
        self._header, self._first = self._first[: len(self._first) - len(rest)], rest
        self._has_header = False
        self.seen.origin = source or self.seen.origin
        return True

    def eof_received(self) -> bool:
        """Notes that the client sends no more. If it waits and sent only its first line, it is closed."""
        self._has_sent_all = self.seen.is_gone = True
        if self.passed is not None:
            self.passed.transport.write_eof()
            return True
        is_waiting = self.user is not None and self in self.user.waiting
        if self.user is None or self._is_over or is_waiting and not self._reader.held:
            self._close()
        else:
            self.user.go_on()
        # TLS has no half-close.
        return self._transport.can_write_eof()

    def connection_lost(self, error: Optional[Exception]) -> None:
        self._timer.cancel()
        self.is_lost, self.is_full = True, False
        self._reader.end()
        self._next = None
        if self.passed is not None:
            self.passed.transport.abort() if error else self.passed.transport.close()
        if self.user is not None:
            self.user.leave(self)
        self._front.ends(self)

    def pause_writing(self) -> None:
        self._be_full(True)

    def resume_writing(self) -> None:
        self._be_full(False)

    def _be_full(self, is_full: bool) -> None:
        """Notes whether it takes no more replies for now."""
        self.is_full = is_full
        if self.passed is not None:
            (self.passed.transport.pause_reading if is_full else self.passed.transport.resume_reading)()
        if self.user is not None:
            self.user.go_on()

    # Called by its user.

    def next_item(self) -> Optional[Item]:
        """The next item, if it is whole."""
        item, self._next = self._next or self._reader.next(), None
        if self._is_paused and self._reader.held <= MAX_BYTES_WAITING:
            self._is_paused = False
            self._transport.resume_reading()
        return item

    def position(self) -> int:
        """How many bytes of items have come."""
        return self._reader.taken + self._reader.held

    def has_item_before(self, position: int) -> bool:
        """Whether the next item ends within the first `position` bytes."""
        self._next = self._next or self._reader.next()
        return self._next is not None and self._reader.taken <= position

    def take_no_more(self) -> None:
        """Takes no more items, so that the connection ends after the last reply."""
        self._reader.end()

    def has_ended(self) -> bool:
        """Whether no more items will come."""
        if not (self._has_sent_all or self._reader.has_ended):
            return False
        self._next = self._next or self._reader.next()
        return self._next is None

    def let_in(self) -> None:
        self.tell(b"OK HELLO %s\n" % self.user.name.encode() if self.user else b"")
        self._front.note_let_in(self)

    def tell(self, replies: bytes) -> None:
        if not self.is_lost:
            if not self.is_left_out:
                self.seen.hear_server(replies)
            self._transport.write(replies)

    def deny(self) -> None:
        self.tell(DENIED)
        self.finish()

    def finish(self) -> None:
        """Ends the connection after its replies, without those that are not read in ten seconds. Bytes that still come are read for
        a second, so that the last reply is not lost."""
        if self.is_lost or self._is_over:
            return
        self._is_over = True
        self._timer = asyncio.get_running_loop().call_later(SECONDS_TO_READ, self._transport.abort)
        if self._has_sent_all:
            self._close()
            return
        if self._transport.can_write_eof():
            self._transport.write_eof()
        if self._is_paused:
            self._transport.resume_reading()
        asyncio.get_running_loop().call_later(SECONDS_AFTER_END, self._close)

    def _close(self) -> None:
        """Closes it once: a TLS transport that is closed twice cannot be aborted."""
        if not self._transport.is_closing():
            self._transport.close()

    def turn_away(self) -> None:
        """Ends the connection at once, since there are too many."""
        self._front.turns_away(self)
        self.abort()

    def abort(self) -> None:
        """Ends the connection at once."""
        self._is_over = True
        self._transport.abort()


class Passed(Receiver):
    """The connection of a client to the front that has its user. All bytes pass unchanged."""

    def __init__(self, client: Client, first: bytes):
        self._client, self._first = client, first
        self.transport: asyncio.Transport

    def connection_made(self, transport: asyncio.BaseTransport) -> None:
        assert isinstance(transport, asyncio.Transport)
        self.transport = transport
        prepare(transport.get_extra_info("socket"))
        transport.write(self._first)

    def data_received(self, data: bytes) -> None:
        self._client.tell(data)

    def eof_received(self) -> bool:
        self._client.finish()
        return True

    def connection_lost(self, error: Optional[Exception]) -> None:
        self._client.abort() if error else self._client.finish()

    def pause_writing(self) -> None:
        self._client.wait()

    def resume_writing(self) -> None:
        self._client.read_on()


class Link(Receiver):
    """The connection of a user to the server, from its first line on. `left` is how many items it may still send, one less than
    the server allows: the server would end it at the last one."""

    most_items = MAX_ITEMS - 1

    def __init__(self, user: User, seat: Seat, server: Server, is_new: bool):
        self.user, self.seat, self.server, self.is_new = user, seat, server, is_new
        self.left = self.most_items
        self._reader = ReplyReader()
        self._transport: asyncio.Transport
        self._is_in = self._is_closed = self.is_held = False

    def connection_made(self, transport: asyncio.BaseTransport) -> None:
        assert isinstance(transport, asyncio.Transport)
        self._transport = transport
        transport.write(self.server.hello(self.seat.name))

    def data_received(self, data: bytes) -> None:
        if self._is_closed:
            return
        replies = self._reader.feed(data)
        if not self._is_in and replies:
            self._begin(replies.pop(0))
        if replies and not self._is_closed:
            self.user.hear(replies)

    def _begin(self, reply: bytes) -> None:
        if self.user.seat is not self.seat:
            self.close()
            return
        if reply != b"OK HELLO %s\n" % self.seat.name.encode():
            self.seat.host.link_is_lost(self, False)
            return
        self._is_in = True
        self.user.begin(self, self.is_new)

    def connection_lost(self, error: Optional[Exception]) -> None:
        if not self._is_closed:
            self._is_closed = True
            self.seat.host.link_is_lost(self, not self._is_in)

    def send(self, items: bytes) -> None:
        self._transport.write(items)

    def hold(self, is_held: bool) -> None:
        """Stops reading replies while they cannot be sent on, or reads on. `is_held` must change."""
        if not self._is_closed:
            self.is_held = is_held
            (self._transport.pause_reading if is_held else self._transport.resume_reading)()

    def close(self) -> None:
        self._is_closed = True
        self._transport.close()
