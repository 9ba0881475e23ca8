"""A client within this process, which shares its user with the client that is in over the network.

Its commands form transactions: each is done between two commands of the other client, and its changes are written together, so that
after any end either all or none are kept. A thread of its own speaks the protocol over a pair of sockets, without a HELLO.
"""
from __future__ import annotations

import asyncio
import contextlib
import socket
from typing import TYPE_CHECKING, Any, Coroutine, Iterator, Optional, Tuple

from .items import Item, ItemReader
from .receiving import Receiver

if TYPE_CHECKING:
    from .ends import Client
    from .user import User

# The front's own connection keeps to the server's limit.
NO_LIMIT = 1 << 62


class LocalClient(Receiver):
    """A client within this process. `behind` is the client that was in when the transaction was asked for, and how many bytes of
    items it had sent: these are done first. `has_changed` is whether others have changed something since the last transaction, and
    `is_typed` whether its commands were typed."""

    def __init__(self, user: User):
        self._user, self._loop = user, asyncio.get_running_loop()
        self._reader = ItemReader(NO_LIMIT)
        self._next: Optional[Item] = None
        self._transport: asyncio.Transport
        self._turn: Optional["asyncio.Future[None]"] = None
        self._end: Optional["asyncio.Future[None]"] = None
        self.behind: Tuple[Optional[Client], int] = (None, 0)
        self.is_lost = self.is_over = self.has_changed = self.is_typed = False
        self.number = user.number

    @classmethod
    async def begun(cls, user: User) -> Tuple[LocalClient, socket.socket]:
        """A client of a user, and the socket that its thread uses."""
        here, there = socket.socketpair()
        client = cls(user)
        await client._loop.create_connection(lambda: client, sock=here)
        user.locals.add(client)
        return client, there

    # Called by its thread.

    @contextlib.contextmanager
    def transaction(self) -> Iterator[bool]:
        """Makes a transaction of the commands within. It begins at its turn, and ends when all is written. Yields whether others
        have changed something since the last one. Raises ConnectionError if the user is no longer let in."""
        self._wait(self._begin())
        try:
            yield self.has_changed
        finally:
            self._wait(self._finish())

    def _wait(self, work: Coroutine[Any, Any, None]) -> None:
        asyncio.run_coroutine_threadsafe(work, self._loop).result()

    # Called in its loop.

    async def _begin(self) -> None:
        self._turn = turn = self._loop.create_future()
        if self.is_lost:
            raise ConnectionError("the connection has ended")
        self._user.ask_for_turn(self)
        await turn

    async def _finish(self) -> None:
        if self.is_lost:
            raise ConnectionError("the connection has ended")
        if self._user.local is self:
            self.is_over, self._end = True, self._loop.create_future()
            self._user.go_on()
            await self._end

    @property
    def waits(self) -> bool:
        """Whether it has asked for a transaction that has not begun."""
        return self._turn is not None

    def begin(self, number: int) -> None:
        """Begins its transaction, after record `number` of its user."""
        assert self._turn is not None
        self.has_changed, self.is_over = number != self.number, False
        turn, self._turn = self._turn, None
        if not turn.done():
            turn.set_result(None)

    def has_ended(self) -> bool:
        """Whether all items of its transaction were taken."""
        self._next = self._next or self._reader.next()
        return self.is_lost or self.is_over and self._next is None

    def end(self, number: int) -> None:
        """Ends its transaction, after record `number` of its user."""
        self.number = number

    def note_written(self) -> None:
        """Notes that its transaction is kept."""
        if self._end is not None and not self._end.done():
            self._end.set_result(None)

    def next_item(self) -> Optional[Item]:
        """The next item of its transaction, if it is whole."""
        item, self._next = self._next or self._reader.next(), None
        return None if self.is_lost else item

    def tell(self, replies: bytes) -> None:
        if not self.is_lost:
            self._transport.write(replies)

    def abort(self, why: str) -> None:
        """Ends it, since its user is no longer let in."""
        self.is_lost = True
        for future in (self._turn, self._end):
            if future is not None and not future.done():
                future.set_exception(ConnectionError(why))
        self._transport.abort()

    # Events.

    def connection_made(self, transport: asyncio.BaseTransport) -> None:
        assert isinstance(transport, asyncio.Transport)
        self._transport = transport

    def data_received(self, data: bytes) -> None:
        self._reader.feed(data)
        if self._user.local is self:
            self._user.go_on()
        elif (item := self._reader.next()) is not None:
            # Its thread says BYE.
            self.tell(item.last_reply)
            self._transport.close()

    def connection_lost(self, error: Optional[Exception]) -> None:
        self.is_lost = True
        self._user.locals.discard(self)
        self._user.go_on()
