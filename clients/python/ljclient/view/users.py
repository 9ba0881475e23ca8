"""Whose sessions pages show: those of a program for each page, or of one user at a server for all pages."""
from __future__ import annotations

import asyncio
import contextlib
import socket
import sys
from dataclasses import dataclass
from typing import Awaitable, List, Optional, Protocol, Set

from .. import ClientError, User
from ..transport import Transport
from ..errors import TimedOut
from ..files import Path
from ..tokens import fault_of, without_blanks
from ..connecting import joined, transport_opener
from .addresses import Address
from .connection import PATIENCE, Connection, OpenUser
from .talk import Talk
from .wishes import Answer

SECONDS = 600.0
SECONDS_OF_A_TRY = 2.0
SECONDS_OF_A_CONNECTION = 15.0


class NoToken(ClientError):
    """The user's token is not known yet."""


class Beside(Protocol):
    """What is known besides the connection of a page."""

    def waits(self) -> Optional[str]:
        """What a page waits for that has had no answer for a while, or None."""

    async def end(self) -> Optional[str]:
        """What has ended together with the connection, so that no button of a page works any more, or None."""


class Users(Beside, Protocol):
    """Where the sessions of pages are."""

    def enter(self) -> Connection:
        """The connection for one more page."""

    async def leave(self, connection: Connection, talk: Talk) -> None:
        """Releases a page that is gone."""

    async def close(self) -> None:
        """Releases all pages."""


class Programs:
    """Each page has a program of its own. Its sessions end with the program."""

    def __init__(self, open_user: OpenUser):
        self._open_user = open_user

    def enter(self) -> Connection:
        return Connection(self._open_user)

    async def leave(self, connection: Connection, talk: Talk) -> None:
        await connection.close()

    async def close(self) -> None:
        """Nothing is left to close."""

    def waits(self) -> Optional[str]:
        return None

    async def end(self) -> Optional[str]:
        return "The program has ended. Load this page again"


@dataclass
class Account:
    """A user at a server.

    address     where the server listens
    name        of the user
    token       if it is known
    tls, ca     as in `ljclient.connect`, and so is `fingerprint`
    is_reached  whether the server was reached, over TLS if requested, and has not let the user in yet
    """

    address: Address
    name: str
    token: Optional[str] = None
    tls: bool = False
    ca: Optional[Path] = None
    fingerprint: Optional[str] = None
    is_reached: bool = False

    def open(self, seconds: float = SECONDS) -> User:
        """The user's connection. It waits for up to `seconds` if another one is open."""
        if self.token is None:
            raise NoToken(f"cannot connect: the token of {self.name} is missing; use --token-file FILE, or type it into the page")
        try:
            return joined(lambda _: self._transport(), self.name, self.token, seconds, str(self.address))
        finally:
            self.is_reached = False

    def _transport(self) -> Transport:
        """A connection to the server. Raises ClientError, which says what to do, if there is no server or it is not trusted."""
        transport = transport_opener(self.tls, self.ca, self.fingerprint)(*self.address, SECONDS_OF_A_CONNECTION)
        self.is_reached = True
        return transport

    def is_served(self) -> bool:
        """Whether a server may still listen there: False only if the connection is refused."""
        try:
            socket.create_connection((self.address.host, self.address.port), SECONDS_OF_A_TRY).close()
        except OSError as error:
            return not isinstance(error, ConnectionRefusedError)
        return True

    def take(self, token: object) -> Optional[str]:
        """Takes a typed token. Returns what is wrong with it, or None."""
        typed = without_blanks(token) if isinstance(token, str) else ""
        if (fault := fault_of(typed)) is None:
            self.token = typed
        return fault

    def asks(self, why: str) -> Answer:
        """The question for a page if the token is not known, or has the wrong form."""
        return {"asks": "token", "name": self.name, "why": why}

    def check(self) -> None:
        """Raises ClientError if there is no trusted server, or if it denies the token. Another open connection is not an error."""
        if self.token is None:
            self._transport().close()
            return
        with contextlib.suppress(TimedOut):
            self.open(SECONDS_OF_A_TRY).close()


class AtServer:
    """All pages share one connection of a user, which is closed if no page has requested anything for a while."""

    def __init__(self, account: Account):
        self.account = account
        self._connection: Optional[Connection] = None
        self._gone: List[Talk] = []
        self._tasks: Set["asyncio.Future[None]"] = set()
        self._pages = 0

    def enter(self) -> Connection:
        if self._connection is None:
            self._connection = Connection(self._open, PATIENCE)
        self._pages += 1
        return self._connection

    async def leave(self, connection: Connection, talk: Talk) -> None:
        """Deletes what was loaded and saved for the page: at once if the user is connected, else as soon as the user is."""
        self._pages -= 1
        self._gone.append(talk)
        if connection.is_open:
            await self._give_up_over(connection)
        if self._gone:
            task = asyncio.ensure_future(self._give_up_later(connection))
            self._tasks.add(task)
            task.add_done_callback(self._tasks.discard)

    async def close(self) -> None:
        """Deletes what pages have left at the server, if the user is connected soon, and disconnects. Prints what remains there."""
        if self._connection is None:
            return
        if self._gone and self.account.token is not None:
            await within(SECONDS_OF_A_TRY, self._give_up_over(self._connection))
        await within(SECONDS_OF_A_TRY, self._connection.close())
        left = sorted({what for talk in self._gone for what in talk.left()})
        if left and await self.end() is None:
            print(f"view: cannot give up {', '.join(left)}: {self._address} does not answer", file=sys.stderr)

    def waits(self) -> Optional[str]:
        if self._connection is None or self._connection.is_open:
            return None
        if not self.account.is_reached:
            return f"{self._address} has not answered yet. This page goes on when it has, or says what is wrong."
        name = self.account.name
        return f"{name} is in by another connection, such as a prompt or a notebook. This page goes on when that one has ended."

    async def end(self) -> Optional[str]:
        if await asyncio.to_thread(self.account.is_served):
            return None
        return f"The server at {self._address} has ended. Load this page again when it is back"

    @property
    def _address(self) -> str:
        return "{}:{}".format(*self.account.address)

    def _open(self) -> User:
        user = self.account.open()
        with contextlib.suppress(ClientError):
            self._give_up(user)
        return user

    async def _give_up_over(self, connection: Connection) -> None:
        """Deletes what closed pages have left, once the user is connected, if that is possible."""
        with contextlib.suppress(ClientError):
            await connection.do(self._give_up)

    async def _give_up_later(self, connection: Connection) -> None:
        """The same. If no page is left then, the user disconnects at once."""
        await self._give_up_over(connection)
        if connection.is_open and not self._pages:
            await connection.do(User.close)

    def _give_up(self, user: User) -> None:
        """Deletes what closed pages have left. If the connection ends meanwhile, the next one deletes the rest."""
        for talk in list(self._gone):
            talk.end(user)
            self._gone.remove(talk)


async def within(seconds: float, act: Awaitable[None]) -> None:
    """Waits for something, but for at most so many seconds."""
    with contextlib.suppress(asyncio.TimeoutError):
        await asyncio.wait_for(act, seconds)
