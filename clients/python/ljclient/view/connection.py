"""The connection of pages: one thread uses the user, so that the event loop that serves pages never waits for the user."""
from __future__ import annotations

import asyncio
import contextlib
import queue
import threading
from typing import Any, Callable, ContextManager, Optional, Tuple, TypeVar, cast

from ..user import User

OpenUser = Callable[[], User]
Act = Callable[[User], Any]
Told = TypeVar("Told")
PATIENCE = 10.0


class Connection:
    """A user's connection, which makes one call after the other, in a thread of its own.

    open_user  opens the connection, and may block
    patience   after how many seconds without a call the connection is closed. The next call opens another one. None: sessions
               end with the connection, so it stays open until `close`
    whole      makes the context manager of each call. The default does nothing

    Create it within a running event loop. Only coroutines of this loop may use it.
    """

    def __init__(
        self, open_user: OpenUser, patience: Optional[float] = None, whole: Callable[[], ContextManager[Any]] = contextlib.nullcontext
    ):
        self._open_user = open_user
        self._patience = patience
        self._whole = whole
        self._user: Optional[User] = None
        self._loop = asyncio.get_running_loop()
        self._ended = self._loop.create_future()
        self._acts: "queue.SimpleQueue[Optional[Tuple[Act, asyncio.Future[Any]]]]" = queue.SimpleQueue()
        threading.Thread(target=self._work, daemon=True).start()

    @property
    def is_open(self) -> bool:
        """Whether the user is connected."""
        return self._user is not None and not self._user.closed

    async def do(self, act: Callable[[User], Told]) -> Told:
        """The result of a call with the user. What the call raises is raised here."""
        future: "asyncio.Future[Any]" = self._loop.create_future()
        self._acts.put((act, future))
        return cast(Told, await future)

    async def close(self) -> None:
        """Ends the connection after all earlier calls."""
        self._acts.put(None)
        await self._ended

    def _work(self) -> None:
        """Makes the calls until the end."""
        while (asked := self._next()) is not None:
            self._do(*asked)
        self._leave()
        self._tell(self._ended, None, None)

    def _next(self) -> "Optional[Tuple[Act, asyncio.Future[Any]]]":
        """The next call, or None at the end. If none comes within the patience, the connection is closed."""
        if self._patience is not None and self._user is not None:
            with contextlib.suppress(queue.Empty):
                return self._acts.get(timeout=self._patience)
            self._leave()
        return self._acts.get()

    def _leave(self) -> None:
        """Closes the user, if there is one. Calls that come meanwhile wait for another connection."""
        user, self._user = self._user, None
        if user is not None:
            user.close()

    def _do(self, act: Act, future: "asyncio.Future[Any]") -> None:
        try:
            user = self._ready()
            with self._whole():
                told = act(user)
            self._tell(future, told, None)
        except Exception as error:
            self._tell(future, None, error)

    def _ready(self) -> User:
        """The user, over a new connection if there is none, or if it has ended and sessions outlast it."""
        if self._user is None or (self._patience is not None and self._user.closed):
            self._user = None
            self._user = self._open_user()
        return self._user

    def _tell(self, future: "asyncio.Future[Any]", told: Any, error: Optional[Exception]) -> None:
        """Passes a result or an error to the event loop, unless the loop has ended."""
        with contextlib.suppress(RuntimeError):
            self._loop.call_soon_threadsafe(_settle, future, told, error)


def _settle(future: "asyncio.Future[Any]", told: Any, error: Optional[Exception]) -> None:
    if future.done():
        return
    if error is None:
        future.set_result(told)
    else:
        future.set_exception(error)
