"""A WebSocket as a browser has one, whose calls wait: what the tests of a page and of a browser need of aiohttp."""
import asyncio
import unittest
from typing import Any

from support import SECONDS

try:
    import aiohttp
except ImportError:
    raise unittest.SkipTest("aiohttp is not installed") from None

MOST = 1 << 26
Refused = aiohttp.WSServerHandshakeError


class WebSocket:
    """Messages of text over a WebSocket, whose certificate may be anybody's. `Refused` with the status of HTTP if the server says no."""

    def __init__(self, url: Any, headers: Any = None) -> None:
        self._loop = asyncio.new_event_loop()
        self._session: Any = None
        try:
            self._socket = self._wait(self._connect(url, headers or {}))
        except BaseException:
            self._end()
            raise

    async def _connect(self, url: Any, headers: Any) -> Any:
        self._session = aiohttp.ClientSession(timeout=aiohttp.ClientTimeout(total=None, sock_connect=SECONDS, sock_read=SECONDS))
        return await self._session.ws_connect(url, headers=headers, max_msg_size=MOST, ssl=False)

    def _wait(self, what: Any) -> Any:
        return self._loop.run_until_complete(what)

    def send(self, text: Any) -> None:
        self._wait(self._socket.send_str(text))

    def receive(self) -> Any:
        """The next message, or None if there is none any more."""
        message = self._wait(self._socket.receive(timeout=SECONDS))
        return message.data if message.type is aiohttp.WSMsgType.TEXT else None

    def close(self) -> None:
        if not self._loop.is_closed():
            self._wait(self._socket.close())
            self._end()

    def reset(self) -> None:
        """Ends the connection as a machine does that is gone, without a word."""
        self._socket._response.connection.transport.abort()
        self._wait(self._session.close())
        self._loop.close()

    def _end(self) -> None:
        if self._session is not None:
            self._wait(self._session.close())
        self._loop.close()
