"""Idle connections, which are closed after a while, so that they do not use up the view's descriptors."""
from __future__ import annotations

import asyncio
from typing import Any, Dict

SECONDS = 10.0


class Impatient:
    """Makes the protocols of connections, and ends each connection that sends no whole request within `seconds`.

    server   the server of aiohttp, which makes the protocols. Between two requests its own limit applies, `keepalive_timeout`
    seconds  from the beginning of the connection, however many bytes come meanwhile
    """

    def __init__(self, server: Any, seconds: float = SECONDS):
        self._server = server
        self._seconds = seconds
        self._timers: Dict[Any, asyncio.TimerHandle] = {}

    def __call__(self) -> Any:
        protocol = self._server()
        self._timers[protocol] = asyncio.get_running_loop().call_later(self._seconds, self._let_go, protocol)
        return protocol

    def keep(self, protocol: Any) -> None:
        """Keeps a connection, since it has sent a whole request."""
        if (timer := self._timers.pop(protocol, None)) is not None:
            timer.cancel()

    def _let_go(self, protocol: Any) -> None:
        del self._timers[protocol]
        protocol.force_close()
