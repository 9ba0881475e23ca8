"""The open pages: how many there may be, and when the last one is closed."""
from __future__ import annotations

import asyncio
import contextlib
from typing import Any, Dict, Iterator, Optional

MAX_PAGES = 8
MAX_PAGES_OF_A_CLASS = 40
GOING_AWAY = 1001  # close code of a WebSocket whose server ends
GRACE_SECONDS = 2.0
END_SECONDS = 5.0
ADVICE = "Close one, and load this page again."


def counted(pages: int) -> str:
    """The number of pages, with its verb."""
    return "1 page is" if pages == 1 else f"{pages} pages are"


class Pages:
    """The WebSockets of the open pages. Create and use it within a running event loop.

    most             how many pages there may be at once
    most_of_address  how many of them one address may have
    """

    def __init__(self, most: int, most_of_address: int) -> None:
        self._most = most
        self._most_of_address = most_of_address
        self._open: Dict[Any, str] = {}
        self._begun = 0
        self._none = asyncio.Event()

    @contextlib.contextmanager
    def one_more(self, socket: Any, address: str) -> Iterator[None]:
        """Counts a page of an address for as long as it is open."""
        self._begun += 1
        self._open[socket] = address
        self._none.clear()
        try:
            yield
        finally:
            del self._open[socket]
            if not self._open:
                self._none.set()

    def refusal(self, address: str) -> Optional[str]:
        """Why an address may not open one more page, or None."""
        if len(self._open) >= self._most:
            return f"{counted(self._most)} open already, and no more may be. {ADVICE}"
        if list(self._open.values()).count(address) >= self._most_of_address:
            return f"{counted(self._most_of_address)} open already from your address, {address}, and no more may be. {ADVICE}"
        return None

    async def until_gone(self) -> None:
        """Waits until pages were opened and all are gone, for longer than a reload takes."""
        while True:
            await self._none.wait()
            begun = self._begun
            await asyncio.sleep(GRACE_SECONDS)
            if not self._open and self._begun == begun:
                return

    async def close(self) -> None:
        """Ends the connections of all pages, and waits until their sessions are released."""
        await asyncio.gather(*(socket.close(code=GOING_AWAY) for socket in self._open), return_exceptions=True)
        if self._open:
            with contextlib.suppress(asyncio.TimeoutError):
                await asyncio.wait_for(self._none.wait(), END_SECONDS)
