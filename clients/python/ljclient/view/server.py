"""Serves the page with aiohttp, and answers each open page.

A page is open as long as its WebSocket is. The path of each request contains the secret of the link, so no other account of this
machine can request anything. Host and Origin must match this address, so neither can pages of other sites.
"""
from __future__ import annotations

import asyncio
import contextlib
import importlib
import itertools
import json
import signal
from pathlib import Path
from typing import Any, Callable, Dict, Optional, Sequence, Tuple

from .access import Access
from .conversation import converse
from .idle import SECONDS, Impatient
from .pages import END_SECONDS, MAX_PAGES, MAX_PAGES_OF_A_CLASS, Pages
from .talk import Choice, Talk
from .users import Users

# A module that may be missing is imported by its name, so that types are the same whether it is installed or not.
web: Any = importlib.import_module("aiohttp.web")

FOLDER = Path(__file__).parent / "page"
TYPES = {".html": "text/html", ".css": "text/css", ".js": "text/javascript", ".svg": "image/svg+xml"}
FILES: Dict[str, Tuple[str, str]] = {
    "" if path.name == "page.html" else path.name: (path.name, TYPES[path.suffix])
    for path in sorted(FOLDER.iterdir())
    if path.suffix in TYPES
}
SESSION = "session"
MAX_MESSAGE = 1 << 16
NONE = "'none'"
FAREWELL_SECONDS = 2.0
SIGNALS = [getattr(signal, name) for name in ("SIGINT", "SIGTERM", "SIGHUP") if hasattr(signal, name)]
# A page may load the files of this server, and nothing else.
POLICY = "; ".join(
    [f"{kind}-src 'self'" for kind in ("script", "style", "img")]
    + [f"{kind} 'none'" for kind in ("default-src", "base-uri", "form-action")]
)


class Server:
    """The server of the page. If others may open the page, it runs until it is ended.

    pages_of_an_address  how many pages one address may have
    has_come             is called whenever a browser has requested a file of the page
    framed_by            the origin whose pages may show it in a frame, if any may
    """

    def __init__(
        self,
        access: Access,
        choice: Choice,
        users: Users,
        pages_of_an_address: int,
        has_come: Callable[[], None],
        framed_by: Optional[str] = None,
    ):
        self._access = access
        self._choice = choice
        self._users = users
        self._pages_of_an_address = pages_of_an_address
        self._has_come = has_come
        self._framed_by = framed_by
        self._numbers = itertools.count(1)
        self._pages: Pages
        self._protocols: Impatient

    def run(self) -> None:
        """Serves until all pages are gone, or until an interrupt from the keyboard."""
        asyncio.run(self._serve())

    async def _serve(self) -> None:
        self._pages = Pages(MAX_PAGES_OF_A_CLASS if self._access.is_open else MAX_PAGES, self._pages_of_an_address)
        server = web.Server(self._answer, access_log=None, keepalive_timeout=SECONDS)
        self._protocols = Impatient(server)
        listening = await asyncio.get_running_loop().create_server(self._protocols, sock=self._access.listener)
        try:
            await (until_signalled() if self._access.is_open else first_of(self._pages.until_gone(), until_signalled()))
        finally:
            await self._pages.close()
            await self._users.close()
            listening.close()
            with contextlib.suppress(asyncio.TimeoutError):
                await asyncio.wait_for(server.shutdown(END_SECONDS), END_SECONDS)
            ignore_signals()

    async def _answer(self, request: Any) -> Any:
        """A file of the page, or the page's session."""
        self._protocols.keep(request.protocol)
        path, host = self._access.path_of(request.path), request.headers.get("Host", "")
        if (refused := self._access.refusal(host, request.headers.get("Origin"), path == SESSION)) is not None:
            return said(403, refused)
        if path == SESSION:
            return await self._begun(request)
        if path not in FILES:
            return said(404, "there is no such page: the link to the live view stands at the terminal where it was begun")
        self._has_come()
        name, kind = FILES[path]
        return told(200, kind, (FOLDER / name).read_bytes(), self._access.sockets(host), self._framed_by)

    async def _begun(self, request: Any) -> Any:
        """Accepts a WebSocket, and answers the page until it is gone."""
        page = web.WebSocketResponse(max_msg_size=MAX_MESSAGE, compress=False, timeout=FAREWELL_SECONDS)
        if not page.can_prepare(request):
            return said(400, "a session is asked for by a WebSocket")
        await page.prepare(request)
        address = str(request.remote)
        if (refused := self._pages.refusal(address)) is not None:
            await refuse(page, refused)
            return page
        with self._pages.one_more(page, address):
            await self._play(page)
        return page

    async def _play(self, page: Any) -> None:
        """Answers the messages of a page in turn. A page that is closed meanwhile is no error."""
        talk = Talk(self._choice, next(self._numbers))
        connection = self._users.enter()
        try:
            with contextlib.suppress(ConnectionError):
                await converse(Messages(page), connection, talk, self._users)
        finally:
            await self._users.leave(connection, talk)


async def refuse(page: Any, why: str) -> None:
    """Sends a page the reason of a refusal, and closes it. A page could not read it in an HTTP response."""
    with contextlib.suppress(ConnectionError):
        await Messages(page).tell(json.dumps({"error": why}))
    await page.close()


def said(status: int, text: str) -> Any:
    """A response of plain text."""
    return told(status, "text/plain", text.encode(), ())


def told(status: int, kind: str, body: bytes, sockets: Sequence[str], framed_by: Optional[str] = None) -> Any:
    """A response with a file. It may connect to `sockets`, and pages of `framed_by` may show it in a frame."""
    headers = {
        "Content-Type": f"{kind}; charset=utf-8",
        "Content-Security-Policy": f"{POLICY}; frame-ancestors {framed_by or NONE}; connect-src {' '.join(sockets) or NONE}",
        "X-Content-Type-Options": "nosniff",
        "Referrer-Policy": "no-referrer",
        "Cache-Control": "no-store",
    }
    return web.Response(status=status, body=body, headers=headers)


class Messages:
    """The text messages of a page, until it is gone."""

    def __init__(self, page: Any):
        self._page = page

    async def tell(self, text: str) -> None:
        """Sends a message. ConnectionError if the page is gone."""
        await self._page.send_str(text)

    async def heard(self) -> Optional[str]:
        """The next message, or None if the page is gone."""
        message = await self._page.receive()
        return str(message.data) if message.type is web.WSMsgType.TEXT else None


async def first_of(*things: Any) -> None:
    """Waits for the first of several awaitables, and cancels the others."""
    tasks = [asyncio.ensure_future(thing) for thing in things]
    try:
        await asyncio.wait(tasks, return_when=asyncio.FIRST_COMPLETED)
    finally:
        for task in tasks:
            task.cancel()


async def until_signalled() -> None:
    """Waits for SIGINT, SIGTERM or SIGHUP. A signal that is ignored, as under nohup, stays ignored."""
    signalled = asyncio.Event()
    loop = asyncio.get_running_loop()
    for number in SIGNALS:
        if signal.getsignal(number) is not signal.SIG_IGN:
            with contextlib.suppress(NotImplementedError):
                loop.add_signal_handler(number, signalled.set)
    await signalled.wait()


def ignore_signals() -> None:
    """Ignores further signals: one that came while asyncio closes its loop would be written to a closed file."""
    loop = asyncio.get_running_loop()
    for number in SIGNALS:
        with contextlib.suppress(NotImplementedError):
            if loop.remove_signal_handler(number):
                signal.signal(number, signal.SIG_IGN)
