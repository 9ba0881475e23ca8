"""Serves the page that contains the program, as `bin/page` makes it: files, and two headers that browsers need to run it.

Each browser computes what it shows. So a class costs the machine that serves it nothing.
"""
from __future__ import annotations

import asyncio
import contextlib
import hashlib
from dataclasses import dataclass
from pathlib import Path
from typing import Any, Callable, Dict, Optional

from .. import ClientError
from .access import Access
from .idle import SECONDS, Impatient
from .pages import END_SECONDS
from .server import NONE, TYPES, ignore_signals, said, until_signalled, web

FIRST = "index.html"
# The files that each such page has. It may have others too.
NEEDED = (FIRST, "transport.js", "wasm64.wasm", "wasm32.wasm")
KINDS = {**{ending: f"{kind}; charset=utf-8" for ending, kind in TYPES.items()}, ".wasm": "application/wasm"}
# With the first two, threads of the page can share memory, for browsers whose WebAssembly has no promises.
HEADERS = {
    "Cross-Origin-Opener-Policy": "same-origin",
    "Cross-Origin-Embedder-Policy": "require-corp",
    "Cross-Origin-Resource-Policy": "same-origin",
    "X-Content-Type-Options": "nosniff",
    "Referrer-Policy": "no-referrer",
    "Cache-Control": "no-cache",
}


@dataclass(frozen=True)
class PageFile:
    """A file of the page: its kind, its bytes, and the tag by which a browser asks whether it has changed."""

    kind: str
    body: bytes
    tag: str


def files_of_page(folder: Path) -> Dict[str, PageFile]:
    """The files of a page by their paths, each read once.

    Raises ClientError, which says how to make a page, if the folder has none. Raises OSError if a file cannot be read.
    """
    for name in NEEDED:
        if not (folder / name).is_file():
            raise ClientError(
                f"cannot serve {folder}: it has no {name}, so it is not a page with the program; use `bin/page {folder}` of the repository"
            )
    paths = [path for path in sorted(folder.rglob("*")) if path.suffix in KINDS and path.is_file()]
    return {path.relative_to(folder).as_posix(): _page_file(path) for path in paths}


def _page_file(path: Path) -> PageFile:
    body = path.read_bytes()
    return PageFile(KINDS[path.suffix], body, f'"{hashlib.sha256(body).hexdigest()}"')


class StaticServer:
    """The server of the files of a page. It runs until it is ended.

    access     where the page is
    files      from `files_of_page`
    has_come   is called whenever a browser has requested a file
    framed_by  the origin whose pages may show it in a frame, if any may
    """

    def __init__(self, access: Access, files: Dict[str, PageFile], has_come: Callable[[], None], framed_by: Optional[str] = None):
        self._access = access
        self._headers = {**HEADERS, "Content-Security-Policy": f"frame-ancestors {framed_by or NONE}"}
        self._files = files
        self._has_come = has_come
        self._protocols: Impatient

    def run(self) -> None:
        """Serves until it is interrupted from the keyboard, or asked to end."""
        asyncio.run(self._serve())

    async def _serve(self) -> None:
        server = web.Server(self._answer, access_log=None, keepalive_timeout=SECONDS)
        self._protocols = Impatient(server)
        listening = await asyncio.get_running_loop().create_server(self._protocols, sock=self._access.listener)
        try:
            await until_signalled()
        finally:
            listening.close()
            with contextlib.suppress(asyncio.TimeoutError):
                await asyncio.wait_for(server.shutdown(END_SECONDS), END_SECONDS)
            ignore_signals()

    async def _answer(self, request: Any) -> Any:
        """A file of the page."""
        self._protocols.keep(request.protocol)
        path = self._access.path_of(request.path)
        if (refused := self._access.refusal(request.headers.get("Host", ""), None, False)) is not None:
            return said(403, refused)
        if request.method not in ("GET", "HEAD"):
            return said(405, "a file is asked for by GET")
        file = self._files.get(path or FIRST)
        if file is None:
            return said(404, "there is no such file of this page")
        self._has_come()
        headers = {**self._headers, "Content-Type": file.kind, "ETag": file.tag}
        if request.headers.get("If-None-Match") == file.tag:
            return web.Response(status=304, headers=headers)
        return web.Response(body=file.body, headers=headers)
