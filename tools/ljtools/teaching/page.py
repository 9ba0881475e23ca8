"""The HTTPS pages of a class: the page of a student, which is the live view's with a box for commands, and the wall.

A page is open for as long as its WebSocket is. The token of a link is in its fragment, which no browser sends. The page posts it once,
and gets a cookie in its place. Only pages of this address may post, or open a WebSocket.
"""
from __future__ import annotations

import asyncio
import contextlib
import importlib
import json
import pathlib
import re
import socket
import ssl
import time
from collections import Counter
from typing import TYPE_CHECKING, Any, Dict, List, NamedTuple, Optional, Set, Tuple

from ljclient.view import server as view
from ljclient.view.access import HOST
from ljclient.view.conversation import converse
from ljclient.view.idle import Impatient

from ..admission import SECONDS_FOR_FIRST_LINE, Denials, close_unanswered
from ..user_files import NAME
from ..watching import Connection, prepare, written
from .entrance import Entrance
from .posts import Posts
from .students import Student
from .wall_page import WallPage

if TYPE_CHECKING:
    from .lesson import ClassFront

# A module that may be missing is imported by its name, so that types are the same where it is installed and where not.
web: Any = importlib.import_module("aiohttp.web")

TOP = pathlib.Path(__file__).resolve().parents[3]
SHARED, OWN = TOP / "packaging" / "page", pathlib.Path(__file__).resolve().parent / "files"
OF_SHARED = ("commands.js", "examples.js", "panel.css", "typed.js")
PARTS = ("parts.html", "lesson.html")
# A part of the page, and the text of the view's page before which it is inserted.
PART = re.compile(r"^<!-- before (.*) -->\n", re.MULTILINE)
MAX_MESSAGE = 3 << 20
MAX_WORDS = 1 << 10
PAGES_OF_A_STUDENT, WALLS = 4, 8
CONNECTIONS_OF_A_PLACE = 8
SECONDS_BETWEEN_NEWS = 0.2
SECONDS_TO_CLOSE, SECONDS_TO_TAKE = 3.0, 5.0
# Limit of answers a second to all pages together, so that prompts are answered too.
ANSWERS_A_SECOND = 300
GOING_AWAY = 1001
ENDED = "The class has ended. Load this page again when it goes on."
ENDED_BY_TEACHER = "The teacher has ended this page, or its token has changed. Load it again to come back."
FLOODED = "Too many wrong tokens have come from your address. Wait ten seconds, and try again."
CROWDED = f"{PAGES_OF_A_STUDENT} of your pages are open, which is the limit. Close one, and load this page again."


class File(NamedTuple):
    """A file of the page: its kind and its bytes."""

    kind: str
    body: bytes


def with_parts(page: str, parts: str) -> str:
    """The page of the view, with the additional parts of a class."""
    _, *found = PART.split(parts)
    for before, part in zip(found[::2], found[1::2]):
        assert page.count(before) == 1, before
        page = page.replace(before, part.rstrip("\n") + "\n" + before)
    return page


def files() -> Dict[str, File]:
    """All files by their paths: those of the view, those shared with the static page, and the class' own."""
    paths = [view.FOLDER / name for name, _ in view.FILES.values()]
    paths += [SHARED / name for name in OF_SHARED] + sorted(path for path in OWN.iterdir() if path.name not in PARTS)
    found = {path.name: File(view.TYPES[path.suffix], path.read_bytes()) for path in paths}
    page = found.pop("page.html").body.decode()
    for parts in PARTS:
        page = with_parts(page, (OWN / parts).read_text(encoding="utf-8"))
    found[""] = File("text/html", page.encode())
    found["wall"] = found.pop("wall.html")
    return found


class Paced(view.Messages):
    """The messages of a page while its cookie is valid. Their rate is limited over all pages together."""

    def __init__(self, page: Any, pages: ClassPages, seen: Connection, cookies: Any):
        super().__init__(page)
        self._pages, self._seen, self._cookies, self._next = pages, seen, cookies, 0.0

    async def tell(self, text: str) -> None:
        loop = asyncio.get_running_loop()
        await asyncio.sleep(max(0.0, self._next - loop.time()))
        self._next = loop.time() + self._pages.count / ANSWERS_A_SECOND
        await super().tell(text)

    async def heard(self) -> Optional[str]:
        message = await super().heard()
        if message is not None and self._pages.entrance.student_of(self._cookies) != self._seen.user:
            await super().tell(json.dumps({"error": ENDED_BY_TEACHER, "ended": True}))
            return None
        self._seen.commands += message is not None
        return message


class Open(NamedTuple):
    """An open page: its WebSocket, its messages, its transport, and its student, or None if it is a wall."""

    page: Any
    messages: view.Messages
    transport: Any
    student: Optional[Student] = None


def begun(key: bytes, listener: socket.socket, tls: ssl.SSLContext, of_an_address: int, front: ClassFront) -> ClassPages:
    """The pages of a class, which are served from now on."""
    return ClassPages(front, Entrance(key, lambda: front.accounts), listener, tls, of_an_address)


class ClassPages:
    """The pages of a class. It is made and used within the loop of its front."""

    def __init__(self, front: ClassFront, entrance: Entrance, listener: socket.socket, tls: ssl.SSLContext, of_an_address: int):
        self.entrance = entrance
        self._front, self._listener, self._tls, self._of_an_address = front, listener, tls, of_an_address
        self._files = files()
        self._denials = Denials(of_an_address)
        self._begun: Dict[str, int] = Counter()
        self._students: Dict[str, Student] = {}
        self._open: List[Open] = []
        self._walls: List[Tuple[Open, WallPage]] = []
        self._said = ""
        self._of_students = Posts(self, front)
        self._posts = {"in": self._let_in, "out": self._let_out, "wall": self._let_in_wall, **self._of_students.by_path()}
        self._server = web.Server(self._answer, access_log=None, keepalive_timeout=SECONDS_FOR_FIRST_LINE)
        self._protocols = Impatient(self._server)
        self._tasks: Set["asyncio.Task[None]"] = set()
        listener.setblocking(False)
        self._begin(self._accept())
        self._begin(self._tell_news())

    @property
    def count(self) -> int:
        """How many pages are open."""
        return len(self._open)

    def _begin(self, work: Any) -> None:
        task = asyncio.get_running_loop().create_task(work)
        self._tasks.add(task)
        task.add_done_callback(self._tasks.discard)

    # Connections.

    async def _accept(self) -> None:
        while True:
            try:
                stream, address = await asyncio.get_running_loop().sock_accept(self._listener)
            except OSError:
                await asyncio.sleep(0.1)
                continue
            host = str(address[0])
            if self._connections_of(host) >= CONNECTIONS_OF_A_PLACE * self._of_an_address:
                self._front.turn_page_away(Connection(written(address)))
                close_unanswered(stream)
            else:
                self._begin(self._serve(stream, host))

    def _connections_of(self, host: str) -> int:
        """How many connections of an address there are."""
        peers = [each.transport and each.transport.get_extra_info("peername") for each in self._server.connections]
        return self._begun[host] + len([peer for peer in peers if peer is not None and peer[0] == host])

    async def _serve(self, stream: socket.socket, host: str) -> None:
        """Serves a connection, after the TLS handshake."""
        self._begun[host] += 1
        try:
            prepare(stream)
            loop, limit = asyncio.get_running_loop(), SECONDS_FOR_FIRST_LINE
            await loop.connect_accepted_socket(self._protocols, stream, ssl=self._tls, ssl_handshake_timeout=limit)
        except OSError:
            stream.close()
        finally:
            self._begun[host] -= 1
            if not self._begun[host]:
                del self._begun[host]

    # Requests.

    async def _answer(self, request: Any) -> Any:
        """The answer: a file, a cookie, or the session of a page."""
        self._protocols.keep(request.protocol)
        host, origin, path = request.headers.get("Host", ""), request.headers.get("Origin"), request.path[1:]
        is_ours = origin == f"https://{host}"
        if not HOST.fullmatch(host) or not (is_ours or origin is None and request.method == "GET" and "session" not in path):
            return said(403, "this is for pages of this address")
        if request.method == "POST" and path in self._posts:
            return await self._posts[path](request)
        if request.method != "GET":
            return said(405, "only pages of this address ask for that")
        if path == "who":
            return said(200, self.entrance.student_of(request.cookies) or "")
        if path in ("session", "wall-session"):
            return await self._begun_session(request, path)
        file = self._files.get(path)
        if file is None:
            return said(404, "there is no such page: the link stands on the slip")
        return view.told(200, file.kind, file.body, [f"'self' wss://{host}"])

    async def words_of(self, request: Any, most: int = MAX_WORDS) -> Dict[str, Any]:
        """The JSON object that a page posts, else an empty one."""
        if not 0 < (request.content_length or 0) <= most:
            return {}
        try:
            words = json.loads(await asyncio.wait_for(request.read(), SECONDS_FOR_FIRST_LINE))
        except (ValueError, RecursionError, asyncio.TimeoutError):
            return {}
        return words if isinstance(words, dict) else {}

    async def _let_in(self, request: Any) -> Any:
        """Gives a student a cookie for the token of the slip."""
        name, refused = self._named(request, await self.words_of(request))
        return with_cookie(self.entrance.cookie_of(name)) if refused is None else refused

    def _named(self, request: Any, words: Dict[str, Any]) -> Tuple[str, Any]:
        """The posted name of a student, and the refusal if name and token do not match."""
        name = str(words.get("name", ""))
        token = "".join(str(words.get("token", "")).split())
        return name, self._refused(request, name, lambda: self.entrance.is_student(name, token))

    def poster_of(self, request: Any, words: Dict[str, Any]) -> Tuple[str, Any]:
        """The student who posts, by the cookie of a page or by name and token, and the refusal if neither is valid."""
        name = self.entrance.student_of(request.cookies)
        return self._named(request, words) if name is None else (name, None)

    async def _let_in_wall(self, request: Any) -> Any:
        words = await self.words_of(request)
        refused = self._refused(request, "", lambda: self.entrance.is_wall(words.get("token", "")))
        return with_cookie(self.entrance.wall_cookie()) if refused is None else refused

    async def _let_out(self, request: Any) -> Any:
        return with_cookie(self.entrance.no_cookie())

    def _refused(self, request: Any, name: str, is_right: Any) -> Any:
        """The refusal of a token, or None if it is right. The number of wrong ones of an address is limited."""
        host, seen = str(request.remote), Connection(origin_of(request))
        if self._denials.is_full(host):
            self._front.turn_page_away(seen)
            return said(429, FLOODED)
        if is_right():
            return None
        self._denials.add(host)
        seen.user = name if NAME.fullmatch(name.encode("utf-8", "replace")) else ""
        self._front.deny_page(seen)
        return said(403, "the class knows no student of this name and token")

    # Pages.

    async def _begun_session(self, request: Any, path: str) -> Any:
        """Accepts a WebSocket, and answers the page until it is gone."""
        name = self.entrance.student_of(request.cookies) if path == "session" else None
        if name is None and not (path == "wall-session" and self.entrance.has_wall(request.cookies)):
            return said(403, "say the token first")
        most = MAX_WORDS if name is None else MAX_MESSAGE
        page = web.WebSocketResponse(max_msg_size=most, compress=False, timeout=view.FAREWELL_SECONDS)
        if not page.can_prepare(request):
            return said(400, "a session is asked for by a WebSocket")
        await page.prepare(request)
        with contextlib.suppress(ConnectionError):
            if name is None:
                await self._show_wall(page, request.transport)
            else:
                await self._play(page, name, request)
        return page

    async def _play(self, page: Any, name: str, request: Any) -> None:
        """Answers a student's page."""
        if name not in self._students:
            self._students[name] = Student(name, self._front)
        student = self._students[name]
        if student.pages >= PAGES_OF_A_STUDENT:
            await view.refuse(page, CROWDED)
            return
        seen = Connection(origin_of(request))
        seen.user, seen.state = name, "page"
        messages = Paced(page, self, seen, request.cookies)
        opened = Open(page, messages, request.transport, student)
        student.pages += 1
        self._open.append(opened)
        self._front.begin_page(seen)
        try:
            await self._converse(messages, student)
        finally:
            self._open.remove(opened)
            self._front.end_page(seen)
            student.pages -= 1
            if not student.pages and self._students.get(name) is student:
                del self._students[name]
                self._begin(student.close())

    async def _converse(self, messages: view.Messages, student: Student) -> None:
        await messages.tell(news_of(student=student.name, teacher=self._said, **student.lesson()))
        talk = await student.enter()
        try:
            await converse(messages, student.connection, talk, student)
        finally:
            await student.leave(talk)

    async def _show_wall(self, page: Any, transport: Any) -> None:
        """Serves a wall until it is gone. Its messages say which student it looks at."""
        if len(self._walls) >= WALLS:
            await view.refuse(page, f"{WALLS} walls are open already")
            return
        opened, wall = Open(page, view.Messages(page), transport), WallPage(self._front.wall)
        self._open.append(opened)
        self._walls.append((opened, wall))
        try:
            while (message := await opened.messages.heard()) is not None:
                wall.hear(message, self._front.accounts)
        finally:
            self._open.remove(opened)
            self._walls.remove((opened, wall))

    def _rows(self) -> str:
        """The rows of all students for walls."""
        pages = Counter(each.student.name for each in self._open if each.student is not None)
        return json.dumps({"teacher": self._said, "students": self._front.rows(pages)})

    def _news_of_walls(self) -> List[Any]:
        """The messages to walls, as coroutines."""
        if not self._walls:
            return []
        self._front.take_pictures([wall.looks_at for _, wall in self._walls])
        rows, now = self._rows(), time.monotonic()
        return [told_if_there(opened, text) for opened, wall in self._walls for text in wall.news(rows, now)]

    # Unrequested messages to pages.

    async def _tell_news(self) -> None:
        """Sends pages the changes of their students, and walls all changes."""
        while True:
            await asyncio.sleep(SECONDS_BETWEEN_NEWS)
            found = {student.name: student.news() for student in self._students.values()}
            news = [(each, found.get(each.student.name)) for each in self._open if each.student is not None]
            told = [told_if_there(each, news_of(**words)) for each, words in news if words]
            await asyncio.gather(*told, *self._news_of_walls())

    async def say(self, text: str) -> int:
        """Shows a text of the teacher on all pages, also later ones. Returns how many are open."""
        self._said = text
        self._of_students.say(text)
        pages = [each for each in self._open if each.student is not None]
        await asyncio.gather(*(told_if_there(each, news_of(teacher=text)) for each in pages))
        return len(pages)

    def has_page(self, name: str) -> bool:
        return name in self._students

    async def end_pages(self, name: str) -> None:
        """Ends the pages of a student."""
        pages = [each for each in self._open if each.student is not None and each.student.name == name]
        await asyncio.gather(*(self._end(each, ENDED_BY_TEACHER) for each in pages))

    async def _end(self, opened: Open, why: str) -> None:
        await told_if_there(opened, json.dumps({"error": why, "ended": True}))
        await opened.page.close(code=GOING_AWAY)

    async def close(self) -> None:
        """Ends all pages, and drops what was loaded and saved for them."""
        self._listener.close()
        self._of_students.say(self._said)
        ends = [asyncio.ensure_future(self._end(each, ENDED)) for each in [*self._open]]
        loop = asyncio.get_running_loop()
        until = loop.time() + SECONDS_TO_CLOSE
        while (self._open or self._students) and loop.time() < until:
            await asyncio.sleep(SECONDS_BETWEEN_NEWS / 10)
        # A request of a page may take long, and the page waits for it.
        self._front.end_locals()
        for task in [*ends, *self._tasks]:
            task.cancel()
        with contextlib.suppress(asyncio.TimeoutError):
            await asyncio.wait_for(self._server.shutdown(SECONDS_TO_CLOSE), SECONDS_TO_CLOSE)


async def told_if_there(opened: Open, text: str) -> None:
    """Sends an unrequested message to a page, unless it is gone. A page that takes nothing is ended, so that others need not wait."""
    try:
        await asyncio.wait_for(view.Messages.tell(opened.messages, text), SECONDS_TO_TAKE)
    except asyncio.TimeoutError:
        opened.transport.abort()
    except (ConnectionError, RuntimeError):
        pass


def origin_of(request: Any) -> str:
    """Where a request comes from, as HOST:PORT."""
    peer = request.transport and request.transport.get_extra_info("peername")
    return written(peer or (str(request.remote), 0))


def news_of(**words: Any) -> str:
    """An unrequested message."""
    return json.dumps({"news": words})


def said(status: int, text: str) -> Any:
    """An answer with a line of text."""
    return view.told(status, "text/plain", text.encode(), ())


def with_cookie(cookie: str) -> Any:
    """An answer that gives a cookie or takes it away."""
    answer = said(200, "")
    answer.headers["Set-Cookie"] = cookie
    return answer
