"""The front of a class: it lets students in over TLS, and obeys the lines that the teacher types."""
from __future__ import annotations

import asyncio
import re
import signal
import socket
import ssl
import time
from typing import TYPE_CHECKING, Any, Callable, Collection, Dict, List, Mapping, NamedTuple, Optional

from ljclient.lesson import Lesson as Steps

from ..admission import SECONDS_FOR_FIRST_LINE, close_unanswered
from ..keeping.accounts import Accounts
from ..keeping.ends import Client
from ..keeping.front import Front, Listening, Options
from ..keeping.items import Item
from ..keeping.user import Hear, User
from ..user_files import NAME, Fault, Way, counted, slip_of, write_secrets
from ..watching import Board, Connection, written
from .folder import Kept
from .kept_scales import KeptScales
from .marks import MarksFile, text_of
from .progress import Lessons
from .slips import Slips
from .wall import Wall

if TYPE_CHECKING:
    from .page import ClassPages

SECONDS_TO_CONFIRM = 30.0
SECONDS_BETWEEN_TRIES = 0.01
SECONDS_UNTIL_IN = 5.0
PAUSE_AFTER_FAULT = 0.1
SECONDS_BETWEEN_MARKS = 0.5
HELP = """\
a NAME   adds a student, and shows the slip
r NAME   gives a student a new token, shows the slip, and ends the connections of the old token
k NAME   ends a student's connections and pages; the student may come again
m TEXT   shows a text on all pages, at prompts that have --page, and on the wall; m alone takes it away
q        ends the class: everything is kept
help     shows these lines"""
WALL = "wall.txt"
NOT_TOLD = ("kicked", "program", "begins anew", "ready", "failed")


class Lesson(NamedTuple):
    """The parts of a class beside its front: its folder, its slips and what they say, the command line that continues it, whether
    the output is a terminal, where slips may be shown, the lesson that pages and the wall show, if any, and the file of its marks."""

    kept: Kept
    slips: Slips
    way: Way
    again: str
    is_terminal: bool
    steps: Optional[Steps] = None
    marks: Optional[MarksFile] = None


class Handshakes:
    """Accepts clients, over TLS if there is a certificate. Limits the clients of an address that are not in yet."""

    def __init__(self, front: "ClassFront", listener: socket.socket, tls: Optional[ssl.SSLContext]):
        self._front, self._listener, self._tls = front, listener, tls
        self._seen: Dict[str, Connection] = {}
        listener.setblocking(False)
        self._task = asyncio.get_running_loop().create_task(self._accept())

    async def _accept(self) -> None:
        loop = asyncio.get_running_loop()
        while True:
            try:
                stream, address = await loop.sock_accept(self._listener)
            except OSError:
                await asyncio.sleep(PAUSE_AFTER_FAULT)
                continue
            seen = self._front.admitted(written(address))
            if seen is None:
                close_unanswered(stream)
            else:
                self._seen[seen.origin] = seen
                self._front.begin_task(self._let_in(stream, seen))

    async def _let_in(self, stream: socket.socket, seen: Connection) -> None:
        """Makes a connection a client of the front, after the TLS handshake."""
        limit: Dict[str, Any] = {"ssl_handshake_timeout": SECONDS_FOR_FIRST_LINE} if self._tls else {}
        try:
            await asyncio.get_running_loop().connect_accepted_socket(lambda: Client(self._front), stream, ssl=self._tls, **limit)
        except OSError as error:
            seen.refusal = f"no TLS: {cause_of(error)}" if self._tls else str(error)
        finally:
            if self.take(seen.origin) is not None:
                stream.close()
                self._front.note_not_let_in(seen)

    def take(self, origin: str) -> Optional[Connection]:
        """Removes and returns the record of a connection. None if it was taken before."""
        return self._seen.pop(origin, None)

    def close(self) -> None:
        self._task.cancel()
        self._listener.close()


def cause_of(error: OSError) -> str:
    """Why a connection is not encrypted, in few words."""
    if isinstance(error, ssl.SSLError) and error.reason:
        return error.reason.lower().replace("_", " ")
    return "it was closed" if isinstance(error, ConnectionError) else error.strerror or "it says nothing"


class ClassFront(Front):
    """A front whose users are a class."""

    seconds_for_hello = SECONDS_FOR_FIRST_LINE
    # Starts to serve the pages, if there are any.
    begin_pages: Optional[Callable[["ClassFront"], ClassPages]] = None

    def __init__(self, options: Options, board: Board, lesson: Lesson, tls: Optional[ssl.SSLContext]):
        super().__init__(options, board)
        self._lesson, self._tls, self._was_well, self._confirmed_until = lesson, tls, False, 0.0
        self._handshakes: Optional[Handshakes] = None
        self.wall = Wall()
        self.lessons = None if lesson.steps is None else Lessons(lesson.steps, lesson.kept.path)
        self._marks, self._why_no_marks = lesson.marks, ""
        self.scales = KeptScales(lesson.kept.path)
        self.pages: Optional[ClassPages] = None
        # Whether pages may no longer ask for anything.
        self._is_over = False
        self._lines: "asyncio.Queue[str]" = asyncio.Queue()
        self.why = ""

    # Who comes in.

    async def listen(self) -> Listening:
        """Lets students in once the server answers."""
        while not self._hosts.is_well() and not self._is_ending.is_set():
            await asyncio.sleep(SECONDS_BETWEEN_TRIES)
        self._handshakes = Handshakes(self, self._options.listener, self._tls)
        if not self._is_ending.is_set():
            self._was_well = True
            pages = self._begun_pages()
            self._board.say(f"students reach you at {self._lesson.way.server}; `q` or Ctrl-C ends the class, and everything is kept")
            if pages is not None:
                self._board.say(pages)
            elif self.lessons is not None:
                self.lessons.leave_out_questions()
            self.begin_task(self._heed_lines())
            self.begin_task(self._write_marks_on())
        return self._handshakes

    def _begun_pages(self) -> Optional[str]:
        """Starts to serve the pages, if any. Returns a text with their address and the link of the wall or, if the output is no
        terminal, the file with that link."""
        lesson = self._lesson
        if self.begin_pages is None:
            return None
        self.pages = self.begin_pages(self)
        wall = f"https://{lesson.way.page}/wall#{self.pages.entrance.wall_token}"
        write_secrets({str(lesson.kept.path / WALL): f"{wall}\n"}, True)
        where = f"at {wall}" if lesson.is_terminal else f"at the link in {lesson.kept.path / WALL}"
        return f"pages are at https://{lesson.way.page}/, and the wall for a projector is {where}"

    def admitted(self, origin: str) -> Optional[Connection]:
        """The record of a new connection, or None if too many of its address are not in."""
        seen = super().new_connection(origin)
        return seen if self._board.admits(seen) else None

    def note_not_let_in(self, seen: Connection) -> None:
        self._board.ends(seen)

    def new_connection(self, origin: str) -> Connection:
        """The record of a connection, begun when it was accepted."""
        seen = self._handshakes.take(origin) if self._handshakes else None
        if seen is None:
            return super().new_connection(origin)
        self._board.leaves_out(seen)
        return seen

    def turns_away(self, client: Client) -> None:
        """Counts a client that is turned away, without a line of its own."""
        super().turns_away(client)
        self.leaves_out(client)

    # For its pages.

    @property
    def is_ending(self) -> bool:
        return self._is_ending.is_set()

    @property
    def accounts(self) -> Accounts:
        """The current users."""
        return self._accounts

    async def user_of(self, name: str) -> Optional[User]:
        """The user for a page of this process, or None if it is not let in."""
        if name in self._accounts and not self.is_ending:
            await self._claimed(name)
        return None if self._is_over else self.kept(name)

    def kept(self, name: str) -> Optional[User]:
        """The user, if it is at this front and let in."""
        user = self._users.get(name)
        return None if user is None or user.stopped else user

    def end_locals(self) -> None:
        """Refuses all further requests of pages. Those under way are still done, but not answered."""
        self._is_over = True
        for user in self._users.values():
            for local in [*user.locals]:
                local.abort(self.why_not(user.name))

    def why_not(self, name: str) -> str:
        """Why a user is not let in."""
        stopped = self._users[name].stopped if name in self._users else ""
        return f"{name} is not let in: {stopped or self._refused.get(name) or 'the class ends'}"

    def begin_page(self, seen: Connection) -> None:
        self._board.begins(seen)
        self._board.note_let_in(seen)

    def end_page(self, seen: Connection) -> None:
        self._board.ends(seen)

    def deny_page(self, seen: Connection) -> None:
        """Counts a wrong token as a denied connection."""
        seen.state = "denied"
        self._board.begins(seen)
        self._board.ends(seen)

    def turn_page_away(self, seen: Connection) -> None:
        self._board.turns_away(seen)

    def listener_of(self, user: User) -> Optional[Hear]:
        return lambda item, reply: self._hear(user, item, reply, user.local is None or user.local.is_typed)

    def _hear(self, user: User, item: Item, reply: bytes, is_typed: bool) -> None:
        """Takes in a command and its reply. Untyped commands of pages do not count for the lesson."""
        self.wall.hear(user, item, reply, is_typed)
        if self.lessons is not None and is_typed:
            try:
                self.lessons.of(user.name).hear(item, reply)
            except OSError as error:
                self.fail(f"cannot keep the lesson of {user.name}: {error.strerror or error}")

    def rows(self, pages: Mapping[str, int]) -> List[Dict[str, Any]]:
        """The row of each student for the wall."""
        rows = self.wall.rows([*self._accounts], self._users, self._board.open(), pages)
        return [{**row, "steps": self.lessons and self.lessons.steps(row["name"])} for row in rows]

    def take_pictures(self, looked_at: Collection[str]) -> None:
        """Takes pictures of sessions for the wall: of all sessions for students who are looked at."""
        self.wall.pictures.ask(self._users, looked_at)

    async def _write_marks_on(self) -> None:
        """Writes the marks whenever something has changed."""
        while True:
            await self._write_marks()
            await asyncio.sleep(SECONDS_BETWEEN_MARKS)

    async def _write_marks(self) -> None:
        """Writes the marks, if there is a file for them. The same error is reported once."""
        marks, lessons = self._marks, self.lessons
        if marks is None or lessons is None:
            return
        try:
            await asyncio.to_thread(marks.write, text_of(lessons, self._accounts))
            self._why_no_marks = ""
        except Fault as fault:
            if str(fault) != self._why_no_marks:
                self._board.say(str(fault))
            self._why_no_marks = str(fault)

    # How it ends.

    async def _settle(self) -> None:
        await self._write_marks()
        if self.pages is not None:
            await self.pages.close()
        await super()._settle()

    def heed_signals(self) -> None:
        """Makes signals end the class, except ignored ones, such as HUP under nohup."""
        loop = asyncio.get_running_loop()
        for number, heed in ((signal.SIGINT, self._interrupt), (signal.SIGTERM, self._end), (signal.SIGHUP, self._end)):
            if signal.getsignal(number) is not signal.SIG_IGN:
                loop.add_signal_handler(number, heed)

    def _interrupt(self) -> None:
        """Ends the class: at once if nobody is in, else at a second interrupt."""
        count = self._board.users_in()
        if not count or time.monotonic() < self._confirmed_until:
            self._end()
            return
        self._confirmed_until = time.monotonic() + SECONDS_TO_CONFIRM
        are = "is" if count == 1 else "are"
        told = f"{counted(count, 'user')} {are} in: Ctrl-C within {SECONDS_TO_CONFIRM:g} seconds ends the class, and everything is kept"
        self._board.say(told)

    def note_server_end(self, ended: str, begun: int) -> None:
        """A server has ended. If none has answered yet, no other one is started."""
        if not self._was_well and not self._is_ending.is_set():
            self.fail(f"cannot start the server: {ended}")

    def fail(self, why: str) -> None:
        self.why = self.why or why
        super().fail(why)

    def note(self, event: str, **known: object) -> None:
        """Shows what a teacher has to know, and updates the status."""
        self._board.notes(event, **known)
        texts: Dict[str, str] = {
            "server begun": "the server was begun again, and goes on where it was" if self._was_well else "",
            "server ended": f"the server has ended: {known.get('why')}" if self._was_well and not self._is_ending.is_set() else "",
            "stopped": f"{known.get('user')} is not let in: {known.get('why')}",
            **dict.fromkeys(NOT_TOLD, ""),
        }
        if text := texts.get(event, " ".join([event, *(f"{name} {value}" for name, value in known.items())])):
            self._board.say(text)
        self._put_status()

    def known(self) -> Dict[str, Any]:
        """The status of the front."""
        return {**super().known(), "has_tls": self._tls is not None}

    # What is typed.

    def take_line(self, line: str) -> None:
        """Takes a line that was typed, which is done after those before it."""
        self._lines.put_nowait(line)

    async def _heed_lines(self) -> None:
        while True:
            line = await self._lines.get()
            try:
                await self._heed(line)
            except Fault as fault:
                self._board.say(str(fault))

    async def _heed(self, line: str) -> None:
        """Does what a line asks for. Raises Fault, with advice, if that is impossible."""
        words = line.split()
        if not words:
            return
        done = {"a": self._add, "r": self._renew, "k": self._kick}.get(words[0])
        if words in (["help"], ["?"]):
            self._board.say(HELP)
        elif words == ["q"]:
            self._end()
        elif words[0] == "m":
            await self._say(" ".join(words[1:]))
        elif done is None or len(words) != 2:
            raise Fault(f"a line must be a NAME, r NAME, k NAME, m TEXT, q or help, got {shown_line(line)}")
        elif not NAME.fullmatch(words[1].encode("utf-8", "replace")):
            raise Fault(f"a name must be 1 to 16 of A-Z a-z 0-9 _ -, as in `{words[0]} bob`, got {shown_line(words[1])}")
        else:
            await done(words[1])

    async def _add(self, name: str) -> None:
        if name in self._accounts:
            raise Fault(f"cannot add {name}: there is this user already; use `r {name}` for a new token, or another name")
        await self._change_user(self._lesson.kept.add, name)
        self._tell_slip(name, await asyncio.to_thread(self._write_slips), "may come in")

    async def _renew(self, name: str) -> None:
        self._check_user(name)
        await self._change_user(self._lesson.kept.renew, name)
        await self._end_pages(name)
        self._tell_slip(name, await asyncio.to_thread(self._write_slips), "has a new token, and the old one is denied")

    async def _kick(self, name: str) -> None:
        self._check_user(name)
        has_page = self.pages is not None and self.pages.has_page(name)
        if not (has_page or any(client.user is not None and client.user.name == name for client in self._clients)):
            raise Fault(f"cannot end the connections of {name}: there are none")
        if name in self._users:
            self._users[name].abort_clients(has_right=True)
        await self._end_pages(name)
        self.note("kicked", user=name)
        self._board.say(f"{name}: all connections are ended")

    async def _end_pages(self, name: str) -> None:
        if self.pages is not None:
            await self.pages.end_pages(name)

    async def _say(self, text: str) -> None:
        if self.pages is None:
            raise Fault("there is no page that could show it")
        count = await self.pages.say(text)
        self._board.say(f"{counted(count, 'page')} {'shows' if count == 1 else 'show'} {'it' if text else 'nothing of you'}")

    def _check_user(self, name: str) -> None:
        if name not in self._accounts:
            raise Fault(f"there is no user {name}; use `a {name}` to add one")

    async def _change_user(self, change: Callable[[str], None], name: str) -> None:
        """Changes a user in the store, and waits until the front has it."""
        before = self._accounts.get(name)
        await asyncio.to_thread(change, name)
        end = time.monotonic() + SECONDS_UNTIL_IN
        while self._accounts.get(name) == before and time.monotonic() < end:
            await asyncio.sleep(SECONDS_BETWEEN_TRIES)

    def _write_slips(self) -> List[str]:
        """Writes the slips again. Returns the files. Raises Fault."""
        lesson = self._lesson
        return lesson.slips.write(lesson.kept.users(), lesson.way)

    def _tell_slip(self, name: str, files: List[str], what: str) -> None:
        """Reports the change of a user, with the slip if the output is a terminal."""
        slips = [slip_of(user, self._lesson.way) for user in self._lesson.kept.users() if user.name == name]
        shown = [f"\n\n{slip}" for slip in slips if self._lesson.is_terminal]
        self._board.say("".join([f"{name} {what}: the slip is in {' and '.join(files)}", *shown]))


def shown_line(line: str) -> str:
    """A typed line as it may be shown: shortened, and without a pasted token."""
    text = re.sub(r"[A-Za-z0-9]{32,}", "..", line.strip())
    return repr(text if len(text) <= 40 else f"{text[:37]}..")
