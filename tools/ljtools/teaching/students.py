"""The students of a class, for their pages. All pages of a student share one client within this process. That client shares the
student's sessions with the prompt that is open beside them."""
from __future__ import annotations

import asyncio
import contextlib
import itertools
import json
import re
import socket
from typing import TYPE_CHECKING, Any, Dict, Iterator, List, Optional, Set, Tuple

from ljclient import ClientError, ConnectionLost, Scale, User, units
from ljclient.refusals import NoSession
from ljclient.transport import OpenSocket
from ljclient.view.connection import Connection
from ljclient.view.own import PREFIX, OwnSessions
from ljclient.view.scenes import Scene, crystal
from ljclient.view.talk import Choice, Talk
from ljclient.view.typed import typed
from ljclient.view.wishes import Wish
from ljclient.wire import Wire

from ..keeping.local import LocalClient
from ..keeping.user import User as KeptUser
from .typed_words import TypedWords, number_in

if TYPE_CHECKING:
    from .lesson import ClassFront

STEP_FACTOR, HEAT, SEED = 131072, 1.5, 1
# After so long without a request of the pages, their client is closed. The next request opens another.
SECONDS_OF_PATIENCE = 30.0
SECONDS_OF_A_REPLY = 86400.0
SECONDS_TO_LEAVE = 2.0
WAITS = "Another command of yours is under way, at the prompt or on another page. This page goes on when it is done."
# Sessions of pages have numbers from here on, since those of a view beside the class begin with 1. Second runs have other names.
FIRST_NUMBER = 101
OF_PAGES = re.compile(r"view-([1-9][0-9]{2,}(-2)?|own-[0-9]+)")
ALONE = "{name} is that of a program that is in, and that numbers its atoms by itself: this page only shows it until that has left."
CHANGES = ("reverse", "tug", "restore", "restart")


def scale_of(text: bytes) -> Scale:
    """The scale of a session, from its load line without the count. For a mixture, it is the scale of the first class."""
    verb, _, edge, *numbers = text.split()
    sigma, h, *more = numbers[2 * (verb == b"LOADMIX") :]
    weight = int(more[0]) if verb == b"LOADMIX" else units.FULL_WEIGHT
    return Scale.of(number_in(edge), number_in(sigma), int(h), weight=weight)


class KnownSessions(OwnSessions):
    """The sessions of a student. The front knows their scales from their loads."""

    def __init__(self, student: Student):
        super().__init__(None, None)
        self._student = student

    def _said(self, name: str, edge: str, wish: Wish) -> Scale:
        session = self._student.known().get(name.encode())
        return super()._said(name, edge, wish) if session is None else scale_of(session)


class StudentTalk(Talk):
    """The conversation with a page of a student. A program that numbers the atoms of its session by itself would not notice changes by a
    page, so the page only shows that session while the program is in."""

    def __init__(self, student: Student, own: OwnSessions, number: int):
        super().__init__(Choice(scenes(), own), number)
        self._student = student

    def _answered(self, user: User, wish: Wish) -> str:
        changes = wish.get("do") in CHANGES or wish.get("do") == "frame" and wish.get("steps") != 0
        if changes and self._stage is not None and self._stage.is_renumbered and self._student.has_program():
            return json.dumps({"error": ALONE.format(name=self._stage.name)})
        return super()._answered(user, wish)

    def typed(self, user: User, commands: Any) -> List[List[str]]:
        """The lines of the replies to commands that were typed, which the wall shows."""
        words = self._student.words(user)
        with self._student.typing():
            return typed(commands, words.typed)


class Student:
    """A student with open pages. Some methods run in the student's thread and the rest in the loop, as the comments say."""

    def __init__(self, name: str, front: ClassFront):
        self.name, self.pages = name, 0
        self._front, self._loop = front, asyncio.get_running_loop()
        self._local: Optional[LocalClient] = None
        self._user: Optional[KeptUser] = None
        self._words: Optional[TypedWords] = None
        self._talks: Set[Talk] = set()
        self._numbers = itertools.count(FIRST_NUMBER)
        self._own = KnownSessions(self)
        self._is_tidy = False
        self._seen = self._seen_of_lesson = -1
        self.connection = Connection(self._open, SECONDS_OF_PATIENCE, self._transaction)

    # In its thread.

    def has_program(self) -> bool:
        """Whether a prompt or a program of the student is in."""
        return self._user is not None and self._user.client is not None

    def known(self) -> Dict[bytes, bytes]:
        """The lines by which the student's sessions were loaded."""
        return {} if self._user is None else {name: each.text for name, each in self._user.sessions.by_name.items()}

    def words(self, user: User) -> TypedWords:
        """The typed words. What they know of sessions is kept until others change something there."""
        if self._words is None:
            self._words = TypedWords(user, self.known, self._body_of)
        return self._words

    def _body_of(self, path: str) -> Optional[bytes]:
        return None if self._front.lessons is None else self._front.lessons.body_of(path)

    def _open(self) -> User:
        """The client of the student's pages."""
        self._words = None
        self._local, there = asyncio.run_coroutine_threadsafe(self._begin(), self._loop).result()
        return User(Wire(OpenSocket(there), SECONDS_OF_A_REPLY), name=self.name)

    @contextlib.contextmanager
    def _transaction(self) -> Iterator[None]:
        """Commands within it are done as a whole, between two commands of the prompt."""
        assert self._local is not None
        try:
            with self._local.transaction() as has_changed:
                self._words = None if has_changed else self._words
                for talk in [*self._talks] if has_changed else []:
                    talk.lose()
                yield
        except ClientError:
            raise
        except ConnectionError as error:
            raise ConnectionLost(str(error)) from error

    @contextlib.contextmanager
    def typing(self) -> Iterator[None]:
        """Commands within it are marked as typed."""
        assert self._local is not None
        self._local.is_typed = True
        try:
            yield
        finally:
            self._local.is_typed = False

    def _tidy(self, user: User) -> None:
        """Drops the sessions of pages that were open when the previous class was killed."""
        for name in [line.split(" ")[0] for line in user.ask("LIST").lines]:
            if OF_PAGES.fullmatch(name):
                with contextlib.suppress(NoSession):
                    user.ask(f"DROP {name}")

    # In the loop.

    async def _begin(self) -> Tuple[LocalClient, socket.socket]:
        user = await self._front.user_of(self.name)
        if user is None:
            raise ConnectionLost(self._front.why_not(self.name))
        self._user = user
        return await LocalClient.begun(user)

    async def enter(self) -> Talk:
        """The conversation of a further page."""
        if not self._is_tidy:
            self._is_tidy = True
            with contextlib.suppress(ClientError):
                await self.connection.do(self._tidy)
        talk = StudentTalk(self, self._own, next(self._numbers))
        self._talks.add(talk)
        return talk

    async def leave(self, talk: Talk) -> None:
        """A page is gone. Drops what was loaded and saved for it."""
        self._talks.discard(talk)
        with contextlib.suppress(ClientError, asyncio.TimeoutError):
            await self.connection.do(talk.end)

    async def close(self) -> None:
        await asyncio.wait([asyncio.ensure_future(self.connection.close())], timeout=SECONDS_TO_LEAVE)

    def waits(self) -> Optional[str]:
        """The text on what a page waits for, if it waits."""
        return WAITS if self._local is not None and self._local.waits else None

    async def end(self) -> Optional[str]:
        """The text that the class has ended, if it is ending."""
        return "The class has ended. Load this page again when it goes on" if self._front.is_ending else None

    def lesson(self) -> Dict[str, Any]:
        """The lesson of the class for a page that is opened, if there is one."""
        lessons = self._front.lessons
        return {} if lessons is None else {"lesson": lessons.about(), "progress": lessons.of(self.name).known()}

    def news(self) -> Dict[str, Any]:
        """The changes since the last call: the sessions, and the progress in a lesson."""
        sessions, lessons, seen = self._sessions_since(), self._front.lessons, self._seen_of_lesson
        if lessons is not None:
            self._seen_of_lesson = lessons.of(self.name).version
        is_new = lessons is not None and self._seen_of_lesson != seen
        progress = {"progress": lessons.of(self.name).known()} if lessons is not None and is_new else {}
        return {**progress, **({} if sessions is None else {"sessions": sessions})}

    def _sessions_since(self) -> Optional[List[str]]:
        """The names of the student's sessions, if others than pages have changed something since the last call."""
        user, local = self._front.kept(self.name), self._local
        if user is None or local is None or user.local is not None or user.number in (self._seen, local.number):
            return None
        if any(session.has_pending for session in user.sessions.by_name.values()):
            # A look would wait for these steps, and the prompt for the look.
            return None
        self._seen = user.number
        return [name for each in user.sessions.by_name if not (name := each.decode()).startswith(PREFIX)]


def scenes() -> List[Scene]:
    """The scenes for a student who has no sessions."""
    return [crystal(STEP_FACTOR, HEAT, SEED)]
