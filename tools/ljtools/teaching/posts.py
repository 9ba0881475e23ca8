"""Posts of pages and prompts beside the protocol: answers to questions, the scales of sessions, and the wait for a text of the teacher.

Each identifies its student by the cookie of a page, or by the name and the token of a slip. Replies are JSON.
"""
from __future__ import annotations

import asyncio
import contextlib
import json
from typing import TYPE_CHECKING, Any, Callable, Dict

from ljclient.view import server as view

if TYPE_CHECKING:
    from .lesson import ClassFront
    from .page import ClassPages

MAX_WORDS = 8 << 10
# Longest wait for the teacher's next text, before a prompt has to ask again.
SECONDS_OF_A_WAIT = 25.0
# Limit of a student's posts a second, and the longest wait of a further post.
POSTS_A_SECOND, SECONDS_TO_WAIT = 20, 5.0
TOO_MANY = "too many posts: wait a moment, and try again"
NO_LESSON = "the class has no lesson"
OTHER_LESSON = "the class has another lesson, {name}: answers to this one are not kept"


class Posts:
    """The posts of students. It is made and used within the loop of its front."""

    def __init__(self, pages: ClassPages, front: ClassFront):
        self._pages, self._front = pages, front
        self._said, self._is_said = "", asyncio.Event()
        self._next: Dict[str, float] = {}

    def by_path(self) -> Dict[str, Callable[[Any], Any]]:
        """The handler of each post, by its path."""
        acts = {"answer": self._take_answer, "line": self._wait_for_line, "scales": self._scales, "scale": self._keep_scale}
        return {path: self._act(act) for path, act in acts.items()}

    def _act(self, act: Callable[[str, Dict[str, Any]], Any]) -> Callable[[Any], Any]:
        """The handler of an act, for students who are let in."""

        async def answered(request: Any) -> Any:
            words = await self._pages.words_of(request, MAX_WORDS)
            name, refused = self._pages.poster_of(request, words)
            if refused is None and not await self._has_turn(name):
                refused = refusal(429, TOO_MANY)
            try:
                return await act(name, words) if refused is None else refused
            except OSError as error:
                return refusal(503, f"the class cannot keep this: {error.strerror or error}")

        return answered

    async def _has_turn(self, name: str) -> bool:
        """Waits until a student may post again, or returns False at once if that takes too long."""
        now = asyncio.get_running_loop().time()
        turn = max(now, self._next.get(name, now))
        if turn - now > SECONDS_TO_WAIT:
            return False
        self._next[name] = turn + 1 / POSTS_A_SECOND
        await asyncio.sleep(turn - now)
        return True

    def say(self, text: str) -> None:
        """Answers those who wait for a text of the teacher."""
        self._said = text
        self._is_said.set()
        self._is_said = asyncio.Event()

    async def _wait_for_line(self, name: str, words: Dict[str, Any]) -> Any:
        """The text of the teacher, as soon as it differs from the known one."""
        if words.get("known") == self._said:
            with contextlib.suppress(asyncio.TimeoutError):
                await asyncio.wait_for(self._is_said.wait(), SECONDS_OF_A_WAIT)
        return answer_of(teacher=self._said)

    async def _take_answer(self, name: str, words: Dict[str, Any]) -> Any:
        """Takes an answer to the question of a step."""
        lessons = self._front.lessons
        if lessons is None:
            return refusal(404, NO_LESSON)
        if words.get("lesson", lessons.lesson.name) != lessons.lesson.name:
            return refusal(409, OTHER_LESSON.format(name=lessons.lesson.name))
        progress = lessons.of(name)
        taken = progress.answer(words.get("step"), str(words.get("answer", "")))
        return answer_of(taken=taken, progress=progress.known())

    async def _scales(self, name: str, words: Dict[str, Any]) -> Any:
        """The scales of the sessions that the student has, as they were posted."""
        user = self._front.kept(name)
        return answer_of(scales={} if user is None else self._front.scales.of(name, user.sessions))

    async def _keep_scale(self, name: str, words: Dict[str, Any]) -> Any:
        """Keeps the scale of a session until the session is loaded again."""
        user = self._front.kept(name)
        session, scale = words.get("session"), words.get("scale")
        if user is None or not isinstance(session, str) or not isinstance(scale, str):
            return refusal(404, "there is no such session")
        if not self._front.scales.put(name, user.sessions, session, scale):
            return refusal(404, f"there is no session {session[:16]!r}")
        return answer_of()


def answer_of(**words: Any) -> Any:
    return view.told(200, "application/json", json.dumps(words).encode(), ())


def refusal(status: int, text: str) -> Any:
    return view.told(status, "text/plain", text.encode(), ())
