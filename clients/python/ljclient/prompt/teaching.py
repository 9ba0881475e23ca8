"""A lesson at the prompt: its steps are shown one after the other, and the replies to commands are compared with them."""
from __future__ import annotations

import os
from typing import TYPE_CHECKING, List, Optional, Sequence

from .. import record
from ..errors import Damaged
from ..lesson import Walk, read
from ..lesson_texts import said
from ..marking import ANSWERS
from ..record import Answer, Mark
from ..recording import Listener, Record
from .loading import Fault

if TYPE_CHECKING:
    from .class_page import ClassPage

VERBS = (".lesson", ".answer", ".hint")


class Teaching(Listener):
    """A lesson in progress. It hears of its session, and may write a record of it, with the answers beside it."""

    def __init__(self, path: str, kept: Optional[str] = None, page: Optional[ClassPage] = None):
        self._page = page
        try:
            self.walk = Walk(read(os.path.expanduser(path)))
            self._record = None if kept is None else Record(os.path.expanduser(kept), [])
            self._answers = None if kept is None else os.path.expanduser(kept) + ANSWERS
        except OSError as error:
            raise Fault(f"cannot open {error.filename}: {error.strerror or error}") from error
        except (Damaged, ValueError) as error:
            raise Fault(str(error)) from error
        self._is_seen = not self.walk.missing
        self._is_new = True
        self._has_answers = False
        # Whether the last line got a reply that the step expects, and whether it got another reply to an expected command.
        self._has_met = self._has_failed = False

    @property
    def session(self) -> str:
        """The name of the session of the lesson."""
        return self.walk.lesson.session

    def path_of(self, path: str) -> str:
        """The path of a file that a line names: beside the lesson, if there is no such file here."""
        beside = os.path.join(os.path.dirname(self.walk.lesson.stem), path)
        return beside if os.path.exists(beside) and not os.path.exists(os.path.expanduser(path)) else path

    def told(self, mark: Mark) -> None:
        if self._record is not None:
            self._record.told(mark)

    def answered(self, words: Sequence[bytes], answer: Answer) -> None:
        if self._record is not None:
            self._record.answered(words, answer)
        more = record.sum_of(answer.rest).decode() if answer.rest else ""
        first = answer.first.decode()
        if self.walk.step is not None and not self._is_seen:
            count, is_awaited = len(self.walk.missing), self.walk.is_awaited(first)
            self._is_seen = self.walk.see(answer.line.decode(), first, more)
            is_met = len(self.walk.missing) < count
            self._has_met, self._has_failed = self._has_met or is_met, self._has_failed or (is_awaited and not is_met)

    def unanswered(self, line: bytes) -> None:
        if self._record is not None:
            self._record.unanswered(line)

    def flush(self) -> None:
        if self._record is not None:
            self._record.flush()
            self._record = None if self._record.is_over else self._record

    def close(self) -> None:
        if self._record is not None:
            self._record.close()

    def shown(self) -> List[str]:
        """The lines of the present step."""
        step, lesson = self.walk.step, self.walk.lesson
        self._is_new = False
        if step is None:
            return [self._said("end")]
        head = self._said("step", at=self.walk.at + 1, count=len(lesson.steps))
        lines = [f"{lesson.texts['title']}. {head}", lesson.texts[step.key]]
        return [*lines, *(self._question() if self._is_seen else []), *([self._said("help")] if self.walk.at == 0 else [])]

    def after(self) -> List[str]:
        """The lines to show after a command: whether the step is done, and what comes next."""
        if self._is_new:
            return self.shown()
        step, has_met, has_failed = self.walk.step, self._has_met, self._has_failed
        self._has_met = self._has_failed = False
        if step is None or not (has_met or has_failed):
            return []
        if not self._is_seen:
            return [] if has_met else [self._said("not yet")]
        return self._question() if step.question is not None else [self._said("done"), *self._next()]

    def answer(self, text: str) -> List[str]:
        """Takes an answer to the question of the step."""
        step = self.walk.step
        if step is None or step.question is None:
            return [self._said("no question")]
        if not self._is_seen:
            return [self._said("first")]
        if not step.question.is_answer(text):
            return [self._said("no answer", answer=text), *self._question()]
        self._keep(f"{step.key} {text}\n")
        if self._page is not None:
            self._page.answer(self.walk.lesson.name, step.key, text)
        if not step.question.is_right(text):
            return [self._said("wrong", answer=text)]
        return [self._said("right"), *self._next()]

    def _keep(self, line: str) -> None:
        """Writes an answer beside the record. The first one replaces the answers of an earlier run of the lesson."""
        if self._answers is None:
            return
        try:
            with open(self._answers, "a" if self._has_answers else "w", encoding="utf-8") as file:
                file.write(line)
        except OSError as error:
            raise Fault(f"cannot write {self._answers}: {error.strerror or error}") from error
        self._has_answers = True

    def hint(self) -> List[str]:
        """The hint of the step."""
        step = self.walk.step
        return [self.walk.lesson.texts[f"{step.key} hint"] if step else self._said("end")]

    def _next(self) -> List[str]:
        self.walk.go_on()
        self._is_seen = not self.walk.missing
        return self.shown()

    def _question(self) -> List[str]:
        step = self.walk.step
        if step is None or step.question is None:
            return []
        choices = " | ".join(step.question.choices)
        how = self._said("choose", choices=choices) if choices else self._said("answer")
        return [self.walk.lesson.texts[f"{step.key} question"], how]

    def _said(self, name: str, **parts: object) -> str:
        return said(self.walk.lesson.language, name, **parts)
