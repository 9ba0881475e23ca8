"""The progress of students in the lesson of a class: which steps are done, and what was answered. It is written to the folder of
the class before it is shown."""
from __future__ import annotations

import contextlib
import dataclasses
import json
import os
import pathlib
from typing import Any, Dict, List, NamedTuple, Optional

from ljclient import record
from ljclient.lesson import Lesson, Step, Walk, in_all_languages

from ..keeping.items import Item

MAX_ANSWER = 60
MOST_TRIES = 9999
# Results of an answer.
RIGHT, WRONG, NONE, EARLY = "right", "wrong", "none", "early"


@dataclasses.dataclass
class Answered:
    """The answers to a question: the number of tries up to the first right one, and whether that has come."""

    tries: int = 0
    is_right: bool = False


class Mark(NamedTuple):
    """The state of a step: whether all its replies have come, and the answers to its question, if it has one."""

    step: Step
    is_seen: bool
    answered: Answered

    @property
    def is_done(self) -> bool:
        return self.is_seen and (self.step.question is None or self.answered.is_right)


class Progress:
    """The progress of one student. Replies are judged in the order of the steps, even if questions are not answered.

    version  is increased at each change
    """

    def __init__(self, lesson: Lesson, file: pathlib.Path):
        self.version = 0
        self._walk, self._file = Walk(lesson), file
        self._answers: Dict[str, Answered] = {}
        with contextlib.suppress(OSError, ValueError, TypeError, KeyError, IndexError, AttributeError):
            known = json.loads(file.read_text())
            answers = {key: Answered(int(tries), bool(is_right)) for key, (tries, is_right) in known["answers"].items()}
            self._walk.resume(known)
            self._answers = answers
        self._walk.pass_over()

    def hear(self, item: Item, reply: bytes) -> None:
        """Takes in a command and its reply."""
        walk = self._walk
        if walk.step is None or item.words[1:2] != (walk.lesson.session.encode(),):
            return
        told, _, rest = reply.partition(b"\n")
        first, before = told.decode(), walk.known()
        lines = rest.split(b"\n")[:-1] if walk.is_awaited(first) else []
        walk.see(item.raw.partition(b"\n")[0].decode("ascii", "replace"), first, record.sum_of(lines).decode() if lines else "")
        walk.pass_over()
        if walk.known() != before:
            self._put(self._answers)

    def answer(self, key: object, text: str) -> str:
        """Takes an answer to the question of a step, unless that was answered right. Returns the result."""
        at = self._walk.lesson.index_of(key)
        mark = None if at is None else self.marks()[at]
        if mark is None or mark.step.question is None:
            return NONE
        if not mark.is_seen:
            return EARLY
        text = text[: MAX_ANSWER + 1].strip()
        if len(text) > MAX_ANSWER or not mark.step.question.is_answer(text):
            return NONE
        is_right, answered = mark.step.question.is_right(text), mark.answered
        if not answered.is_right:
            self._put({**self._answers, mark.step.key: Answered(min(answered.tries + 1, MOST_TRIES), is_right)})
        return RIGHT if is_right else WRONG

    def marks(self) -> List[Mark]:
        """The state of each step."""
        steps = self._walk.lesson.steps
        return [Mark(step, at < self._walk.at, self._answers.get(step.key, Answered())) for at, step in enumerate(steps)]

    def known(self) -> Dict[str, Any]:
        """The progress for a page: whether each step is done, whether its question is asked now, and the next step."""
        marks = self.marks()
        steps = [{"key": mark.step.key, "done": mark.is_done, **asked(mark)} for mark in marks]
        at = next((at for at, mark in enumerate(marks) if not mark.is_done), len(marks))
        return {"at": at, "steps": steps}

    def _put(self, answers: Dict[str, Answered]) -> None:
        """Writes the progress with these answers, for its owner alone. Raises OSError, and takes none, if that fails."""
        told = {key: [each.tries, each.is_right] for key, each in answers.items()}
        partial = self._file.with_suffix(".part")
        partial.write_text(json.dumps({**self._walk.known(), "answers": told}))
        os.replace(partial, self._file)
        self._answers = answers
        self.version += 1


def asked(mark: Mark) -> Dict[str, Any]:
    """The choices for the question of a step, if it is asked now. For a question about a number they are empty."""
    question = mark.step.question
    return {"choices": question.choices} if question is not None and mark.is_seen and not mark.is_done else {}


class Lessons:
    """The lesson of a class, and all students' progress in it."""

    def __init__(self, lesson: Lesson, folder: pathlib.Path):
        self.lesson, self._folder = lesson, folder / f"lesson-{lesson.name}"
        self._folder.mkdir(mode=0o700, parents=True, exist_ok=True)
        self._students: Dict[str, Progress] = {}
        self.texts = {language: {**each.texts} for language, each in in_all_languages(lesson).items()}

    def leave_out_questions(self) -> None:
        """Removes all questions, since no answers can be posted. Replies alone then complete a step."""
        steps = tuple(dataclasses.replace(step, question=None) for step in self.lesson.steps)
        self.lesson = dataclasses.replace(self.lesson, steps=steps)
        self._students.clear()

    def of(self, name: str) -> Progress:
        """The progress of a student."""
        if name not in self._students:
            self._students[name] = Progress(self.lesson, self._folder / f"{name}.json")
        return self._students[name]

    def steps(self, name: str) -> List[bool]:
        """Which steps a student has done."""
        return [mark.is_done for mark in self.of(name).marks()]

    def about(self) -> Dict[str, Any]:
        """The data that a page gets once: the session and the texts, in each language."""
        return {"name": self.lesson.name, "session": self.lesson.session, "texts": self.texts, "preferred": self.lesson.language}

    def body_of(self, path: str) -> Optional[bytes]:
        """The atoms of a file beside the lesson, or None if there is none. The folder in the path is ignored."""
        name = os.path.basename(path)
        file = pathlib.Path(self.lesson.stem).parent / name
        return file.read_bytes() if name.endswith(".xyz") and file.is_file() else None
