"""The marks of a class as a file of CSV: a row for each student, a column for each step of the lesson, and how many steps are done."""
import csv
import io
import os
from typing import Iterable, List

from ..user_files import Fault, write_secrets
from .progress import Lessons, Mark

FIRST, LAST = "student", "total"
# Spreadsheets take cells that begin so for formulas.
OF_FORMULAS = ("=", "+", "-", "@")


def shown(mark: Mark) -> str:
    """The cell of a step: empty until its replies have come."""
    if not mark.is_seen:
        return ""
    if mark.step.question is None:
        return "done"
    tries = mark.answered.tries
    if not tries:
        return "not answered"
    return f"{'right' if mark.answered.is_right else 'wrong'}, {tries} {'try' if tries == 1 else 'tries'}"


def row_of(name: str, marks: List[Mark]) -> List[str]:
    safe = f"'{name}" if name.startswith(OF_FORMULAS) else name
    return [safe, *map(shown, marks), str(sum(mark.is_done for mark in marks))]


def text_of(lessons: Lessons, names: Iterable[str]) -> str:
    """The marks of these students, in order of their names."""
    text = io.StringIO()
    writer = csv.writer(text, lineterminator="\n")
    writer.writerow([FIRST, *(step.key for step in lessons.lesson.steps), LAST])
    writer.writerows(row_of(name, lessons.of(name).marks()) for name in sorted(names))
    return text.getvalue()


class MarksFile:
    """The file of marks, rewritten as a whole at each change, for its owner alone."""

    def __init__(self, path: str):
        self.path = path
        self._written = ""

    def check(self, may_have_marks: bool) -> None:
        """Raises Fault if the file is not empty. If `may_have_marks`, it may have marks."""
        try:
            with open(self.path, encoding="utf-8", errors="replace") as file:
                first = file.readline(1 << 10)
        except FileNotFoundError:
            return
        except OSError as error:
            raise Fault(f"cannot read {self.path}: {error.strerror}") from error
        if first and not (may_have_marks and first.startswith(f"{FIRST},")):
            raise Fault(f"cannot write {self.path}: it exists, and has no marks of this class; use another file by --marks FILE")

    def write(self, text: str) -> None:
        """Writes the text if it has changed. Raises Fault."""
        if text != self._written:
            write_secrets({os.path.abspath(self.path): text}, True)
            self._written = text
