"""`python3 -m ljclient check LESSON RECORD`: marks a record by what a lesson expects, step by step."""
from __future__ import annotations

import argparse
import os
import sys
from typing import Dict, List, Tuple

from .errors import Damaged
from .files import Path
from .lesson import Lesson, Walk, read
from .lesson_texts import said
from .record import Mark
from .record_file import RecordFile

RIGHT, WRONG, TROUBLE = 0, 1, 2
ANSWERS = ".answers"
ABOUT = """\
Marks a record of a lesson, which `.lesson LESSON RECORD` at the prompt writes, with the answers in RECORD.answers. A line tells of
each step. The status is 0 if all is right, 1 if something is wrong or missing, and 2 if a file cannot be read.
`python3 -m ljclient verify RECORD` tells whether the replies of the record are those of the program.
"""


def mark(lesson: Lesson, path: Path, answers: Dict[str, str]) -> List[Tuple[bool, str]]:
    """Whether each step is right, and the report on it.

    Parameters
    ----------
    lesson : Lesson
        The lesson.
    path : path
        The record of its session. Raises `Damaged` if it is not one.
    answers : dict of str to str
        The last answer to the question of each step, by the key of the step.

    Returns
    -------
    list of (bool, str)
        In the order of the steps. Replies of a step count only after all those of the step before.
    """
    walk, file = Walk(lesson), RecordFile(path)
    walk.pass_over()
    for entry in file.entries():
        if entry.mark is Mark.REPLY and file.session == lesson.session and walk.step is not None:
            walk.see(entry.line.decode(), entry.first.decode(), entry.more.decode())
            walk.pass_over()
    return [_marked(lesson, walk, number, answers) for number in range(len(lesson.steps))]


def read_answers(path: Path) -> Dict[str, str]:
    """The answers in a file. Each line has the key of a step and an answer; the last one of each counts. Empty if there is no file."""
    try:
        with open(path, encoding="utf-8") as file:
            rows = [line.split(maxsplit=1) for line in file.read(1 << 20).splitlines()]
    except FileNotFoundError:
        return {}
    return {row[0]: row[1].strip() for row in rows if len(row) == 2}


def _marked(lesson: Lesson, walk: Walk, number: int, answers: Dict[str, str]) -> Tuple[bool, str]:
    """Whether a step is right, and the report on it."""
    step, language = lesson.steps[number], lesson.language
    if number >= walk.at:
        missing = walk.missing if number == walk.at else step.expected
        what = ", ".join(" ".join(each.words) for each in missing) or "-"
        return False, said(language, "missing", key=step.key, what=what)
    if step.question is None or step.question.is_right(answers.get(step.key, "")):
        return True, said(language, "marked", key=step.key)
    if step.key not in answers:
        return False, said(language, "unanswered", key=step.key)
    return False, said(language, "marked wrong", key=step.key, answer=answers[step.key])


def main(words: List[str]) -> int:
    """Marks the record of the command line, and returns the exit status."""
    usage = "python3 -m ljclient check LESSON RECORD"
    parser = argparse.ArgumentParser("ljclient check", usage, ABOUT, formatter_class=argparse.RawDescriptionHelpFormatter)
    parser.add_argument("lesson", metavar="LESSON", help="its steps, or its text in a language: two_atoms.steps, .en or .de")
    parser.add_argument("record", metavar="RECORD", help="the record; the answers are in RECORD.answers")
    options = parser.parse_args(words)
    try:
        lesson = read(options.lesson)
        marked = mark(lesson, options.record, read_answers(options.record + ANSWERS))
    except OSError as error:
        print(f"ljclient: cannot read {error.filename or os.fspath(options.record)}: {error.strerror or error}", file=sys.stderr)
        return TROUBLE
    except (Damaged, UnicodeDecodeError, ValueError) as error:
        print(f"ljclient: {error}", file=sys.stderr)
        return TROUBLE
    for _, told in marked:
        print(told)
    right = sum(is_right for is_right, _ in marked)
    print(said(lesson.language, "sum", right=right, count=len(marked)))
    return RIGHT if right == len(marked) else WRONG
