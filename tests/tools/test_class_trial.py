"""A whole lesson: students at prompts and in browsers, three who misbehave, and a class that is killed in the middle.

The usual run has fewer students. The full run, with its time limit, needs a machine that does nothing else:

    python3 -m pytest -s tests/tools/test_class_trial.py --students 20
"""
import contextlib
import functools
import os
import pathlib
import threading
import time
from typing import Any, Callable, Iterator, List

import pytest

from browsing import CHROMIUM, Browser
from class_pages import PagedLesson, begun
from support import SECONDS, wait_until
from trial_students import AtPrompt, Floods, OnPage, Stops, Student, Vanishes, Way

PICTURES = os.environ.get("LJVIEW_PICTURES")  # a folder for pictures of the wall, if somebody wants to look
WIDTHS = (850, 390)
BAD = (Floods, Stops, Vanishes)
WHOLE, SECONDS_TO_GO_ON = 20, 2.0
SECONDS_BEFORE_END = 0.05  # time for all to send something
FITS = "document.documentElement.scrollWidth <= innerWidth"
pytestmark = pytest.mark.skipif(not CHROMIUM, reason="Chromium is not installed")


class Trial:
    """A lesson of `count` students: three who misbehave, three in ten or at least two at pages, and the others at prompts."""

    def __init__(self, lesson: PagedLesson, count: int):
        self.lesson, self.goes_on = lesson, threading.Event()
        pages = max(len(WIDTHS), count * 3 // 10)
        kinds: List[Callable[[PagedLesson, str], Way]] = [*BAD]
        kinds += [functools.partial(OnPage, width=WIDTHS[at % 2]) for at in range(pages)]
        kinds += [AtPrompt] * (count - len(kinds))
        self.students = [self._student(number, kind) for number, kind in enumerate(kinds, 1)]
        self.stops, self.vanishes = self.students[1], self.students[2]

    def _student(self, number: int, kind: Callable[[PagedLesson, str], Way]) -> Student:
        name = f"student{number:02}"
        return Student(name, number, lambda: kind(self.lesson, name), self._before)

    def _before(self, student: Student, at: int) -> None:
        """One third through the lesson some misbehave, and before the last third all wait for each other."""
        way: Any = student.way
        if at == len(student.commands) // 3 and isinstance(way, BAD):
            way.misbehave()
        elif at == 2 * len(student.commands) // 3:
            self.goes_on.wait(8 * SECONDS)

    def come_to_the_middle(self) -> None:
        """The one who vanished comes back when the teacher has ended that connection. The one who stopped does not. All others continue."""
        self._wait(lambda: hasattr(self.vanishes.way, "left"))
        self.lesson.types(f"k {self.vanishes.name}")
        others = [student for student in self.students if student is not self.stops]
        self._wait(lambda: hasattr(self.stops.way, "left") and all(3 * len(each.replies) >= 2 * len(each.commands) - 3 for each in others))
        self.goes_on.set()
        time.sleep(SECONDS_BEFORE_END)

    def _wait(self, holds: Any) -> None:
        end = time.monotonic() + 4 * SECONDS
        while not holds():
            faults = {student.name: student.fault for student in self.students if student.fault}
            assert not faults and time.monotonic() < end, (faults, {each.name: len(each.replies) for each in self.students})
            time.sleep(0.01)

    def end(self) -> None:
        for student in self.students:
            student.close()


@pytest.fixture
def wall() -> Iterator[Any]:
    with Browser(1280, 900, "--ignore-certificate-errors") as browser:
        yield browser


def sizes_of(browser: Any) -> Iterator[int]:
    """Shows a page in each size in turn."""
    for width in (1280, *WIDTHS):
        browser.ask("Emulation.setDeviceMetricsOverride", width=width, height=900, deviceScaleFactor=1, mobile=width < 500)
        yield width


def check_wall(wall: Any, students: List[Student]) -> None:
    """The wall shows that all are in, with the step of each and a picture of it."""
    rows = "[...document.querySelectorAll('.student')].map((each) => each.querySelector('.name').textContent + ': ' + SESSIONS)"
    rows = rows.replace("SESSIONS", "[...each.querySelectorAll('.session')].map((row) => row.textContent).join()")
    wanted = [row_of(student) for student in students]
    wait_until(lambda: all(any(row.startswith(one) for row in wall.value(rows)) for one in wanted))
    wall.wait_for(f"document.getElementById('about').textContent === '{len(students)} of {len(students)} students are in'")
    wall.wait_for(f"document.querySelectorAll('.picture:not([hidden])').length === {len(students)}")
    for width in sizes_of(wall):
        assert wall.value(FITS)
        if PICTURES:
            pathlib.Path(PICTURES, f"class-trial-{width}.png").write_bytes(wall.picture())


def row_of(student: Student) -> str:
    """The row of a student's session on the wall."""
    atoms, step = student.alone[0].split()[4].decode(), student.end.split()[3].decode().replace("-", "\u2212")
    return f"{student.name}: a \u00b7 {atoms} atomsstep {step} "


def test_all_go_on_when_the_class_is_killed_in_the_middle(tmp_path: Any, request: pytest.FixtureRequest, wall: Any) -> None:
    """Each gets, byte for byte, the replies of a program alone to the same commands."""
    count = request.config.getoption("students")
    with contextlib.ExitStack() as ends:
        lesson = ends.enter_context(begun(tmp_path, count, "--of-an-address", 1000))
        wall.open(lesson.wall_link())
        trial = Trial(lesson, count)
        ends.callback(trial.end)
        trial.come_to_the_middle()
        lesson.kill()
        again = time.monotonic()
        lesson.begin()
        reached = time.monotonic()
        lost = sum(student.check() for student in trial.students)
        seconds = {student.name: student.seconds_after(again) for student in trial.students}
        slowest = max(seconds.values())
        told = f"{slowest:.2f} s after the command, {slowest - reached + again:.2f} s after its port answers"
        print(f"\n{count} students go on {told}; {lost} replies were lost")
        assert lost <= count and slowest < float("inf")
        if count >= WHOLE:
            assert slowest <= SECONDS_TO_GO_ON, seconds
        check_wall(wall, trial.students)
