"""Shows what a prompt waits for: the command, and about how far its session is."""
from __future__ import annotations

import contextlib
import time
from typing import Callable, Dict, Iterator, List, NamedTuple, Optional

from ..errors import shown
from ..interrupts import held
from ..progress import Report, reporter
from ..user import User
from .loading import words_of

# These are answered at once, even if steps were started.
AT_ONCE = ("LIST", "START", "FORGET", "LOAD", "LOADMIX")
PATIENCE = 0.5
PATIENCE_BESIDE_A_BAR = 3.0
# Runs of fewer seconds do not show how long a step takes.
SURE = 0.2
# Draws a bar at once, and says nothing if it cannot be drawn.
DELAY = 0.001
Tell = Callable[[str], None]


class Run(NamedTuple):
    """Steps that were started: the step that they lead to, their number, and the time since when they are made."""

    target: int
    steps: int
    since: float


class Waits:
    """Writes which reply is awaited, if it takes longer than a moment.

    No reply says how far a session is, so this is estimated from the time of its earlier steps. A server makes steps at any
    time. A program of its own makes them only while a reply is awaited.
    """

    def __init__(self, tell: Tell):
        self._tell = tell
        self._runs: Dict[str, Run] = {}
        self._seconds_per_step: Dict[str, float] = {}
        self._sure: Dict[str, float] = {}
        self._ended_at = 0.0
        self._typed = ""
        # The typed command whose reply was not read because of an interrupt.
        self._left = ""
        self._is_one = True
        self._is_sent = False
        self._is_told = False
        self._report: Optional[Report] = None
        self._drawn = 0
        self._bars = contextlib.ExitStack()

    @contextlib.contextmanager
    def during(self, user: User, typed: str, is_one: bool) -> Iterator[None]:
        """Waits for replies that an earlier command has left, and then writes which reply is awaited within the block: to the
        command that was typed, or to the first of several that it needs."""
        self._typed, self._is_one, self._is_sent = typed, is_one, False
        if user.name is None:
            self._leave_out(time.monotonic() - self._ended_at)
        try:
            with self._bars, user.on_wait(self._tick):
                user.catch_up()
                self._end_bar()
                self._left, self._is_sent = "", True
                yield
                if self._report:
                    self._report(self._drawn, self._drawn)
                self._end_bar()
        finally:
            self._ended_at = time.monotonic()

    def interrupted(self, user: User) -> List[str]:
        """The lines after an interrupt, which say if a command is still to be answered."""
        self._end_bar()
        if not user.unanswered:
            return ["interrupted"]
        after = self._after(user.unanswered[0])
        if not self._is_sent:
            return [f"`{shown(self._typed)}` was not sent: `{self.awaited}` is still to be answered{after}"]
        self._left = self._typed
        if not self._is_one:
            return [f"interrupted: `{self.awaited}` is given up. What it has asked for is waited for next{after}"]
        return [f"interrupted: `{self.awaited}` is still to be answered{after}. What is typed next waits for it"]

    @property
    def awaited(self) -> str:
        """The command whose reply is awaited, as it was typed."""
        return shown(self._typed if self._is_sent or not self._left else self._left)

    def note_pace(self, name: str, steps: int, seconds: float) -> None:
        """Notes how long steps of a session have taken."""
        if steps > 0:
            self._seconds_per_step[name] = seconds / steps
        if steps > 0 and seconds >= SURE:
            self._sure[name] = seconds / steps

    def seconds_of(self, name: str, steps: int) -> float:
        """The seconds that so many steps of a session take, by its runs of at least SURE seconds. 0 if there were none."""
        return steps * self._sure.get(name, 0.0)

    def knows_pace(self, name: str) -> bool:
        """Whether the time of a step of this session is known, or cannot be measured now, since steps were started."""
        return name in self._seconds_per_step or name in self._runs

    def are_started(self, name: str) -> bool:
        """Whether steps of this session were started that nobody has waited for."""
        return name in self._runs

    def note_start(self, name: str, steps: int, target: int) -> None:
        """Notes that so many more steps of a session were started."""
        now = time.monotonic()
        run = self._runs.get(name, Run(target, 0, now))
        self._runs[name] = Run(target, run.steps + steps, run.since)

    def note_answer(self, line: str) -> None:
        """Notes an answered command: its started steps are done, or its session is another one."""
        verb, *words = words_of(line)
        if words and verb not in ("START", "FORGET", "LIST"):
            self._runs.pop(words[0], None)
        if words and verb in ("LOAD", "LOADMIX", "DROP"):
            self._seconds_per_step.pop(words[0], None)
            self._sure.pop(words[0], None)

    def _leave_out(self, seconds: float) -> None:
        """Excludes a time in which no steps were made."""
        self._runs = {name: run._replace(since=run.since + seconds) for name, run in self._runs.items()}

    def _run_of(self, command: str) -> Optional[Run]:
        """The started steps that a command waits for, if any."""
        verb, *words = words_of(command)
        return self._runs.get(words[0]) if words and verb not in AT_ONCE else None

    def _after(self, command: str) -> str:
        """The text for when a command is answered, if that is known."""
        run = self._run_of(command)
        return f", when {words_of(command)[1]} is at step {run.target}" if run else ""

    def _tick(self, command: str, silent: float) -> None:
        """Writes once which reply is awaited, and draws about how far its session is."""
        run = self._run_of(command)
        if silent < (PATIENCE if run or not self._has_bar else PATIENCE_BESIDE_A_BAR):
            return
        with held():
            if not self._is_told:
                self._is_told = True
                self._tell(f"waiting for the reply to `{self.awaited}`{self._after(command)} (Ctrl-C ends the wait)")
            if run:
                self._draw(words_of(command)[1], run)

    @property
    def _has_bar(self) -> bool:
        """Whether the typed command shows its own progress."""
        return self._is_sent and words_of(self._typed)[:1] == ["ADVANCE"]

    def _draw(self, name: str, run: Run) -> None:
        """Draws the estimated number of steps made, if the time of a step is known. It is at most all but one."""
        seconds = self._seconds_per_step.get(name)
        if seconds is None or not run.steps:
            return
        if self._report is None:
            self._report = self._bars.enter_context(reporter(True, f"{name}, about", DELAY))
        done = int((time.monotonic() - run.since) / max(seconds, 1e-9))
        self._drawn = run.steps
        if self._report:
            self._report(min(done, run.steps - 1), run.steps)

    def _end_bar(self) -> None:
        self._bars.close()
        self._report, self._is_told = None, False
