"""Sessions that advance by many steps, in pieces: one session, or several at the same time."""
from __future__ import annotations

import threading
import time
from typing import Callable, ContextManager, Iterable, List, Optional, Protocol, Sequence, cast

from .names import whole_of
from .progress import Report
from .replies import number_after
from .wire import Reply

MAX_STEPS = 1_000_000
UNBOUNDED = 1 << 62
FIRST_PIECE = 16
PIECE_SECONDS = 0.2
PAUSE_SECONDS = 0.001
# Returns the replies to many commands of the protocol.
Ask = Callable[[Iterable[str]], List[Reply]]


class Pace:
    """The number of steps that takes about as long as a piece should."""

    def __init__(self) -> None:
        self._seconds_per_step = 0.0

    def steps(self) -> int:
        if not self._seconds_per_step:
            return FIRST_PIECE
        return max(1, min(MAX_STEPS, int(PIECE_SECONDS / self._seconds_per_step)))

    def took(self, steps: int, seconds: float) -> None:
        if steps:
            self._seconds_per_step = max(seconds / steps, 1e-9)


class Hooks(Protocol):
    """Methods called before and after each piece of a session."""

    def ready(self) -> int:
        """Prepares the session, and returns how many steps it may advance before the next call."""

    def made(self, steps: int, step: int) -> int:
        """Counts steps that were made, and returns the user's number of the server's step."""


class Progress:
    """The progress of a session through a total number of steps."""

    def __init__(self, name: str, total: int, report: Optional[Report], hooks: Hooks):
        self.name = name
        self.total = total
        self.done = 0
        self.step: Optional[int] = None
        self._report = report
        self._hooks = hooks
        self._room = UNBOUNDED

    @property
    def is_over(self) -> bool:
        return self.step is not None and self.done >= self.total

    def make_ready(self) -> None:
        if self.done < self.total:
            self._room = self._hooks.ready()

    def next_piece(self, most: int) -> int:
        return min(self.total - self.done, self._room, most)

    def note_made(self, steps: int, step: int) -> None:
        self.done += steps
        self.step = self._hooks.made(steps, step)

    def tell(self) -> None:
        """Reports the steps done and the total, if there is a report."""
        if self._report:
            self._report(self.done, self.total)


class Breaks:
    """Pauses in which other threads get the lock: a thread that takes it again at once often gets it before waiting ones."""

    def __init__(self) -> None:
        self._last = time.monotonic()

    def take(self) -> None:
        """Pauses for a moment each tenth of a second, if there are other threads."""
        if threading.active_count() > 1 and time.monotonic() - self._last >= PIECE_SECONDS / 2:
            time.sleep(PAUSE_SECONDS)
            self._last = time.monotonic()


def go(all_progress: Sequence[Progress], ask: Ask, pace: Pace, piece: Optional[int], lock: ContextManager[object]) -> List[int]:
    """Advances sessions at the same time, in pieces of a given size or at a pace, and returns their step numbers.

    The lock is held during each piece. Between pieces other threads may use the user.
    """
    if piece is not None and whole_of(piece, "piece") < 1:
        raise ValueError(f"piece must be at least 1 step, got {piece}")
    for progress in all_progress:
        progress.tell()
    breaks = Breaks()
    while under_way := [progress for progress in all_progress if not progress.is_over]:
        with lock:
            for progress in under_way:
                progress.make_ready()
            start = time.monotonic()
            steps = go_by(under_way, ask, piece or pace.steps())
            pace.took(steps, time.monotonic() - start)
        for progress in under_way:
            if progress.total:
                progress.tell()
        breaks.take()
    return [cast(int, progress.step) for progress in all_progress]


def go_by(all_progress: Sequence[Progress], ask: Ask, most: int) -> int:
    """Advances each session by its next piece, at most `most` steps, and waits for all. Returns the largest piece."""
    first, *others = all_progress
    sizes = [progress.next_piece(most) for progress in all_progress]
    starts = [f"START {other.name} {size}" for other, size in zip(others, sizes[1:])]
    waits = [f"ADVANCE {first.name} {sizes[0]}", *(f"ADVANCE {other.name} 0" for other in others)]
    replies = ask([*starts, *waits])[len(starts) :]
    for progress, size, line, reply in zip(all_progress, sizes, waits, replies):
        progress.note_made(size, number_after(line, reply.words, 2))
    return max(sizes)
