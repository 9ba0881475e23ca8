"""Saves a session to a file during a run, so that a lost run costs only the steps since the last save."""
from __future__ import annotations

import contextlib
import math
import time
from typing import TYPE_CHECKING, Iterator, Optional

from .files import Path
from .progress import Report
from .scalars import real_of

if TYPE_CHECKING:
    from .session import Session


@contextlib.contextmanager
def saver(session: "Session", path: Optional[Path], seconds: float, report: Optional[Report]) -> Iterator[Optional[Report]]:
    """A progress function that calls `report`, and saves the session when so many seconds have passed since the last save.

    The session is saved at the start, so that a wrong path is reported before a step is made, and at the end. After an
    interrupt from the keyboard, the step that was reached is saved, and the interrupt is raised again. An error saves nothing.
    """
    if path is None:
        yield report
        return
    if not 0 <= real_of("seconds", seconds) < math.inf:
        raise ValueError(f"seconds must be a finite number from 0 on, got {seconds!r}")
    session.save(path)
    try:
        yield _reporter(session, path, seconds, report)
    except KeyboardInterrupt:
        session.save(path)
        raise
    session.save(path)


def _reporter(session: "Session", path: Path, seconds: float, report: Optional[Report]) -> Report:
    """A progress function that calls `report`, and saves the session if the last save was so many seconds ago."""
    last = time.monotonic()

    def tell(done: int, total: int) -> None:
        nonlocal last
        if report:
            report(done, total)
        if 0 < done < total and time.monotonic() - last >= seconds:
            session.save(path)
            last = time.monotonic()

    return tell
