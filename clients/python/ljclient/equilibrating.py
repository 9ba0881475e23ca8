"""Runs that bring atoms to a temperature: velocities are rescaled after stretches whose mean temperature is measured."""
from __future__ import annotations

from typing import TYPE_CHECKING, List, Optional, Sequence

from . import progress as bars
from .names import count_of, whole_of
from .sampling import Progress, onward

if TYPE_CHECKING:
    from .session import Session

# The temperature of a stretch is the mean of this many values, measured after equal parts of it.
POINTS = 10
# The default length of a stretch is all steps divided by this.
STRETCHES = 20


def equilibrate(session: "Session", temperature: float, steps: int, every: Optional[int], progress: Progress, seed: int) -> float:
    """As `Session.equilibrate`."""
    total = count_of(steps, "the number of steps")
    length = max(1, total // STRETCHES) if every is None else whole_of(every, "every")
    if length < 1:
        raise ValueError(f"every must be at least 1, got {every}")
    told = [session.rescale(temperature) if session.measure().kinetic else session.heat(temperature, seed)]
    with bars.reporter(progress, session.name) as report:
        for made in range(0, total, length):
            if made:
                session.rescale(_wanted(temperature, told))
            told = _temperatures(session, min(length, total - made), made, total, report)
    return _mean(told)


def _wanted(temperature: float, told: Sequence[float]) -> float:
    """The temperature to set now, so that the mean of the last stretch would have been the wanted one."""
    return temperature * told[-1] / _mean(told) if _mean(told) else temperature


def _mean(told: Sequence[float]) -> float:
    return sum(told) / len(told)


def _temperatures(session: "Session", steps: int, made: int, total: int, report: Optional[bars.Report]) -> List[float]:
    """Advances by `steps`, after `made` steps of a total, and returns the temperatures on the way."""
    points, told = min(POINTS, steps), []
    stops = [steps * number // points for number in range(points + 1)]
    for start, stop in zip(stops, stops[1:]):
        session.advance(stop - start, onward(report, made + start, total) if report else False)
        told.append(session.measure().temperature)
    return told
