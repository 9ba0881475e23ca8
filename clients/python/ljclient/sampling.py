"""Samples of a session: its positions every so many steps, in arrays."""
from __future__ import annotations

from typing import TYPE_CHECKING, Any, Callable, Iterator, List, NamedTuple, Tuple, Union

from . import arrays, progress as bars
from .names import whole_of
from .unwrapping import unwrapped

if TYPE_CHECKING:
    from .session import Session

Progress = Union[bool, bars.Report]


class Samples(NamedTuple):
    """Frames of a session, with their step numbers.

    Attributes
    ----------
    steps : list of int
        The step number of each frame.
    frames : numpy.ndarray, shape (frames, atoms, 3)
        Positions in the unit of the file, or places in ring units. A list of lists of tuples if numpy is not installed.
    """

    steps: List[int]
    frames: Union[arrays.FloatArray, arrays.IntArray]


def checked_stops(every: Any, count: Any, what: str) -> None:
    """Raises TypeError or ValueError unless both are whole numbers above 0."""
    for number, name in ((every, "every"), (count, what)):
        if whole_of(number, name) < 1:
            raise ValueError(f"{name} must be at least 1, got {number}")


def stops(session: "Session", every: int, count: int, progress: Progress, ahead: int = 0) -> Iterator[int]:
    """The numbers of `count` stops, the first at the present step; the session advances by `every` steps between two.

    At each stop except the last, the caller itself makes the first `ahead` of these steps.
    """
    with bars.reporter(progress, session.name) as report:
        for number in range(count - 1):
            yield number
            made = every * number + ahead
            session.advance(every - ahead, onward(report, made, every * (count - 1)) if report else False)
    yield count - 1


def onward(report: bars.Report, made: int, total: int) -> bars.Report:
    """A report that adds `made` earlier steps to those done, of a total."""
    return lambda done, _: report(made + done, total)


def sample(
    session: "Session", take: Callable[[], Tuple[int, Any]], every: int, frames: int, progress: Progress, period: Any = None
) -> Samples:
    """Frames of a session with their steps, as `take` returns them. If this is interrupted, `session.sampled` has those so far.

    With a period, the edge of the box, atoms are followed from frame to frame.
    """
    checked_stops(every, frames, "frames")
    taken: List[Tuple[int, Any]] = []
    session.sampled = None
    try:
        for _ in stops(session, every, frames, progress):
            taken.append(take())
    except BaseException:
        session.sampled = _samples_of(session.name, taken, period)
        raise
    return _samples_of(session.name, taken, period)


def _samples_of(name: str, taken: List[Tuple[int, Any]], period: Any) -> Samples:
    """Frames and their steps as `Samples`."""
    frames = arrays.stacked([frame for _, frame in taken])
    return Samples([step for step, _ in taken], frames if period is None else unwrapped(name, frames, period))
