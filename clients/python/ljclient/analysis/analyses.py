"""The base class of all analyses: they take frames one at a time, and give a result. `analyse` passes them the frames of a session."""
from __future__ import annotations

from typing import TYPE_CHECKING, Any, Dict, Generic, Iterator, List, Sequence, TypeVar

from .. import progress as bars
from ..names import whole_of
from ..sampling import Progress, checked_stops, onward
from ..snapshots import Snapshot
from .frames import Frame, Source, frame_of, position_frame
from .library import numpy

if TYPE_CHECKING:
    from ..session import Session

Result = TypeVar("Result", covariant=True)


class Analysis(Generic[Result]):
    """An analysis takes frames one at a time, and gives one result. Its memory does not grow with their number.

    Parameters
    ----------
    stride : int
        Of the added frames, every `stride`-th is looked at, beginning with the first.
    """

    # Whether frames must have more than positions, and whether they must have the stress.
    needs_motion = False
    needs_stress = False

    def __init__(self, stride: int = 1):
        self.stride = checked_count("stride", stride)
        self._added = 0

    def add(self, frame: Source) -> None:
        """Adds the next frame.

        Parameters
        ----------
        frame : Frame or Snapshot
            Atoms at an instant, or a snapshot from `Session.frames`.

        Raises
        ------
        ValueError
            If the frame lacks data for the analysis, or does not fit the frames before it. It is not added then.
        """
        if self._added % self.stride == 0:
            self._take(frame_of(frame, self.needs_stress) if isinstance(frame, Snapshot) else frame)
        self._added += 1

    def result(self) -> Result:
        """The result of the frames so far.

        Returns
        -------
        object
            The result.

        Raises
        ------
        ValueError
            If the frames are too few.
        """
        raise NotImplementedError

    def _take(self, frame: Frame) -> None:
        """Looks at a frame."""
        raise NotImplementedError


def checked_count(name: str, number: int, least: int = 1) -> int:
    """A whole number of at least `least`. Other values raise TypeError or ValueError, with the name of the number."""
    count = whole_of(number, name)
    if count < least:
        raise ValueError(f"{name} must be at least {least}, got {count}")
    return count


def analyse(session: "Session", steps: int, every: int, analyses: Sequence["Analysis[object]"], progress: Progress = False) -> None:
    """Advances a session, and passes its frames to analyses.

    Parameters
    ----------
    session : Session
        The session is advanced, and is left at its last step.
    steps : int
        Number of steps to advance. Steps that remain after the last frame are made too.
    every : int
        Number of steps between frames. The first frame is the present one.
    analyses : sequence of Analysis
        The analyses, such as `[Rdf(), Vacf(100)]`. Their `result()` gives the results, also if the run is interrupted.
    progress : bool or callable
        As in `Session.advance`.

    Raises
    ------
    ValueError
        If the session's scale is not known, or `steps` or `every` is below 1.
    TypeError
        If `steps` or `every` is not a whole number.

    Examples
    --------
    >>> from ljclient import analysis, run, units
    >>> with run() as user:
    ...     pair = user.load("pair", [(0, 0, 0), (4, 0, 0)], symbols="Ar", edge=34, dt=2, **units.ARGON)
    ...     energy, moved = analysis.Energy(), analysis.Msd(lags=2)
    ...     analysis.analyse(pair, 40, 10, [energy, moved])
    >>> print(energy.result().total.unit, len(moved.result().times))
    eV 3
    """
    checked_stops(every, steps, "steps")
    for frame in _frames(session, steps, every, analyses, progress):
        for each in analyses:
            each.add(frame)


def _frames(session: "Session", steps: int, every: int, analyses: Sequence["Analysis[object]"], progress: Progress) -> Iterator[Frame]:
    """Frames of a session that is advanced by `steps`, with the data that analyses need."""
    count, with_stress = steps // every + 1, any(each.needs_stress for each in analyses)
    with bars.reporter(progress, session.name) as report:
        step: Progress = onward(report, 0, steps) if report else False
        if any(each.needs_motion for each in analyses):
            for snapshot in session.frames(every, count, step):
                yield frame_of(snapshot, with_stress)
        else:
            yield from _positions(session, every, count, step)
        if rest := steps % every:
            session.advance(rest)


def _positions(session: "Session", every: int, count: int, progress: Progress) -> Iterator[Frame]:
    """Frames with positions only."""
    species = session.symbols() if session.mixture else []
    for number in range(count):
        if number:
            session.advance(every, onward(progress, (number - 1) * every, (count - 1) * every) if callable(progress) else False)
        yield position_frame(session, species)


class Groups:
    """The atoms of each species, if there are two, and all atoms.

    names    of the species, in the order of their first atoms
    members  of each species the numbers of its atoms
    """

    def __init__(self, frame: Frame):
        self.count = frame.atoms
        self.species = list(frame.species)
        self.names: List[str] = list(dict.fromkeys(self.species))
        if self.species and len(self.species) != self.count:
            raise ValueError(f"species must be one symbol for each of {self.count} atoms, got {len(self.species)}")
        if len(self.names) < 2:
            self.names = []
        symbols = numpy.array(self.species)
        self.members: Dict[str, Any] = {name: numpy.flatnonzero(symbols == name) for name in self.names}

    def check(self, frame: Frame) -> None:
        """Raises ValueError unless a frame has the same atoms."""
        if frame.atoms != self.count or list(frame.species) != self.species:
            raise ValueError(f"all frames must have the same atoms, got {frame.atoms} after {self.count}, or other symbols")
