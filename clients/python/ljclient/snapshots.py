"""Frames of a session during a run, with positions, velocities, forces and energies."""
from __future__ import annotations

import dataclasses
import functools
from typing import TYPE_CHECKING, Any, Iterator, List, Optional, Sequence, Union, cast

from . import arrays, progress as bars
from .centred import ThreeFrames, three_frames
from .names import count_of, shortened
from .pressure import Composition, composition_of, of_frames
from .sampling import Progress, checked_stops, onward
from .thermo import Thermo
from .units import RING, Scale
from .unwrapping import Path, warn_of_far

if TYPE_CHECKING:
    from .session import Session
    from .user import User

Every = Union[int, Sequence[int]]


@dataclasses.dataclass(frozen=True)
class Snapshot:
    """A session as it is at a step.

    Positions, velocities, forces and displacements are computed when they are read: arrays of shape (atoms, 3), or lists of tuples
    if numpy is not installed.

    Attributes
    ----------
    step : int
        The step number.
    time : float
        The time of the step: in femtoseconds if epsilon and mass are known, else in units of `sigma sqrt(m / epsilon)`.
    energies : Thermo
        The row of `Session.thermo` of this step: temperature, kinetic, potential and total energy.
    scale : Scale
        The scale of the session's whole numbers.
    moved : numpy.ndarray of int, shape (atoms, 3)
        The unwrapped displacement of each atom from the first frame, in ring units.
    three : ThreeFrames
        The places at this step, one step before and one step after, in ring units.
    atoms : Composition
        How the atoms interact.
    name : str
        The name of the session.
    far : float
        The largest move of an atom from one frame to the next so far, as a fraction of the edge.
    """

    step: int
    time: float
    energies: Thermo
    scale: Scale = dataclasses.field(repr=False)
    moved: Any = dataclasses.field(repr=False, compare=False)
    three: ThreeFrames = dataclasses.field(repr=False, compare=False)
    atoms: Composition = dataclasses.field(repr=False, compare=False)
    name: str = dataclasses.field(default="", repr=False, compare=False)
    far: float = dataclasses.field(default=0.0, repr=False, compare=False)

    @property
    def temperature(self) -> float:
        """The temperature of `energies`: in kelvin if epsilon is known, else in epsilon / k_B."""
        return self.energies.temperature

    @property
    def places(self) -> arrays.IntArray:
        """The places, in ring units: whole numbers from 0 to 2^32 - 1."""
        return self.three.now

    @functools.cached_property
    def positions(self) -> arrays.FloatArray:
        """The positions in the unit of the file, from 0 up to the edge."""
        return arrays.of_positions(self.three.now, self.scale.edge)

    @functools.cached_property
    def velocities(self) -> arrays.FloatArray:
        """The velocities, as in `Session.velocities`."""
        return self.three.velocities(self.scale)

    @functools.cached_property
    def forces(self) -> arrays.FloatArray:
        """The forces, as in `Session.forces`."""
        return self.three.forces(self.scale)

    @functools.cached_property
    def pressure(self) -> float:
        """The pressure in epsilon / sigma^3, as in `Session.pressure`. It needs numpy."""
        return of_frames(self.three, self.atoms)

    @property
    def displacements(self) -> arrays.FloatArray:
        """The displacements from the first frame in the unit of the file, also across the borders of the periodic box.

        A warning is given if an atom may have moved around the box the other way between two frames.
        """
        warn_of_far(self.name, self.far)
        return self._displacements

    @functools.cached_property
    def _displacements(self) -> arrays.FloatArray:
        return arrays.scaled(self.moved, self.scale.edge / RING)


def stops_of(every: Every, count: Optional[int]) -> List[int]:
    """The number of steps from here to each frame: multiples of `every`, or the numbers in a list.

    Raises TypeError or ValueError for other values.
    """
    if hasattr(every, "__len__"):
        if count is not None:
            raise ValueError(f"n must be left out beside a list of {len(every)} steps, got {count!r}; the list has a frame for each step")
        return checked_stops_of(cast(Sequence[int], every))
    if count is None:
        raise ValueError("n must be the number of frames, got None; use n=..")
    checked_stops(every, count, "n")
    return [every * number for number in range(count)]


def checked_stops_of(steps: Sequence[int]) -> List[int]:
    """The steps of a list. Raises TypeError or ValueError unless they are strictly increasing whole numbers."""
    stops = [count_of(step, "the number of steps") for step in steps]
    if not stops or any(later <= stop for stop, later in zip(stops, stops[1:])):
        raise ValueError(f"a list of steps must have at least one, each greater than the one before, got {shortened(stops)}")
    return stops


def snapshots(session: "Session", user: "User", stops: Sequence[int], progress: Progress) -> Iterator[Snapshot]:
    """The snapshots of a session after these numbers of steps from here. When one is yielded, the session is at its step."""
    path, made, far = Path(session.name), 0, 0.0
    with bars.reporter(progress, session.name) as report:
        for stop in stops:
            if stop > made:
                session.advance(stop - made, onward(report, made, stops[-1]) if report else False)
            made = stop
            snapshot = _taken(session, user, path, far)
            far = snapshot.far
            yield snapshot


def _taken(session: "Session", user: "User", path: Path, far: float) -> Snapshot:
    """The snapshot of a session as it is. `far` is the largest move of an atom between earlier frames."""
    with session._lock:
        here, three, atoms = session.measure(), three_frames(user, session.name), composition_of(session, user)
    after = dataclasses.replace(here, kinetic=three.kinetic_after())
    scale = session.scale
    moved, farther = path.followed(three.now)
    time, energies = scale.time(three.step), Thermo.of(here, after)
    return Snapshot(three.step, time, energies, scale, moved, three, atoms, session.name, max(far, farther))
