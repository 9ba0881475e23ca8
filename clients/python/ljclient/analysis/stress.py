"""The stress and the pressure: means over frames, with the tail correction on request."""
from __future__ import annotations

from dataclasses import dataclass, field
from typing import TYPE_CHECKING, Any, Dict

from ..arrays import FloatArray
from ..sampling import Progress
from .analyses import Analysis, analyse
from .estimates import Blocks, Estimate
from .frames import Frame, Units
from .library import numpy

if TYPE_CHECKING:
    from ..session import Session

NO_STRESS = "a frame must have a stress, got none; use stress= of Frame.of, or Session.frames"


@dataclass(frozen=True)
class StressResult:
    """The stress of some frames: the negative of the pressure tensor, as in ASE. Compressed bodies have a stress below 0.

    Parameters
    ----------
    stress, error : array of shape (3, 3)
        The mean and its standard error, in the unit of pressure.
    pressure : Estimate
        The negative third of the trace of `stress`.
    units : dict of str to str
        The units of `stress`, `error` and `pressure`.
    """

    stress: FloatArray
    error: FloatArray
    pressure: Estimate
    units: Dict[str, str] = field(repr=False)


class Stress(Analysis[StressResult]):
    """The mean stress of the frames that are added.

    Parameters
    ----------
    tail : bool
        Adds the contribution of the pairs beyond the cutoff, if the density there is uniform.
    stride : int
        As in `Analysis`.

    Examples
    --------
    >>> import numpy
    >>> from ljclient.analysis import Frame, Stress
    >>> pressed = Stress()
    >>> for pressure in (1.0, 3.0, 2.0, 2.0):
    ...     pressed.add(Frame.of([(0, 0, 0)], edge=10, stress=-pressure * numpy.eye(3)))
    >>> print(pressed.result().pressure)
    2.00 +- 0.41 epsilon / sigma^3
    """

    needs_motion = needs_stress = True

    def __init__(self, tail: bool = False, stride: int = 1):
        super().__init__(stride)
        self._tail = tail
        self._blocks = Blocks()
        self._units = Units()

    def _take(self, frame: Frame) -> None:
        if frame.stress is None:
            raise ValueError(NO_STRESS)
        if self._tail and "pressure" not in frame.tails:
            raise ValueError("a frame must have its tails for tail=True, got none; use tails= of Frame.of, or Session.frames")
        self._units = frame.units
        self._blocks.add(frame.stress - (frame.tails["pressure"] if self._tail else 0.0) * numpy.eye(3))

    def result(self) -> StressResult:
        """The result of the frames so far.

        Returns
        -------
        StressResult
            The result.

        Raises
        ------
        ValueError
            If the frames are too few.
        """
        mean, unit = self._blocks.mean(), self._units.pressure
        pressure = self._blocks.estimate(pressure_of, unit)
        return StressResult(mean, self._blocks.error(), pressure, {"stress": unit, "error": unit, "pressure": unit})


def pressure_of(stress: Any) -> float:
    """The pressure of a stress."""
    return float(-numpy.trace(stress) / 3)


class Pressure(Analysis[Estimate]):
    """The mean pressure of the frames that are added.

    Parameters
    ----------
    tail : bool
        As in `Stress`.
    stride : int
        As in `Analysis`.

    Examples
    --------
    >>> import numpy
    >>> from ljclient.analysis import Frame, Pressure
    >>> pressed = Pressure(tail=True)
    >>> for pressure in (1.0, 3.0):
    ...     pressed.add(Frame.of([(0, 0, 0)], edge=10, stress=-pressure * numpy.eye(3), tails={"pressure": -0.5}))
    >>> print(pressed.result())
    1.5 +- 1.0 epsilon / sigma^3
    """

    needs_motion = needs_stress = True

    def __init__(self, tail: bool = False, stride: int = 1):
        super().__init__(stride)
        self._stress = Stress(tail)

    def _take(self, frame: Frame) -> None:
        self._stress.add(frame)

    def result(self) -> Estimate:
        """The result of the frames so far.

        Returns
        -------
        Estimate
            The result.

        Raises
        ------
        ValueError
            If the frames are too few.
        """
        return self._stress.result().pressure


def stress(session: "Session", steps: int, every: int, tail: bool = False, progress: Progress = False) -> StressResult:
    """The mean stress of a session as it advances, and its pressure.

    Parameters
    ----------
    session : Session
        The session is advanced, and is left at its last step.
    steps, every : int
        Number of steps to advance, and number of steps between frames. The first frame is the present one.
    tail : bool
        As in `Stress`.
    progress : bool or callable
        As in `Session.advance`.

    Returns
    -------
    StressResult
        In bar, or in epsilon / sigma^3 of the first class if epsilon and mass are not known.

    Examples
    --------
    >>> from ljclient import analysis, run, units
    >>> with run() as user:
    ...     pair = user.load("pair", [(0, 0, 0), (5.1, 0, 0)], symbols="Ar", edge=34, dt=2, **units.ARGON)
    ...     pulled = analysis.stress(pair, steps=20, every=10)
    >>> print(pulled.units["stress"], pulled.stress[0, 0] > 0, pulled.stress[1, 1].round(9))
    bar True 0.0
    """
    pressed = Stress(tail)
    analyse(session, steps, every, [pressed], progress)
    return pressed.result()


def pressure(session: "Session", steps: int, every: int, tail: bool = False, progress: Progress = False) -> Estimate:
    """The mean pressure of a session as it advances.

    Parameters
    ----------
    session : Session
        The session is advanced, and is left at its last step.
    steps, every : int
        Number of steps to advance, and number of steps between frames. The first frame is the present one.
    tail : bool
        As in `Stress`.
    progress : bool or callable
        As in `Session.advance`.

    Returns
    -------
    Estimate
        In bar, or in epsilon / sigma^3 of the first class if epsilon and mass are not known.

    Examples
    --------
    >>> from ljclient import analysis, run, units
    >>> with run() as user:
    ...     pair = user.load("pair", [(0, 0, 0), (5.1, 0, 0)], symbols="Ar", edge=34, dt=2, **units.ARGON)
    ...     pulled = analysis.pressure(pair, steps=20, every=10, tail=True)
    >>> print(pulled.unit, pulled.value < 0)
    bar True
    """
    pressed = Pressure(tail)
    analyse(session, steps, every, [pressed], progress)
    return pressed.result()
