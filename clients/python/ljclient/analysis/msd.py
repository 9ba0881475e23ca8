"""The mean squared displacement of atoms over a time, and the diffusion coefficient, a sixth of its slope."""
from __future__ import annotations

import math
from dataclasses import dataclass, field
from typing import TYPE_CHECKING, Any, Dict, Optional, Tuple

from ..arrays import FloatArray
from ..sampling import Progress
from ..units import RING
from ..unwrapping import Path
from .analyses import Analysis, Groups, analyse
from .estimates import Estimate
from .frames import Frame, Units
from .library import axes_of, numpy
from .origins import Origins

if TYPE_CHECKING:
    from ..session import Session

# The default start of the fit of the slope, as a part of the longest lag.
FIT_FROM = 0.25


@dataclass(frozen=True)
class MsdResult:
    """The mean squared displacement of some frames.

    Parameters
    ----------
    times : array of shape (lags + 1,)
        From 0 to the longest lag, in the unit of time.
    msd, error : array of shape (lags + 1,)
        The mean squared displacement, and its standard error, in squares of the unit of length.
    diffusion : Estimate
        A sixth of the slope between the times of `fit`.
    fit : tuple of float
        The range of times for the least-squares fit of the slope.
    partial : dict of str to MsdResult
        With two species, the same result for each.
    origins : int
        Number of origins.
    units : dict of str to str
        The units of `times`, `msd`, `error`, `diffusion` and `fit`.
    """

    times: FloatArray
    msd: FloatArray
    error: FloatArray
    diffusion: Estimate
    fit: Tuple[float, float]
    partial: "Dict[str, MsdResult]" = field(repr=False)
    origins: int
    units: Dict[str, str] = field(repr=False)

    def plot(self, axes: Any = None) -> Any:
        """Draws the mean squared displacement with its errors.

        Parameters
        ----------
        axes : matplotlib.axes.Axes, optional
            The axes to draw into. The default is a new figure.

        Returns
        -------
        matplotlib.axes.Axes
            The axes drawn into.
        """
        axes = axes_of(axes)
        for name, each in (self.partial or {"": self}).items():
            axes.errorbar(each.times, each.msd, each.error, label=" ".join([name, f"D = {each.diffusion}"]).strip(), elinewidth=0.8)
        axes.set(xlabel=f"time / {self.units['times']}", ylabel=f"mean squared displacement / {self.units['msd']}")
        axes.legend()
        return axes


class Msd(Analysis[MsdResult]):
    """The mean squared displacement of the frames that are added, over many origins.

    Atoms are unwrapped from frame to frame by the nearest image. So no atom may move by half the edge between two frames. A move by a
    quarter or more gives a warning.

    Parameters
    ----------
    lags : int
        The longest lag, in analysed frames. Errors need a run of at least three times this length, and about ten times for errors
        accurate to a fifth, since origins with overlapping lags are correlated.
    apart : int, optional
        Number of analysed frames between origins. The default is a twentieth of `lags`.
    fit : tuple of float, optional
        Range of times for the fit of the slope, in units of time. The default starts at a quarter of the longest lag.
    stride : int
        As in `Analysis`.

    Examples
    --------
    Two atoms that fly apart:

    >>> from ljclient.analysis import Frame, Msd
    >>> moved = Msd(lags=2)
    >>> for time in range(5):
    ...     moved.add(Frame.of([(time, 0, 0), (0, -time, 0)], edge=10, time=time))
    >>> print(moved.result().msd.round(6).tolist())
    [0.0, 1.0, 4.0]
    """

    def __init__(self, lags: int, apart: Optional[int] = None, fit: Optional[Tuple[float, float]] = None, stride: int = 1):
        super().__init__(stride)
        self._origins = Origins(lags, apart, self._compare, is_path=True)
        self._fit = fit
        self._path = Path("the run")
        self._groups: Optional[Groups] = None
        self._units = Units()

    def _take(self, frame: Frame) -> None:
        if self._groups is None:
            self._groups, self._units = Groups(frame), frame.units
        self._groups.check(frame)
        self._origins.check(frame)
        self._origins.add(frame, self._path.to(frame.places) * (frame.edge / RING))

    def _compare(self, origin: Any, moved: Any) -> Any:
        """The mean squared displacement of all atoms, and of each species."""
        assert self._groups is not None
        squares = numpy.square(moved - origin).sum(axis=1)
        return [squares.mean(), *(squares[members].mean() for members in self._groups.members.values())]

    def result(self) -> MsdResult:
        """The result of the frames so far.

        Returns
        -------
        MsdResult
            The result.

        Raises
        ------
        ValueError
            If the frames are too few.
        """
        mean, error = self._origins.blocks.mean(), self._origins.blocks.error()
        assert self._groups is not None
        times = self._origins.times
        fit = self._fit or (float(times[min(math.ceil(FIT_FROM * self._origins.lags), self._origins.lags - 1)]), float(times[-1]))
        partial = {name: self._told(row + 1, mean, error, fit, {}) for row, name in enumerate(self._groups.names)}
        return self._told(0, mean, error, fit, partial)

    def _told(self, row: int, mean: Any, error: Any, fit: Tuple[float, float], partial: Dict[str, MsdResult]) -> MsdResult:
        """The result of a group."""
        kept = self._origins.checked_range(*fit)
        times, units = self._origins.times, self._units
        rate = units.diffusion
        diffusion = self._origins.blocks.estimate(lambda rows: numpy.polyfit(times[kept], rows[row][kept], 1)[0] / 6, rate)
        squared = f"{units.length}^2"
        told = {"times": units.time, "msd": squared, "error": squared, "diffusion": rate, "fit": units.time}
        return MsdResult(times, mean[row], error[row], diffusion, fit, partial, self._origins.blocks.count, told)


def msd(
    session: "Session",
    steps: int,
    every: int,
    lags: int,
    apart: Optional[int] = None,
    fit: Optional[Tuple[float, float]] = None,
    progress: Progress = False,
) -> MsdResult:
    """The mean squared displacement of a session as it advances.

    Parameters
    ----------
    session : Session
        The session is advanced, and is left at its last step.
    steps, every : int
        Number of steps to advance, and number of steps between frames. The first frame is the present one.
    lags : int
        The longest lag, in frames.
    apart : int, optional
        Number of frames between origins, as in `Msd`.
    fit : tuple of float, optional
        Range of times for the fit of the slope, in units of time, as in `Msd`.
    progress : bool or callable
        As in `Session.advance`.

    Returns
    -------
    MsdResult
        In angstrom^2 and femtoseconds, or in the unit of the file and reduced time, also by species.

    Examples
    --------
    >>> from ljclient import analysis, run, units
    >>> with run() as user:
    ...     pair = user.load("pair", [(0, 0, 0), (4, 0, 0)], symbols="Ar", edge=34, dt=2, **units.ARGON)
    ...     moved = analysis.msd(pair, steps=100, every=10, lags=5)
    >>> print(len(moved.times), moved.origins, moved.units["msd"])
    6 6 angstrom^2
    """
    moved = Msd(lags, apart, fit)
    analyse(session, steps, every, [moved], progress)
    return moved.result()
