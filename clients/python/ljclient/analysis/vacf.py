"""The velocity autocorrelation function, its spectrum, and the diffusion coefficient, a third of its integral."""
from __future__ import annotations

from dataclasses import dataclass, field
from typing import TYPE_CHECKING, Any, Dict, Optional

from ..arrays import FloatArray
from ..sampling import Progress
from .analyses import Analysis, Groups, analyse
from .estimates import Estimate
from .frames import Frame, Units
from .library import axes_of, numpy
from .origins import Origins

if TYPE_CHECKING:
    from ..session import Session


@dataclass(frozen=True)
class VacfResult:
    """The velocity autocorrelation function of some frames.

    Parameters
    ----------
    times : array of shape (lags + 1,)
        From 0 to the longest lag, in the unit of time.
    vacf, error : array of shape (lags + 1,)
        The mean dot product of the velocities of an atom at two times, and its standard error, in squared units of velocity.
    normalized, normalized_error : array of shape (lags + 1,)
        `vacf` divided by its value at 0, and its standard error.
    diffusion : Estimate
        A third of the integral up to the longest lag, by trapezoids.
    frequencies : array of shape (lags + 1,)
        From 0 to the Nyquist frequency, in cycles per unit of time.
    spectrum, spectrum_error : array of shape (lags + 1,)
        Four times the cosine transform of `normalized`, in the unit of time: its integral over all frequencies is 1.
    partial : dict of str to VacfResult
        With two species, the same result for each.
    origins : int
        Number of origins.
    units : dict of str to str
        The units of all these.
    """

    times: FloatArray
    vacf: FloatArray
    error: FloatArray
    normalized: FloatArray
    normalized_error: FloatArray
    diffusion: Estimate
    frequencies: FloatArray
    spectrum: FloatArray
    spectrum_error: FloatArray
    partial: "Dict[str, VacfResult]" = field(repr=False)
    origins: int
    units: Dict[str, str] = field(repr=False)

    def plot(self, axes: Any = None) -> Any:
        """Draws the function, divided by its value at 0, with its errors.

        Parameters
        ----------
        axes : matplotlib.axes.Axes, optional
            The axes to draw into. The default is a new figure.

        Returns
        -------
        matplotlib.axes.Axes
            The axes drawn into.
        """
        axes = axes_of(axes)
        for name, each in (self.partial or {"": self}).items():
            label = " ".join([name, f"D = {each.diffusion}"]).strip()
            axes.errorbar(each.times, each.normalized, each.normalized_error, label=label, elinewidth=0.8)
        axes.set(xlabel=f"time / {self.units['times']}", ylabel="velocity autocorrelation")
        axes.legend()
        return axes

    def plot_spectrum(self, axes: Any = None) -> Any:
        """Draws the spectrum with its errors.

        Parameters
        ----------
        axes : matplotlib.axes.Axes, optional
            The axes to draw into. The default is a new figure.

        Returns
        -------
        matplotlib.axes.Axes
            The axes drawn into.
        """
        axes = axes_of(axes)
        for name, each in (self.partial or {"": self}).items():
            axes.errorbar(each.frequencies, each.spectrum, each.spectrum_error, label=name or None, elinewidth=0.8)
        axes.set(xlabel=f"frequency / ({self.units['frequencies']})", ylabel=f"spectrum / {self.units['spectrum']}")
        if self.partial:
            axes.legend()
        return axes


class Vacf(Analysis[VacfResult]):
    """The velocity autocorrelation function of the frames that are added, over many origins.

    Parameters
    ----------
    lags : int
        The longest lag, in analysed frames. The function should have decayed to 0 by then.
    apart : int, optional
        Number of analysed frames between origins. The default is a twentieth of `lags`.
    stride : int
        As in `Analysis`.

    Examples
    --------
    A velocity that rotates with a period of 4:

    >>> from ljclient.analysis import Frame, Vacf
    >>> speeds = Vacf(lags=4)
    >>> for time in range(9):
    ...     velocity = [(1, 0, 0), (0, 1, 0), (-1, 0, 0), (0, -1, 0)][time % 4]
    ...     speeds.add(Frame.of([(0, 0, 0)], edge=10, time=time, velocities=[velocity]))
    >>> print(speeds.result().vacf.tolist())
    [1.0, 0.0, -1.0, 0.0, 1.0]
    """

    needs_motion = True

    def __init__(self, lags: int, apart: Optional[int] = None, stride: int = 1):
        super().__init__(stride)
        self._origins = Origins(lags, apart, self._compare)
        self._groups: Optional[Groups] = None
        self._units = Units()

    def _take(self, frame: Frame) -> None:
        if frame.velocities is None:
            raise ValueError("a frame must have velocities, got none; use velocities= of Frame.of, or Session.frames")
        if self._groups is None:
            self._groups, self._units = Groups(frame), frame.units
        self._groups.check(frame)
        self._origins.check(frame)
        self._origins.add(frame, numpy.asarray(frame.velocities, dtype=float))

    def _compare(self, origin: Any, velocities: Any) -> Any:
        """The mean dot product over all atoms, and by species."""
        assert self._groups is not None
        products = numpy.einsum("ij,ij->i", origin, velocities)
        return [products.mean(), *(products[members].mean() for members in self._groups.members.values())]

    def result(self) -> VacfResult:
        """The result of the frames so far.

        Returns
        -------
        VacfResult
            The result.

        Raises
        ------
        ValueError
            If the frames are too few.
        """
        mean, error = self._origins.blocks.mean(), self._origins.blocks.error()
        assert self._groups is not None
        partial = {name: self._told(row + 1, mean, error, {}) for row, name in enumerate(self._groups.names)}
        return self._told(0, mean, error, partial)

    def _told(self, row: int, mean: Any, error: Any, partial: Dict[str, VacfResult]) -> VacfResult:
        """The result of a group."""
        blocks, times, interval = self._origins.blocks, self._origins.times, self._origins.interval
        normalized, spread = blocks.derived(lambda rows: rows[row] / rows[row][0])
        diffusion = blocks.estimate(lambda rows: numpy.trapz(rows[row], times) / 3, self._units.diffusion)
        frequencies = numpy.arange(len(times)) / (2 * interval * self._origins.lags)
        spectrum, uncertain = blocks.derived(lambda rows: spectrum_of(rows[row] / rows[row][0], interval))
        return VacfResult(
            times,
            mean[row],
            error[row],
            normalized,
            spread,
            diffusion,
            frequencies,
            spectrum,
            uncertain,
            partial,
            blocks.count,
            self._named(),
        )

    def _named(self) -> Dict[str, str]:
        units = self._units
        rate = units.square_velocity
        each = {"times": units.time, "vacf": rate, "error": rate, "normalized": "1", "normalized_error": "1"}
        spectrum = {"frequencies": units.frequency, "spectrum": units.time, "spectrum_error": units.time}
        return {**each, "diffusion": units.diffusion, **spectrum}


def spectrum_of(values: Any, interval: float) -> Any:
    """Four times the cosine transform of equally spaced values from 0 on, by trapezoids, at as many frequencies.

    The function is even, so this is the discrete Fourier transform of the values and their mirror image.
    """
    there_and_back = numpy.concatenate([values, values[-2:0:-1]])
    return 2 * interval * numpy.fft.rfft(there_and_back).real


def vacf(session: "Session", steps: int, every: int, lags: int, apart: Optional[int] = None, progress: Progress = False) -> VacfResult:
    """The velocity autocorrelation function of a session as it advances, with its spectrum.

    Parameters
    ----------
    session : Session
        The session is advanced, and is left at its last step.
    steps, every : int
        Number of steps to advance, and number of steps between frames. The first frame is the present one.
    lags : int
        The longest lag, in frames.
    apart : int, optional
        Number of frames between origins, as in `Vacf`.
    progress : bool or callable
        As in `Session.advance`.

    Returns
    -------
    VacfResult
        In angstrom and femtoseconds, or in the unit of the file and reduced time, also by species.

    Examples
    --------
    >>> from ljclient import analysis, run, units
    >>> with run() as user:
    ...     pair = user.load("pair", [(0, 0, 0), (4, 0, 0)], symbols="Ar", edge=34, dt=2, **units.ARGON)
    ...     speeds = analysis.vacf(pair, steps=100, every=10, lags=5)
    >>> print(speeds.normalized[0], speeds.units["frequencies"])
    1.0 1 / fs
    """
    speeds = Vacf(lags, apart)
    analyse(session, steps, every, [speeds], progress)
    return speeds.result()
