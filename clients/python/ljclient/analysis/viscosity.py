"""The shear viscosity by Green and Kubo: the integral over the autocorrelation of the stress."""
from __future__ import annotations

from dataclasses import dataclass, field
from typing import TYPE_CHECKING, Any, Dict, Optional

from ..arrays import FloatArray
from ..sampling import Progress
from .analyses import Analysis, analyse
from .estimates import Blocks, Estimate
from .frames import Frame, Units
from .library import axes_of, numpy
from .origins import Origins
from .stress import NO_STRESS

if TYPE_CHECKING:
    from ..session import Session


@dataclass(frozen=True)
class ViscosityResult:
    """The viscosity of some frames.

    Parameters
    ----------
    viscosity : Estimate
        The integral up to the longest lag.
    times : array of shape (lags + 1,)
        From 0 to the longest lag, in the unit of time.
    autocorrelation, error : array of shape (lags + 1,)
        The mean product of a shear stress at two times, and its standard error, in squares of the unit of pressure.
    integral, integral_error : array of shape (lags + 1,)
        The viscosity from the integral up to each lag. It should be constant at the longest lags.
    origins : int
        Number of origins.
    units : dict of str to str
        The units of all these.
    """

    viscosity: Estimate
    times: FloatArray
    autocorrelation: FloatArray
    error: FloatArray
    integral: FloatArray
    integral_error: FloatArray
    origins: int
    units: Dict[str, str] = field(repr=False)

    def plot(self, axes: Any = None) -> Any:
        """Draws the integral up to each lag with its errors.

        Parameters
        ----------
        axes : matplotlib.axes.Axes, optional
            The axes to draw into. The default is a new figure.

        Returns
        -------
        matplotlib.axes.Axes
            The axes drawn into.
        """
        axes = axes_of(axes)
        axes.errorbar(self.times, self.integral, self.integral_error, elinewidth=0.8)
        axes.set(xlabel=f"time / {self.units['times']}", ylabel=f"viscosity / ({self.units['viscosity']})")
        return axes


class Viscosity(Analysis[ViscosityResult]):
    """The viscosity of the frames that are added.

    It uses the five independent shear stresses of an isotropic liquid (Daivis and Evans, 1994).

    Parameters
    ----------
    lags : int
        The longest lag, in analysed frames. The autocorrelation should have decayed to 0 by then.
    apart : int, optional
        Number of analysed frames between origins. The default is 1; None is a twentieth of `lags`.
    stride : int
        As in `Analysis`.

    Examples
    --------
    >>> from ljclient.analysis import Frame, Viscosity
    >>> sheared = Viscosity(lags=2)
    >>> for time in range(6):
    ...     stress = [[0, 1, 0], [1, 0, 0], [0, 0, 0]]
    ...     sheared.add(Frame.of([(0, 0, 0)], edge=10, time=time, stress=stress, energies={"temperature": 2.0}))
    >>> print(sheared.result().integral.round(6).tolist())
    [0.0, 100.0, 200.0]
    """

    needs_motion = needs_stress = True

    def __init__(self, lags: int, apart: Optional[int] = 1, stride: int = 1):
        super().__init__(stride)
        self._origins = Origins(lags, apart, lambda origin, values: [(origin * values).sum() / 10])
        self._temperatures = Blocks()
        self._volume, self._units = 0.0, Units()

    def _take(self, frame: Frame) -> None:
        if frame.stress is None:
            raise ValueError(NO_STRESS)
        if "temperature" not in frame.energies:
            raise ValueError("a frame must have a temperature, got none; use energies= of Frame.of, or Session.frames")
        self._origins.check(frame)
        stress = numpy.asarray(frame.stress, dtype=float)
        # Without its trace: the sum of all nine products is then ten times the product of one shear stress.
        shear = (stress + stress.T) / 2 - numpy.trace(stress) / 3 * numpy.eye(3)
        self._volume, self._units = frame.edge**3, frame.units
        self._origins.add(frame, shear)
        self._temperatures.add(frame.energies["temperature"])

    def result(self) -> ViscosityResult:
        """The result of the frames so far.

        Returns
        -------
        ViscosityResult
            The result.

        Raises
        ------
        ValueError
            If the frames are too few.
        """
        blocks, times, units = self._origins.blocks, self._origins.times, self._units
        size = self._size()
        integral, spread = blocks.derived(lambda rows: size * integral_of(rows[0], self._origins.interval))
        mean, error = blocks.mean()[0], blocks.error()[0]
        viscosity = Estimate(float(integral[-1]), float(spread[-1]), units.viscosity)
        return ViscosityResult(viscosity, times, mean, error, integral, spread, blocks.count, self._named())

    def _size(self) -> float:
        """The viscosity for an integral of 1: the volume over the thermal energy, with the unit conversion."""
        thermal = self._units.boltzmann * self._temperatures.mean()
        return float(self._volume / thermal * self._units.pressure_size**2 / self._units.viscosity_size)

    def _named(self) -> Dict[str, str]:
        units = self._units
        squared = f"({units.pressure})^2"
        told = {"viscosity": units.viscosity, "integral": units.viscosity, "integral_error": units.viscosity}
        return {**told, "times": units.time, "autocorrelation": squared, "error": squared}


def integral_of(values: Any, interval: float) -> Any:
    """The integral up to each value, by trapezoids."""
    return numpy.concatenate([[0.0], numpy.cumsum((values[1:] + values[:-1]) / 2)]) * interval


def viscosity(
    session: "Session", steps: int, every: int, lags: int, apart: Optional[int] = 1, progress: Progress = False
) -> ViscosityResult:
    """The shear viscosity of a session as it advances.

    Parameters
    ----------
    session : Session
        The session is advanced, and is left at its last step.
    steps, every : int
        Number of steps to advance, and number of steps between frames. The first frame is the present one.
        The stress changes within about 10 steps of 2 fs in argon.
    lags : int
        The longest lag, in frames.
    apart : int, optional
        Number of frames between origins.
    progress : bool or callable
        As in `Session.advance`.

    Returns
    -------
    ViscosityResult
        In mPa s, or in sqrt(m epsilon) / sigma^2 if epsilon and mass are not known.

    Examples
    --------
    >>> from ljclient import analysis, run, units
    >>> with run() as user:
    ...     pair = user.load("pair", [(0, 0, 0), (5.1, 0, 0)], symbols="Ar", edge=34, dt=2, **units.ARGON)
    ...     sheared = analysis.viscosity(pair, steps=100, every=10, lags=5)
    >>> print(sheared.viscosity.unit, sheared.origins)
    mPa s 6
    """
    sheared = Viscosity(lags, apart)
    analyse(session, steps, every, [sheared], progress)
    return sheared.result()
