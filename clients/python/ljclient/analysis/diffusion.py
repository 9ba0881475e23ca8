"""The diffusion coefficient of one run by two methods: the slope of displacements, and the integral over velocities."""
from __future__ import annotations

from dataclasses import dataclass, field
from typing import TYPE_CHECKING, Dict, Optional, Tuple

from ..sampling import Progress
from .analyses import Analysis, analyse
from .estimates import Estimate
from .frames import Frame
from .msd import Msd, MsdResult
from .vacf import Vacf, VacfResult

if TYPE_CHECKING:
    from ..session import Session


@dataclass(frozen=True)
class DiffusionResult:
    """The diffusion coefficient of some frames, by both methods.

    Parameters
    ----------
    by_msd, by_vacf : Estimate
        A sixth of the slope of the mean squared displacement, and a third of the integral over the velocity autocorrelation.
    partial : dict of str to (Estimate, Estimate)
        With two species, both estimates of each.
    msd : MsdResult
        The mean squared displacement.
    vacf : VacfResult
        The velocity autocorrelation function.
    """

    by_msd: Estimate
    by_vacf: Estimate
    partial: Dict[str, Tuple[Estimate, Estimate]]
    msd: MsdResult = field(repr=False)
    vacf: VacfResult = field(repr=False)


class Diffusion(Analysis[DiffusionResult]):
    """The diffusion coefficient of the frames that are added, by both methods.

    Parameters
    ----------
    lags : int
        The longest lag of velocities, in frames that are looked at.
    msd_lags : int, optional
        The longest lag of displacements. The default is `lags`.
    fit : tuple of float, optional
        As in `Msd`.
    stride : int
        As in `Analysis`.

    Examples
    --------
    An atom in uniform motion has no diffusion coefficient. Both estimates grow with the lag:

    >>> from ljclient.analysis import Diffusion, Frame
    >>> both = Diffusion(lags=2)
    >>> for time in range(5):
    ...     both.add(Frame.of([(time, 0, 0)], edge=10, time=time, velocities=[(1, 0, 0)]))
    >>> print(round(both.result().by_vacf.value, 3), round(both.result().msd.msd[2], 3))
    0.667 4.0
    """

    needs_motion = True

    def __init__(self, lags: int, msd_lags: Optional[int] = None, fit: Optional[Tuple[float, float]] = None, stride: int = 1):
        super().__init__(stride)
        self._speeds = Vacf(lags)
        self._moved = Msd(lags if msd_lags is None else msd_lags, fit=fit)

    def _take(self, frame: Frame) -> None:
        self._speeds.add(frame)
        self._moved.add(frame)

    def result(self) -> DiffusionResult:
        """The result of the frames so far.

        Returns
        -------
        DiffusionResult
            The result.

        Raises
        ------
        ValueError
            If the frames are too few.
        """
        moved, speeds = self._moved.result(), self._speeds.result()
        partial = {name: (moved.partial[name].diffusion, each.diffusion) for name, each in speeds.partial.items()}
        return DiffusionResult(moved.diffusion, speeds.diffusion, partial, moved, speeds)


def diffusion(
    session: "Session",
    steps: int,
    every: int,
    lags: int,
    msd_lags: Optional[int] = None,
    fit: Optional[Tuple[float, float]] = None,
    progress: Progress = False,
) -> DiffusionResult:
    """The diffusion coefficient of a session as it advances, from the displacements and from the velocities of its atoms.

    Parameters
    ----------
    session : Session
        The session is advanced, and is left at its last step.
    steps, every : int
        Number of steps to advance, and number of steps between frames. The first frame is the present one.
    lags : int
        The longest lag of velocities, in frames.
    msd_lags : int, optional
        The longest lag of displacements, in frames. The default is `lags`.
    fit : tuple of float, optional
        Range of times for the fit of the slope, in units of time, as in `Msd`.
    progress : bool or callable
        As in `Session.advance`.

    Returns
    -------
    DiffusionResult
        In angstrom^2 / fs (10^-4 angstrom^2 / fs is 10^-5 cm^2 / s), or in the unit of the file and reduced time; also by species.

    Examples
    --------
    >>> from ljclient import analysis, run, units
    >>> with run() as user:
    ...     pair = user.load("pair", [(0, 0, 0), (4, 0, 0)], symbols="Ar", edge=34, dt=2, **units.ARGON)
    ...     both = analysis.diffusion(pair, steps=200, every=10, lags=5, msd_lags=10)
    >>> print(both.by_msd.unit, "|", both.by_vacf.unit)
    angstrom^2 / fs | angstrom^2 / fs
    """
    both = Diffusion(lags, msd_lags, fit)
    analyse(session, steps, every, [both], progress)
    return both.result()
