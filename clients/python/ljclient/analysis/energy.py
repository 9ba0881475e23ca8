"""Energies and temperature: means over frames, with the tail correction on request."""
from __future__ import annotations

import operator
from dataclasses import dataclass
from typing import TYPE_CHECKING

from ..sampling import Progress
from .analyses import Analysis, analyse
from .estimates import Blocks, Estimate
from .frames import Frame, Units

if TYPE_CHECKING:
    from ..session import Session


@dataclass(frozen=True)
class EnergyResult:
    """The energies per atom of some frames, and their temperature.

    Parameters
    ----------
    kinetic, potential, total : Estimate
        Means per atom, in the unit of energy.
    temperature : Estimate
        The mean temperature, in its unit.
    """

    kinetic: Estimate
    potential: Estimate
    total: Estimate
    temperature: Estimate


class Energy(Analysis[EnergyResult]):
    """The mean energies of the frames that are added.

    Parameters
    ----------
    tail : bool
        Adds the contribution of the pairs beyond the cutoff to the potential energy, if the density there is uniform.
    stride : int
        As in `Analysis`.

    Examples
    --------
    >>> from ljclient.analysis import Energy, Frame
    >>> energy = Energy()
    >>> for kinetic in (2.0, 4.0):
    ...     told = {"kinetic": kinetic, "potential": -8.0, "temperature": kinetic / 3}
    ...     energy.add(Frame.of([(0, 0, 0), (1, 0, 0)], edge=10, energies=told))
    >>> print(energy.result().total)
    -2.50 +- 0.50 epsilon
    """

    needs_motion = True

    def __init__(self, tail: bool = False, stride: int = 1):
        super().__init__(stride)
        self._tail = tail
        self._blocks = Blocks()
        self._units = Units()

    def _take(self, frame: Frame) -> None:
        if not {"kinetic", "potential", "temperature"} <= set(frame.energies):
            raise ValueError("a frame must have energies, got none; use energies= of Frame.of, or Session.frames")
        if self._tail and "potential" not in frame.tails:
            raise ValueError("a frame must have its tails for tail=True, got none; use tails= of Frame.of, or Session.frames")
        potential = frame.energies["potential"] + (frame.tails["potential"] if self._tail else 0.0)
        self._units = frame.units
        self._blocks.add([frame.energies["kinetic"] / frame.atoms, potential / frame.atoms, frame.energies["temperature"]])

    def result(self) -> EnergyResult:
        """The result of the frames so far.

        Returns
        -------
        EnergyResult
            The result.

        Raises
        ------
        ValueError
            If the frames are too few.
        """
        unit = self._units.energy
        kinetic, potential = (self._blocks.estimate(operator.itemgetter(at), unit) for at in (0, 1))
        total = self._blocks.estimate(lambda row: row[0] + row[1], unit)
        return EnergyResult(kinetic, potential, total, self._blocks.estimate(operator.itemgetter(2), self._units.temperature))


def energy(session: "Session", steps: int, every: int, tail: bool = False, progress: Progress = False) -> EnergyResult:
    """The mean energies per atom of a session as it advances, and its temperature.

    Parameters
    ----------
    session : Session
        The session is advanced, and is left at its last step.
    steps, every : int
        Number of steps to advance, and number of steps between frames. The first frame is the present one.
    tail : bool
        As in `Energy`.
    progress : bool or callable
        As in `Session.advance`.

    Returns
    -------
    EnergyResult
        Energies in electronvolt if epsilon and mass are known, else in epsilon of the first class. The temperature is in kelvin if
        epsilon is known, else in epsilon / k_B.

    Examples
    --------
    >>> from ljclient import analysis, run
    >>> with run() as user:
    ...     pair = user.load("pair", [(0, 0, 0), (1.5, 0, 0)], symbols="Ar", edge=20, sigma=1, h=4295)
    ...     told = analysis.energy(pair, steps=20, every=10)
    >>> print(f"{told.total.value:.2f} {told.total.unit}")
    -0.16 epsilon
    """
    told = Energy(tail)
    analyse(session, steps, every, [told], progress)
    return told.result()
