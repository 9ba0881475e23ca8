"""The static structure factor S(k): how strongly a liquid or a crystal scatters at a wave vector, from sums over all atoms."""
from __future__ import annotations

import itertools
import math
from dataclasses import dataclass, field
from typing import TYPE_CHECKING, Any, Dict, List, Optional, Tuple

from ..arrays import FloatArray
from ..sampling import Progress
from ..scalars import checked_positive
from ..units import RING
from .analyses import Analysis, Groups, analyse
from .estimates import Blocks
from .frames import Frame, Units
from .library import axes_of, numpy

if TYPE_CHECKING:
    from ..session import Session

# Number of waves along the edge at the default largest wave number.
WAVES = 16
Pair = Tuple[str, str]


@dataclass(frozen=True)
class StructureFactorResult:
    """The structure factor of some frames.

    Parameters
    ----------
    k : array of shape (shells,)
        The mean wave number of each shell, in radians per unit of length.
    s, error : array of shape (shells,)
        S(k), the mean over the wave vectors of the shell, and its standard error. It has no unit.
    vectors : array of shape (shells,)
        Number of wave vectors in each shell. Opposite ones count once.
    partial : dict of (str, str) to StructureFactorResult
        With two species, the same result for each pair of them: the mean of `Re(rho_a rho_b*) / sqrt(N_a N_b)` (Ashcroft and Langreth).
    frames : int
        Number of frames.
    units : dict of str to str
        The units of `k`, `s` and `error`.
    """

    k: FloatArray
    s: FloatArray
    error: FloatArray
    vectors: FloatArray
    partial: "Dict[Pair, StructureFactorResult]" = field(repr=False)
    frames: int
    units: Dict[str, str] = field(repr=False)

    def plot(self, axes: Any = None) -> Any:
        """Draws S(k) with its errors, for each pair of species if there are two.

        Parameters
        ----------
        axes : matplotlib.axes.Axes, optional
            The axes to draw into. The default is a new figure.

        Returns
        -------
        matplotlib.axes.Axes
            The axes drawn into.
        """
        axes = axes_of(axes)
        drawn = {"-".join(pair): each for pair, each in self.partial.items()} or {"": self}
        for name, each in drawn.items():
            axes.errorbar(each.k, each.s, each.error, label=name or None, elinewidth=0.8)
        axes.set(xlabel=f"k / ({self.units['k']})", ylabel="S(k)")
        if self.partial:
            axes.legend()
        return axes


class StructureFactor(Analysis[StructureFactorResult]):
    """The structure factor of the frames that are added, at all wave vectors of the box up to a wave number.

    Parameters
    ----------
    k_max : float, optional
        The largest wave number, in radians per unit of length. The default is 16 waves along the edge.
    stride : int
        As in `Analysis`.

    Examples
    --------
    Two atoms half the edge apart along each axis. They scatter in phase where the sum of the three wave indices is even.

    >>> from ljclient.analysis import Frame, StructureFactor
    >>> pair = StructureFactor(k_max=1.2)
    >>> pair.add(Frame.of([(0, 0, 0), (5, 5, 5)], edge=10))
    >>> print(pair.result().s.round(6).tolist())
    [1.333333, 0.0]
    """

    def __init__(self, k_max: Optional[float] = None, stride: int = 1):
        super().__init__(stride)
        self._k_max = None if k_max is None else checked_positive("k_max", k_max)
        self._blocks = Blocks()
        self._groups: Optional[Groups] = None
        self._edge, self._units = 0.0, Units()
        self._shells: Any = None

    def _take(self, frame: Frame) -> None:
        if self._groups is None:
            shells = Shells.of(WAVES if self._k_max is None else self._k_max * frame.edge / (2 * math.pi))
            self._groups, self._edge, self._units, self._shells = Groups(frame), frame.edge, frame.units, shells
        self._groups.check(frame)
        if frame.edge != self._edge:
            raise ValueError(f"all edges must be alike, got {frame.edge:g} after {self._edge:g}")
        sums = [self._shells.sums(frame.places[each]) for each in self._members()]
        self._blocks.add(numpy.array([self._shells.mean((a * b.conj()).real) for a, b in self._pairs(sums)]))

    def _members(self) -> List[Any]:
        """The numbers of the atoms of each species."""
        assert self._groups is not None
        return list(self._groups.members.values()) or [slice(None)]

    def _pairs(self, things: List[Any]) -> List[Tuple[Any, Any]]:
        """Each thing with itself and with the later ones."""
        return [(first, second) for first, second in itertools.combinations_with_replacement(things, 2)]

    def result(self) -> StructureFactorResult:
        """The result of the frames so far.

        Returns
        -------
        StructureFactorResult
            The result.

        Raises
        ------
        ValueError
            If the frames are too few.
        """
        mean, error = self._blocks.mean(), self._blocks.error()
        assert self._groups is not None
        names, total, partial = self._groups.names, self._groups.count, {}
        counts = [len(each) for each in self._groups.members.values()]
        for row, (pair, both) in enumerate(zip(self._pairs(names), self._pairs(counts))):
            size = math.sqrt(both[0] * both[1])
            partial[pair] = self._told(mean[row] / size, error[row] / size, {})
        both_ways = numpy.array([1 if a == b else 2 for a, b in self._pairs(list(names) or [""])])
        return self._told(*self._blocks.derived(lambda rows: both_ways @ rows / total), partial)

    def _told(self, s: Any, error: Any, partial: Dict[Pair, StructureFactorResult]) -> StructureFactorResult:
        shells = self._shells
        units = {"k": f"1 / {self._units.length}", "s": "1", "error": "1"}
        k = 2 * math.pi / self._edge * shells.lengths
        return StructureFactorResult(k, s, error, shells.counts, partial, self._blocks.count, units)


@dataclass(frozen=True)
class Shells:
    """The wave vectors of a box up to a length, one of each opposite pair, in shells by the nearest whole length.

    most     the largest number of waves along an axis
    kept     indices of these vectors, among all with a first number >= 0
    numbers  the shell of each vector
    counts   number of vectors in each shell, and lengths their mean length in waves along the edge
    """

    most: int
    kept: Any
    numbers: Any
    counts: Any
    lengths: Any

    @staticmethod
    def of(longest: float) -> "Shells":
        """The shells up to a length. ValueError if there are none."""
        if longest < 1:
            raise ValueError(f"k_max must be at least 2 pi / edge, got {longest:.3g} times this")
        most = math.floor(longest)
        x, y, z = numpy.meshgrid(numpy.arange(most + 1), *[numpy.arange(-most, most + 1)] * 2, indexing="ij")
        lengths = numpy.sqrt(x**2 + y**2 + z**2)
        is_first = (x > 0) | (y > 0) | ((y == 0) & (z > 0))
        kept = numpy.flatnonzero((lengths <= longest) & (lengths > 0) & is_first & ~((x == 0) & (y < 0)))
        lengths = lengths.ravel()[kept]
        shells, numbers = numpy.unique(numpy.rint(lengths).astype(int), return_inverse=True)
        counts = numpy.bincount(numbers)
        return Shells(most, kept, numbers, counts, numpy.bincount(numbers, lengths) / counts)

    def sums(self, places: Any) -> Any:
        """The sums over atoms of `exp(i k r)`, one for each of the vectors."""
        phases = numpy.exp(2j * math.pi / RING * numpy.asarray(places).T)
        x, y, z = (axis ** numpy.arange(-self.most, self.most + 1)[:, None] for axis in phases)
        planes = [((row * y) @ z.T).ravel() for row in x[self.most :]]
        return numpy.concatenate(planes)[self.kept]

    def mean(self, values: Any) -> Any:
        """The mean over each shell."""
        return numpy.bincount(self.numbers, values) / self.counts


def structure_factor(
    session: "Session", steps: int, every: int, k_max: Optional[float] = None, progress: Progress = False
) -> StructureFactorResult:
    """The structure factor of a session as it advances.

    Parameters
    ----------
    session : Session
        The session is advanced, and is left at its last step.
    steps, every : int
        Number of steps to advance, and number of steps between frames. The first frame is the present one.
    k_max : float, optional
        As in `StructureFactor`, in radians per unit of length.
    progress : bool or callable
        As in `Session.advance`.

    Returns
    -------
    StructureFactorResult
        k per angstrom, or per unit of the file if epsilon and mass are not known; also by species.

    Examples
    --------
    >>> from ljclient import analysis, run
    >>> with run() as user:
    ...     pair = user.load("pair", [(0, 0, 0), (1.5, 0, 0)], symbols="Ar", edge=20, sigma=1, h=4295)
    ...     scattered = analysis.structure_factor(pair, steps=20, every=10, k_max=2)
    >>> print(len(scattered.k), scattered.units["k"])
    6 1 / sigma
    """
    scattered = StructureFactor(k_max)
    analyse(session, steps, every, [scattered], progress)
    return scattered.result()
