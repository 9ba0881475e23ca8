"""The radial distribution function g(r): the density of atoms at a distance from an atom, over their mean density."""
from __future__ import annotations

import itertools
import math
from dataclasses import dataclass, field
from typing import TYPE_CHECKING, Any, Dict, List, Optional, Tuple

from ..arrays import FloatArray
from ..neighbours import near_pairs
from ..sampling import Progress
from ..scalars import checked_positive
from ..units import RING
from .analyses import Analysis, Groups, analyse, checked_count
from .estimates import Blocks
from .frames import Frame, Units
from .library import axes_of, numpy

if TYPE_CHECKING:
    from ..session import Session

# Number of atoms compared with others at a time, so that a block of numbers stays in the cache.
BLOCK = 32
# Below this part of the edge, cells leave out enough pairs to save time.
NEAR_PART = 0.2
Pair = Tuple[str, str]


@dataclass(frozen=True)
class RdfResult:
    """The radial distribution function of some frames.

    Parameters
    ----------
    r : array of shape (bins,)
        The middle of each bin, in the unit of length.
    g, error : array of shape (bins,)
        The mean of g(r) over each shell, and its standard error. It has no unit.
    neighbours : array of shape (bins,)
        Mean number of atoms around an atom, within the outer edge of each bin.
    partial : dict of (str, str) to RdfResult
        With two species, the same result for each pair of them, such as `("A", "B")`: g(r) and the neighbours of the second species around
        an atom of the first.
    frames : int
        Number of frames.
    units : dict of str to str
        The units of `r`, `g`, `error` and `neighbours`.
    """

    r: FloatArray
    g: FloatArray
    error: FloatArray
    neighbours: FloatArray
    partial: "Dict[Pair, RdfResult]" = field(repr=False)
    frames: int
    units: Dict[str, str] = field(repr=False)

    def plot(self, axes: Any = None) -> Any:
        """Draws g(r) with its errors, for each pair of species if there are two.

        Parameters
        ----------
        axes : matplotlib.axes.Axes, optional
            The axes to draw into. The default is a new figure.

        Returns
        -------
        matplotlib.axes.Axes
            The axes.
        """
        axes = axes_of(axes)
        drawn = {"-".join(pair): each for pair, each in self.partial.items()} or {"": self}
        for name, each in drawn.items():
            axes.errorbar(each.r, each.g, each.error, label=name or None, elinewidth=0.8)
        axes.set(xlabel=f"r / {self.units['r']}", ylabel="g(r)")
        if self.partial:
            axes.legend()
        return axes


class Rdf(Analysis[RdfResult]):
    """The radial distribution function of the frames that are added.

    Parameters
    ----------
    bins : int
        Number of bins of equal width from 0 to `r_max`.
    r_max : float, optional
        The end of the last bin, in the unit of length: at most half the edge, which is the default.
    stride : int
        As in `Analysis`.

    Examples
    --------
    >>> from ljclient.analysis import Frame, Rdf
    >>> pairs = Rdf(bins=5, r_max=2.5)
    >>> pairs.add(Frame.of([(0.2, 0, 0), (9.3, 0, 0)], edge=10))
    >>> print(pairs.result().neighbours.tolist())
    [0.0, 1.0, 1.0, 1.0, 1.0]
    """

    def __init__(self, bins: int = 200, r_max: Optional[float] = None, stride: int = 1):
        super().__init__(stride)
        self._bins = checked_count("bins", bins)
        self._r_max = None if r_max is None else checked_positive("r_max", r_max)
        self._blocks = Blocks()
        self._groups: Optional[Groups] = None
        self._edge, self._units = 0.0, Units()

    def _take(self, frame: Frame) -> None:
        if self._r_max is not None and not self._r_max <= frame.edge / 2:
            raise ValueError(f"r_max must be at most half the edge, got {self._r_max:g} in a box of {frame.edge:g}")
        if self._groups is None:
            self._groups, self._edge, self._units = Groups(frame), frame.edge, frame.units
        self._groups.check(frame)
        if frame.edge != self._edge:
            raise ValueError(f"all edges must be alike, got {frame.edge:g} after {self._edge:g}")
        self._blocks.add(self._counts(frame))

    def _reach(self) -> float:
        return self._edge / 2 if self._r_max is None else self._r_max

    def _kinds(self) -> List[Pair]:
        """The pairs of species, in the order of their counts. With one species there is a single pair of empty names."""
        assert self._groups is not None
        names = self._groups.names or [""]
        return [(first, second) for first, second in itertools.combinations_with_replacement(names, 2)]

    def _counts(self, frame: Frame) -> Any:
        """The number of pairs of each kind in each bin: an array of shape (kinds, bins)."""
        width = self._reach() / self._edge * RING / self._bins
        if self._reach() < NEAR_PART * self._edge:
            return self._counts_near(frame, width)
        axes = frame.places.astype(numpy.uint32).T
        members = self._groups.members if self._groups is not None else {}
        rows = []
        for first, second in self._kinds():
            ours, theirs = [axes[:, members[name]] if name else axes for name in (first, second)]
            rows.append(counts_between(ours, theirs, first == second, self._bins, width))
        return numpy.array(rows)

    def _counts_near(self, frame: Frame, width: float) -> Any:
        """The same counts by a search for near pairs."""
        assert self._groups is not None
        near = near_pairs(frame.places, (self._bins * width) ** 2)
        bins = numpy.minimum((numpy.sqrt(near.squares) / width).astype(numpy.intp), self._bins - 1)
        kinds = self._kinds()
        if len(kinds) > 1:
            second = numpy.array([name == self._groups.names[1] for name in self._groups.species], dtype=numpy.intp)
            bins += self._bins * (second[near.first] + second[near.second])
        return numpy.bincount(bins, minlength=self._bins * len(kinds)).reshape(len(kinds), self._bins)

    def result(self) -> RdfResult:
        """The result of the frames so far.

        Returns
        -------
        RdfResult
            The result.

        Raises
        ------
        ValueError
            If the frames are too few.
        """
        mean, error = self._blocks.mean(), self._blocks.error()
        assert self._groups is not None
        count, counts = self._groups.count, {name: len(self._groups.members[name]) for name in self._groups.names}
        partial = {}
        for (first, second), pairs, spread in zip(self._kinds(), mean, error) if counts else ():
            # Within a species each pair is counted once, but makes two ordered pairs.
            twice = 2 if first == second else 1
            others = counts[second] - (first == second)
            partial[first, second] = self._told(pairs * twice, spread * twice, counts[first], others, {})
        total = self._blocks.derived(lambda rows: 2 * rows.sum(axis=0))
        return self._told(*total, count, count - 1, partial)

    def _told(self, pairs: Any, spread: Any, count: int, others: int, partial: Dict[Pair, RdfResult]) -> RdfResult:
        """The result for the ordered pairs in each bin, of `count` atoms with `others` other atoms each."""
        edges = numpy.linspace(0, self._reach(), self._bins + 1)
        shells = 4 / 3 * math.pi * numpy.diff(edges**3) / self._edge**3
        ideal = shells * count * max(others, 1)
        units = {"r": self._units.length, "g": "1", "error": "1", "neighbours": "1"}
        middle = (edges[1:] + edges[:-1]) / 2
        neighbours = numpy.cumsum(pairs) / count
        return RdfResult(middle, pairs / ideal, spread / ideal, neighbours, partial, self._blocks.count, units)


def counts_between(ours: Any, theirs: Any, is_same: bool, bins: int, width: float) -> Any:
    """The number of pairs of `ours` and `theirs` in each bin. Bin widths are in ring units. With `is_same`, each pair counts once."""
    counts = numpy.zeros(bins, dtype=numpy.int64)
    for start in range(0, ours.shape[1], BLOCK):
        rows, others = ours[:, start : start + BLOCK], theirs[:, start:] if is_same else theirs
        squares = numpy.zeros((rows.shape[1], others.shape[1]), dtype=numpy.float32)
        for here, there in zip(rows, others):
            image = (here[:, None] - there).view(numpy.int32).astype(numpy.float32)
            squares += numpy.multiply(image, image, out=image)
        if is_same:
            squares[numpy.tril_indices(rows.shape[1])] = numpy.inf
        numpy.sqrt(squares, out=squares)
        squares *= numpy.float32(1 / width)
        counts += numpy.bincount(numpy.minimum(squares, bins, out=squares).astype(numpy.intp).ravel(), minlength=bins + 1)[:bins]
    return counts


def rdf(
    session: "Session", steps: int, every: int, bins: int = 200, r_max: Optional[float] = None, progress: Progress = False
) -> RdfResult:
    """The radial distribution function of a session as it advances.

    Parameters
    ----------
    session : Session
        The session is advanced, and is left at its last step.
    steps, every : int
        Number of steps to advance, and number of steps between frames. The first frame is the present one.
    bins : int
        As in `Rdf`.
    r_max : float, optional
        As in `Rdf`, in the unit of length.
    progress : bool or callable
        As in `Session.advance`.

    Returns
    -------
    RdfResult
        r in angstrom, or in the unit of the file if epsilon and mass are not known; g(r) with its errors, also by species.

    Examples
    --------
    >>> from ljclient import analysis, run, units
    >>> with run() as user:
    ...     pair = user.load("pair", [(0, 0, 0), (4, 0, 0)], symbols="Ar", edge=34, dt=2, **units.ARGON)
    ...     g = analysis.rdf(pair, steps=20, every=10, bins=34)
    >>> print(g.r[g.g.argmax()], g.units["r"])
    3.75 angstrom
    """
    pairs = Rdf(bins, r_max)
    analyse(session, steps, every, [pairs], progress)
    return pairs.result()
