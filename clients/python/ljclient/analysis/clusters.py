"""Clusters: atoms that are connected by bonds, directly or through others."""
from __future__ import annotations

from dataclasses import dataclass, field
from typing import TYPE_CHECKING, Any, Dict, Optional

from ..arrays import FloatArray
from ..neighbours import near_pairs
from ..sampling import Progress
from ..scalars import checked_positive
from ..units import RING
from .analyses import Analysis, Groups, analyse
from .estimates import Blocks, Estimate
from .frames import Frame
from .library import axes_of, numpy

if TYPE_CHECKING:
    from ..session import Session


@dataclass(frozen=True)
class ClustersResult:
    """The clusters of some frames.

    Parameters
    ----------
    number, largest : Estimate
        The number of clusters, including single atoms, and the number of atoms in the largest: means over the frames.
    counts, error : array of shape (atoms,)
        The numbers of clusters of 1 atom, of 2 atoms and so on, and their standard errors.
    partial : dict of str to ClustersResult
        With two species, the same result for each, as if the other were absent.
    frames : int
        The number of frames.
    """

    number: Estimate
    largest: Estimate
    counts: FloatArray = field(repr=False)
    error: FloatArray = field(repr=False)
    partial: "Dict[str, ClustersResult]" = field(repr=False)
    frames: int

    def plot(self, axes: Any = None) -> Any:
        """Draws the number of clusters of each size.

        Parameters
        ----------
        axes : matplotlib.axes.Axes, optional
            The axes to draw into. The default is a new figure.

        Returns
        -------
        matplotlib.axes.Axes
            The axes drawn into.
        """
        axes = axes_of(axes)
        for name, each in (self.partial or {"": self}).items():
            sizes = numpy.flatnonzero(each.counts)
            axes.errorbar(sizes + 1, each.counts[sizes], each.error[sizes], fmt=".", label=name or None)
        axes.set(xlabel="atoms", ylabel="clusters", xscale="log", yscale="log")
        if self.partial:
            axes.legend()
        return axes


class Clusters(Analysis[ClustersResult]):
    """The clusters of the frames that are added.

    Parameters
    ----------
    reach : float
        The distance below which two atoms are connected, in the unit of length.
    stride : int
        As in `Analysis`.

    Examples
    --------
    >>> from ljclient.analysis import Clusters, Frame
    >>> found = Clusters(reach=1.5)
    >>> found.add(Frame.of([(9.5, 0, 0), (0.5, 0, 0), (5, 5, 5), (1.5, 0, 0)], edge=10))
    >>> told = found.result()
    >>> print(told.number.value, told.largest.value, told.counts.tolist())
    2.0 3.0 [1.0, 0.0, 1.0, 0.0]
    """

    def __init__(self, reach: float, stride: int = 1):
        super().__init__(stride)
        self._reach = checked_positive("reach", reach)
        self._groups: Optional[Groups] = None
        self._blocks: Dict[str, Blocks] = {}

    def _take(self, frame: Frame) -> None:
        if not self._reach <= frame.edge / 2:
            raise ValueError(f"reach must be at most half the edge, got {self._reach:g} in a box of {frame.edge:g}")
        if self._groups is None:
            self._groups = Groups(frame)
            self._blocks = {name: Blocks() for name in ["", *self._groups.names]}
        self._groups.check(frame)
        for name, members in [("", slice(None)), *self._groups.members.items()]:
            sizes = sizes_of(frame.places[members], (self._reach / frame.edge * RING) ** 2)
            self._blocks[name].add([len(sizes), sizes.max(), *numpy.bincount(sizes, minlength=sizes.sum() + 1)[1:]])

    def result(self) -> ClustersResult:
        """The result of the frames so far.

        Returns
        -------
        ClustersResult
            The result.

        Raises
        ------
        ValueError
            If the frames are too few.
        """
        if self._groups is None:
            raise ValueError("clusters must have at least 1 frame, got 0; add frames first")
        return told_of(self._blocks[""], {name: told_of(self._blocks[name], {}) for name in self._groups.names})


def told_of(blocks: Blocks, partial: Dict[str, ClustersResult]) -> ClustersResult:
    """The result of a group of atoms."""
    mean, error = blocks.mean(), blocks.error()
    number, largest = (Estimate(float(mean[at]), float(error[at])) for at in (0, 1))
    return ClustersResult(number, largest, mean[2:], error[2:], partial, blocks.count)


def sizes_of(places: Any, square: float) -> Any:
    """The number of atoms in each cluster."""
    near = near_pairs(places, square)
    return numpy.unique(labels_of(len(places), near.first, near.second), return_counts=True)[1]


def labels_of(count: int, first: Any, second: Any) -> Any:
    """For each atom, the smallest atom number in its cluster.

    Labels are lowered to the smaller one of each bond, until both ends of every bond have the same label.
    """
    labels = numpy.arange(count)
    while len(first):
        least = numpy.minimum(labels[first], labels[second])
        for ends in (first, second):
            numpy.minimum.at(labels, labels[ends], least)
        labels = settled(labels)
        apart = labels[first] != labels[second]
        first, second = first[apart], second[apart]
    return labels


def settled(labels: Any) -> Any:
    """Labels, followed until each names an atom with the same label."""
    following = labels[labels]
    while (following != labels).any():
        labels, following = following, following[following]
    return labels


def clusters(session: "Session", steps: int, every: int, reach: float, progress: Progress = False) -> ClustersResult:
    """The clusters of a session as it advances.

    Parameters
    ----------
    session : Session
        The session is advanced, and is left at its last step.
    steps, every : int
        Number of steps to advance, and number of steps between frames. The first frame is the present one.
    reach : float
        The distance below which two atoms are connected, in the unit of length.
    progress : bool or callable
        As in `Session.advance`.

    Returns
    -------
    ClustersResult
        Numbers and sizes of the clusters, also by species.

    Examples
    --------
    >>> from ljclient import analysis, run
    >>> with run() as user:
    ...     pair = user.load("pair", [(0, 0, 0), (1.2, 0, 0)], symbols="Ar", edge=20, sigma=1, h=4295)
    ...     found = analysis.clusters(pair, steps=20, every=10, reach=1.5)
    >>> print(found.number.value, found.largest.value)
    1.0 2.0
    """
    found = Clusters(reach)
    analyse(session, steps, every, [found], progress)
    return found.result()
