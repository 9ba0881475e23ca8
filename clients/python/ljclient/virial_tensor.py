"""The virial tensor of a session, from which its stress is made. It needs numpy."""
from __future__ import annotations

from typing import Any, Sequence

from . import arrays
from .pressure import BINS, BINS_TO_SQUARE, Composition, _table, checked_numpy
from .units import Scale

BLOCK = 256
"""Number of atoms compared with all others at a time."""


def virial_tensor(places: Any, atoms: Composition) -> Any:
    """The sum over all pairs of the force along one axis times the distance along another, in epsilon of the first class: an array of
    shape (3, 3), whose trace is `pressure.virial`. Repulsion is positive."""
    checked_numpy()
    numpy = arrays.numpy
    # Differences of 32 bits take the shorter way around the box.
    axes = numpy.ascontiguousarray(numpy.asarray(places).astype(numpy.uint32).T)
    seconds = numpy.array(atoms.seconds or [False] * len(places), dtype=numpy.intp)
    starts = range(0, len(places), BLOCK)
    return sum((_of_block(axes, seconds, atoms.classes, start) for start in starts), numpy.zeros((3, 3)))


def _of_block(axes: Any, seconds: Any, classes: Sequence[Scale], start: int) -> Any:
    """The part of the pairs of an atom in a block and a later atom."""
    numpy = arrays.numpy
    apart = [(axis[start : start + BLOCK, None] - axis[None, start:]).view(numpy.int32).astype(float) for axis in axes]
    reach = max(each.sigma_on_ring for each in classes) ** 2 * BINS / BINS_TO_SQUARE
    one, other = numpy.nonzero(sum(each * each for each in apart) < reach)
    later = other > one
    one, other = one[later], other[later]
    between = numpy.array([each[one, other] for each in apart])
    kinds = seconds[start + one] + seconds[start + other]
    return sum(_of_class(between[:, kinds == kind], each, classes[0]) for kind, each in enumerate(classes))


def _of_class(between: Any, scale: Scale, first: Scale) -> Any:
    """The part of the pairs of one class, from their differences in ring units."""
    numpy = arrays.numpy
    squares = (between**2).sum(axis=0) / float(scale.sigma_on_ring) ** 2 * BINS_TO_SQUARE
    near = squares < BINS
    # Pushes are proportional to h, so epsilon / sigma^2 of this class is scale.h / first.h times the first one.
    entries = _table()[squares[near].astype(numpy.intp)] * (scale.h / first.h) / float(first.sigma_on_ring) ** 2
    return (between[:, near] * entries) @ between[:, near].T
