"""Quantities of frames and runs, by which `reversal` looks for the direction of time. They need numpy."""
from __future__ import annotations

import math
from typing import Any

from . import arrays

SPEED_BIN, SPEED_BINS = 0.25, 16
"""Bin width, in units of the root mean square, and number of bins of the histogram of velocity components."""


def mixing_entropy(places: Any, kinds: Any, cells: int) -> float:
    """The entropy of mixing of a frame, in k_B per atom, from the kind of each atom as a number."""
    numpy = arrays.numpy
    parts = (numpy.asarray(places) * cells) >> 32
    cell_of = (parts[:, 0] * cells + parts[:, 1]) * cells + parts[:, 2]
    count = int(kinds.max()) + 1
    counts = numpy.bincount(cell_of * count + kinds, minlength=cells**3 * count).reshape(-1, count)
    inside, total = counts[counts > 0], numpy.broadcast_to(counts.sum(axis=1, keepdims=True), counts.shape)[counts > 0]
    return abs(float((inside * numpy.log(inside / total)).sum())) / len(kinds)


def above_maxwell(velocities: Any) -> float:
    """Boltzmann's H of the velocity components minus its value for Maxwell's distribution of equal temperature: `sum p ln(p / q)` over
    bins of their absolute values, which reversal does not change. 0 if all atoms are at rest."""
    numpy = arrays.numpy
    parts = abs(numpy.asarray(velocities).ravel())
    root = math.sqrt((parts**2).mean())
    if not root:
        return 0.0
    edges = [math.erf(SPEED_BIN * number / math.sqrt(2)) for number in range(SPEED_BINS)] + [1.0]
    wanted = numpy.diff(edges)
    bins = numpy.minimum((parts / root / SPEED_BIN).astype(int), SPEED_BINS - 1)
    found = numpy.bincount(bins, minlength=SPEED_BINS) / len(parts)
    there = found > 0
    return float((found[there] * numpy.log(found[there] / wanted[there])).sum())


def rank_correlation(values: Any) -> float:
    """Kendall's rank correlation with the time: rising minus falling pairs of frames, as a fraction of all pairs."""
    numpy, count = arrays.numpy, len(values)
    rises = numpy.sign(numpy.subtract.outer(values, values))
    return float(numpy.tril(rises).sum()) / (count * (count - 1) / 2)


def departure(values: Any) -> float:
    """The first value minus the mean of the second half, in standard deviations of this half."""
    later = values[len(values) // 2 :]
    apart, deviation = float(values[0] - later.mean()), float(later.std())
    return apart / deviation if deviation else math.copysign(math.inf, apart) if apart else 0.0
