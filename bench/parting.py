"""How far apart two runs of the same atoms are, and how fast they separate."""
from __future__ import annotations

import math
import statistics
from typing import List, NamedTuple, Optional, Sequence, Tuple

from figures import Rows

BIN = 1 / 256  # the width of a bin at a distance of sigma
# Ranges of distances, in sigma.
RANGES = {"10^-8 to 1/256": (1e-8, BIN), "1/256 to 1/10": (BIN, 0.1)}


class Rate(NamedTuple):
    """The mean rate over runs, per unit of time, and its standard error."""

    mean: float
    error: float

    def __str__(self) -> str:
        return f"{self.mean:.2f} ± {self.error:.2f}"


def distance(rows: Rows, others: Rows, edge: float) -> float:
    """The root mean square distance of atoms, by minimum images in a box with this edge."""
    squares = (((a - b + edge / 2) % edge - edge / 2) ** 2 for row, other in zip(rows, others) for a, b in zip(row, other))
    return math.sqrt(sum(squares) / len(rows))


def slope(points: Sequence[Tuple[float, float]]) -> float:
    """The slope of the least-squares line."""
    x, y = (statistics.fmean(column) for column in zip(*points))
    return sum((a - x) * (b - y) for a, b in points) / sum((a - x) ** 2 for a, _ in points)


def rate_within(run: Sequence[float], piece: float, near: float, far: float) -> Optional[float]:
    """The slope of the logarithm of a run's distances, one each `piece` of time, from the first >= `near` until one exceeds `far`."""
    first = next((at for at, apart in enumerate(run) if apart >= near), len(run))
    last = next((at for at, apart in enumerate(run) if apart > far), len(run))
    points = [(at * piece, math.log(run[at])) for at in range(first, last)]
    return slope(points) if len(points) >= 3 else None


def rate_of(runs: Sequence[Sequence[float]], piece: float, near: float, far: float) -> Rate:
    """The rate of all runs with at least three distances in the range."""
    rates: List[float] = [rate for run in runs if (rate := rate_within(run, piece, near, far)) is not None]
    if len(rates) < 2:
        raise ValueError(f"at least two runs must have three distances from {near} to {far}, got {len(rates)}")
    return Rate(statistics.fmean(rates), statistics.stdev(rates) / math.sqrt(len(rates)))
