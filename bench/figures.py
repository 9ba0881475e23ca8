"""Figures of simulations, and tables of them: step factors, errors of forces and trends of energies."""
from __future__ import annotations

import math
import statistics
from typing import Iterable, List, Sequence, Tuple, TypeVar

RING = 2**32
T = TypeVar("T")
Rows = Sequence[Sequence[float]]
# Kinetic and potential energy.
Energies = Tuple[float, ...]


def image(a: float, b: float) -> float:
    """The minimum-image difference of two coordinates on the ring."""
    return (a - b + RING // 2) % RING - RING // 2


def time_step(h: int) -> float:
    return math.sqrt(h / RING)


def root_mean_square(numbers: Iterable[float]) -> float:
    return math.sqrt(statistics.fmean(x * x for x in numbers))


def flat(rows: Iterable[Iterable[T]]) -> List[T]:
    return [x for row in rows for x in row]


def table(heads: Sequence[str], rows: Iterable[Sequence[str]]) -> None:
    print("\n| " + " | ".join(heads) + " |\n|" + "---|" * len(heads))
    for row in rows:
        print("| " + " | ".join(row) + " |")
    print(flush=True)


def error(forces: Rows, others: Rows) -> Tuple[float, float, float]:
    """The rms and the largest difference of forces, in units of the rms of the second forces, and this rms."""
    sizes = [math.dist(a, b) for a, b in zip(forces, others)]
    size = root_mean_square(math.hypot(*b) for b in others)
    return root_mean_square(sizes) / size, max(sizes) / size, size


def percent(x: float) -> str:
    return f"{100 * x:.2g} %" if x < 0.1 else f"{100 * x:.0f} %"


def trend(energies: Sequence[Energies], count: int) -> Tuple[float, float, float, float]:
    """Energy change per atom over the run by a least-squares line, spread about it, and temperatures of the first and last tenth."""
    totals = [(kinetic + potential) / count for kinetic, potential in energies]
    middle, mean = (len(totals) - 1) / 2, statistics.fmean(totals)
    slope = sum((at - middle) * total for at, total in enumerate(totals)) / sum((at - middle) ** 2 for at in range(len(totals)))
    spread = root_mean_square(total - mean - slope * (at - middle) for at, total in enumerate(totals))
    warmth = [2 * kinetic / 3 / (count - 1) for kinetic, _ in energies]
    tenth = len(warmth) // 10
    return slope * len(totals), spread, statistics.fmean(warmth[:tenth]), statistics.fmean(warmth[-tenth:])
