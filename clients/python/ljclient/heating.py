"""Velocities at a temperature, drawn at random or rescaled, in whole ring units per step."""
from __future__ import annotations

import math
import random
from typing import List, Sequence, Tuple

from .arrays import HALF
from .names import whole_of
from .scalars import real_of
from .units import Scale

Displacement = Tuple[int, ...]


def displacements(atoms: int, temperature: float, scale: Scale, seed: int) -> List[Displacement]:
    """Displacements per step of atoms at this temperature, whose sum is 0 along each axis.

    The temperature is in kelvin if the scale has epsilon, else in epsilon / k_B. Each component of each atom is drawn from the same
    normal distribution. Then the mean is subtracted, and all are multiplied by one factor to reach the temperature, and rounded.
    """
    wanted = _kinetic_number(atoms, temperature, scale)
    if atoms == 1 and temperature > 0:
        raise ValueError("cannot heat a single atom: the net momentum of the velocities is 0, so it stays at rest; use a temperature of 0")
    drawn = random.Random(whole_of(seed, "seed"))
    parts = [[drawn.gauss(0, 1) for _ in range(3)] for _ in range(atoms)]
    means = [sum(axis) / atoms for axis in zip(*parts)]
    parts = [[part - mean for part, mean in zip(each, means)] for each in parts]
    stretch = math.sqrt(wanted / sum(part * part for each in parts for part in each)) if wanted else 0.0
    return _stretched(parts, stretch, temperature, [0, 0, 0])


def rescaled(moved: Sequence[Sequence[int]], temperature: float, scale: Scale) -> List[Displacement]:
    """Displacements per step, multiplied by one factor to reach a temperature, and rounded. Their sum is treated alike.

    The temperature is as in `displacements`. Raises ValueError if all atoms are at rest, unless it is 0.
    """
    wanted = _kinetic_number(len(moved), temperature, scale)
    kinetic = sum(part * part for each in moved for part in each)
    if wanted and not kinetic:
        raise ValueError("cannot rescale the velocities: all atoms are at rest; use heat(temperature)")
    stretch = math.sqrt(wanted / kinetic) if wanted else 0.0
    return _stretched(moved, stretch, temperature, [round(stretch * sum(axis)) for axis in zip(*moved)])


def _kinetic_number(atoms: int, temperature: float, scale: Scale) -> float:
    """The kinetic number of `atoms` atoms at a temperature. Raises ValueError unless this is finite and at least 0."""
    if not 0 <= real_of("temperature", temperature) < math.inf:
        raise ValueError(f"temperature must be a finite number from 0 on, got {temperature!r}")
    return scale.kinetic_number(3 * atoms * temperature / (2 * scale.temperature_unit))


def _stretched(parts: Sequence[Sequence[float]], stretch: float, temperature: float, sums: Sequence[int]) -> List[Displacement]:
    """Displacements multiplied by `stretch` and rounded, with these sums along the axes."""
    if stretch * max(abs(part) for each in parts for part in each) >= HALF - 1:
        why = "an atom would move by half the box or more in a step; use a lower temperature or a shorter time step"
        raise ValueError(f"cannot set a temperature of {temperature:g}: {why}")
    return _with_sums([[round(stretch * part) for part in each] for each in parts], sums)


def _with_sums(moved: List[List[int]], sums: Sequence[int]) -> List[Displacement]:
    """The displacements corrected to these sums. Rounding changes a sum by less than one per atom."""
    for axis, wanted in enumerate(sums):
        surplus = sum(each[axis] for each in moved) - wanted
        for each in moved[: abs(surplus)]:
            each[axis] -= 1 if surplus > 0 else -1
    return [tuple(each) for each in moved]
