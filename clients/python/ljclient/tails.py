"""The long-range terms of energy and pressure: the pairs beyond the cutoff, for g(r) = 1.

For pairs of one class, with the number density rho of atoms and the cutoff c = 2.5 in sigma, they are

    energy of an atom  (8/3) pi rho epsilon sigma^3 (1 / (3 c^9) - 1 / c^3)
    pressure           (16/3) pi rho^2 epsilon sigma^3 (2 / (3 c^9) - 1 / c^3)

In a mixture each class is weighted by its fraction of all pairs. LAMMPS computes the same terms with `pair_modify tail yes`.
"""
from __future__ import annotations

import math
from typing import TYPE_CHECKING, Iterator, Tuple

from .units import RING, Scale

if TYPE_CHECKING:
    from .pressure import Composition

# sigma over the cutoff, to the third power.
CUBE = 1 / 2.5**3


def energy_tail(atoms: "Composition", count: int) -> float:
    """The tail correction of the energy of so many atoms, in epsilon of the first class. It is below 0."""
    first = atoms.classes[0]
    sizes = [part * each.weight / first.weight * _cube_of(each, first) for part, each in _classes(atoms, count)]
    return 8 / 3 * math.pi * count * _density(first, count) * sum(sizes) * (CUBE**3 / 3 - CUBE)


def pressure_tail(atoms: "Composition", count: int) -> float:
    """The tail correction of the pressure of so many atoms, in epsilon / sigma^3 of the first class. It is below 0."""
    first = atoms.classes[0]
    # For forces, epsilon of a class is proportional to h sigma^2, as in `pressure`.
    sizes = [
        part * each.h / first.h * (each.sigma_on_ring / first.sigma_on_ring) ** 2 * _cube_of(each, first)
        for part, each in _classes(atoms, count)
    ]
    return 16 / 3 * math.pi * _density(first, count) ** 2 * sum(sizes) * (CUBE**3 * 2 / 3 - CUBE)


def _classes(atoms: "Composition", count: int) -> Iterator[Tuple[float, Scale]]:
    """Each class with its fraction of all pairs."""
    second = sum(map(bool, atoms.seconds)) / count
    parts = [1.0] if len(atoms.classes) == 1 else [(1 - second) ** 2, 2 * second * (1 - second), second**2]
    return zip(parts, atoms.classes)


def _cube_of(scale: Scale, first: Scale) -> float:
    """The cube of the sigma of a class, in cubes of the first sigma."""
    return float((scale.sigma_on_ring / first.sigma_on_ring) ** 3)


def _density(first: Scale, count: int) -> float:
    """The number of atoms per cube of the first sigma."""
    return float(count * (first.sigma_on_ring / RING) ** 3)
