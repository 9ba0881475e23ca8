"""Warns if loaded atoms are too close to each other, since they would fly apart."""
from __future__ import annotations

import itertools
from typing import Dict, Iterator, List, Optional, Sequence, Tuple

from .mixture import Mixture
from .units import Scale
from .warning import warn_caller
from .xyz import Frames, Row, present_atoms

CLOSE = 0.8
# Offsets of the cell itself, and of one of each two opposite neighbours.
HALF_OF_NEIGHBOURS = [offset for offset in itertools.product((-1, 0, 1), repeat=3) if offset >= (0, 0, 0)]
# The position of an atom as fractions of the edge, 1 if it is of the second species or else 0, and its number.
Site = Tuple[float, float, float, int, int]
# The distance of two atoms in sigma, and their numbers.
Pair = Tuple[float, int, int]


def warn_of_close_atoms(frames: Frames, scale: Scale, mixture: Optional[Mixture] = None) -> None:
    """Warns if two atoms are closer than 0.8 sigma. A text that is not a frame is skipped."""
    second = None if mixture is None else mixture.species[1]
    sigmas = [scale.sigma] * 3 if mixture is None else [each.sigma for each in mixture.classes]
    found = closest(present_atoms(frames), scale.edge, sigmas, second)
    if found is not None:
        distance, atom, other = found
        warn_caller(
            f"the closest pair, atoms {atom} and {other}, is {distance:.3g} sigma apart: below {CLOSE} sigma it sets more than "
            f"40 epsilon free (are edge and sigma in the unit of the file?)"
        )


def closest(atoms: Sequence[Row], edge: float, sigmas: Sequence[float], second: Optional[str] = None) -> Optional[Pair]:
    """The closest pair in a periodic box, by distance in sigma, if it is closer than 0.8; else None.

    sigmas  for two atoms not of the second species, for one of each, and for two of the second
    """
    if not (min(sigmas) > 0 and edge >= max(sigmas)):
        return None
    limits = [(CLOSE * sigma / edge) ** 2 for sigma in sigmas]
    best = (1.0, 0, 0)
    for members, others in _near(atoms, edge, int(edge / (CLOSE * max(sigmas))), second):
        for x, y, z, kind, atom in members:
            for u, v, w, other_kind, other in others:
                square = ((x - u + 1.5) % 1 - 0.5) ** 2 + ((y - v + 1.5) % 1 - 0.5) ** 2 + ((z - w + 1.5) % 1 - 0.5) ** 2
                if square < limits[kind + other_kind] and atom != other:
                    best = min(best, (square / limits[kind + other_kind], min(atom, other), max(atom, other)))
    part, first, last = best
    return (CLOSE * part**0.5, first, last) if part < 1 else None


def _near(atoms: Sequence[Row], edge: float, count: int, second: Optional[str]) -> Iterator[Tuple[List[Site], List[Site]]]:
    """The atoms of both cells of each touching pair, a cell with itself included. Each axis has `count` cells."""
    cells: Dict[Tuple[int, int, int], List[Site]] = {}
    for number, (symbol, *position) in enumerate(atoms):
        x, y, z = (part / edge % 1 for part in position)
        cell = int(x * count) % count, int(y * count) % count, int(z * count) % count
        cells.setdefault(cell, []).append((x, y, z, int(symbol == second), number))
    for (i, j, k), members in cells.items():
        for a, b, c in HALF_OF_NEIGHBOURS:
            if others := cells.get(((i + a) % count, (j + b) % count, (k + c) % count)):
                yield members, others
