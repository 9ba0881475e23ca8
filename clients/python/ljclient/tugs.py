"""Tugs: the commands that move atoms in the frame of the step before."""
from __future__ import annotations

from typing import List, Sequence

from .order import Order, Place
from .units import RING

HALF = RING // 2


def tugs_of(name: str, order: Order, places: Sequence[Place], others: Sequence[Place]) -> List[str]:
    """The tugs that move atoms from their places one step before to other places."""
    moved = ([(a - b + HALF) % RING - HALF for a, b in zip(*pair)] for pair in zip(places, others))
    return [f"TUG {name} {order.number_of(atom)} {x} {y} {z}" for atom, (x, y, z) in enumerate(moved) if x or y or z]
