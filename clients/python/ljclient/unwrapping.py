"""Unwrapped positions: atoms are followed through the images of the periodic box.

Each atom is assumed to move the shorter way round the box between two frames. So frames must be so close that no atom moves
by half the edge of the box along an axis; from a quarter on there is a warning.
"""
from __future__ import annotations

from typing import Any, List, Tuple

from . import arrays
from .units import RING
from .warning import warn_caller


class Path:
    """The displacement of each atom from its first place, in ring units."""

    def __init__(self, name: str):
        self._name = name
        self._places: Any = None
        self._moved: Any = None

    def to(self, places: Any) -> Any:
        """The displacements to these next places. For the first places they are 0."""
        moved, far = self.followed(places)
        warn_of_far(self._name, far)
        return moved

    def followed(self, places: Any) -> Tuple[Any, float]:
        """The displacements to these places, and the farthest move of an atom since the frame before, as a fraction of the edge. There
        is no warning."""
        before = places if self._places is None else self._places
        moved = arrays.least_images(places, before)
        self._moved = moved if self._moved is None else arrays.added(self._moved, moved)
        self._places = places
        return self._moved, arrays.farthest(moved) / RING


def warn_of_far(name: str, far: float) -> None:
    """Warns if an atom has moved so far, as a fraction of the edge, that it may have gone round the box the other way."""
    if far >= 0.25:
        warn_caller(
            f"an atom of {name} has moved by {far:.2f} of the edge of the box from one frame to the next, so it may have gone "
            "round it the other way: take frames that are fewer steps apart"
        )


def unwrapped(name: str, frames: Any, period: Any) -> Any:
    """The unwrapped frames of coordinates in a box of edge `period`. An array is changed in place."""
    if len(frames) < 2:
        return frames
    half = period / 2 if isinstance(period, float) else period // 2
    numpy = arrays.numpy
    if numpy is None:
        return _listed(name, frames, period, half)
    moved = numpy.diff(frames, axis=0)
    turns = (moved + half) // period
    moved -= turns * period
    warn_of_far(name, float(abs(moved).max() / period))
    frames[1:] -= numpy.cumsum(turns, axis=0) * period
    return frames


def _listed(name: str, frames: List[Any], period: Any, half: Any) -> List[Any]:
    """As `unwrapped`, for lists of tuples."""
    told, far = [frames[0]], 0.0
    for before, frame in zip(frames, frames[1:]):
        moved = [tuple((b - a + half) % period - half for a, b in zip(*pair)) for pair in zip(before, frame)]
        far = max(far, arrays.farthest(moved) / period)
        told.append(arrays.added(told[-1], moved))
    warn_of_far(name, far)
    return told
