"""Pairs of neighbouring atoms in the periodic box, by cells. It needs numpy.

The box is cut into columns along z, and each column into cells. Atoms are sorted by cell, so the atoms of a column at about the
same height are consecutive in the list. An atom is compared with the atoms of columns and heights in its reach.
"""
from __future__ import annotations

import itertools
import math
from typing import Any, Iterator, List, NamedTuple, Tuple

from . import arrays
from .units import RING

# The reach is at most as wide as this many columns, and at most as high as this many cells.
COLUMNS, CELLS = 2, 8
# With up to this many cells per atom there is a table of where each cell begins; else it is searched for.
MOST_CELLS = 16
# Number of pairs compared at a time. The pairs of one atom are not divided.
MOST_PAIRS = 1_000_000
# Number of atoms compared with all others at a time, if the reach is too wide for cells to exclude many.
BLOCK = 256


class Near:
    """Pairs of neighbouring atoms. Each property selects them from more pairs when it is read.

    squares  their squared distances, in square ring units

    If `numbers` is given, the second atoms are indices into it.
    """

    def __init__(self, first: Any, second: Any, images: Tuple[Any, ...], squares: Any, kept: Any, numbers: Any = None):
        self.squares = squares[kept]
        self._all = first, second, images
        self._kept = kept
        self._numbers = numbers

    @property
    def first(self) -> Any:
        """The numbers of the first atoms."""
        return self._all[0][self._kept]

    @property
    def second(self) -> Any:
        """The numbers of the second atoms."""
        places = self._all[1][self._kept]
        return places if self._numbers is None else self._numbers[places]

    @property
    def images(self) -> Any:
        """The vectors from the first atoms to the second, in ring units: an array of shape (3, pairs)."""
        return arrays.numpy.array([image[self._kept] for image in self._all[2]])


class Sorted(NamedTuple):
    """Atoms sorted by cell. Each column also has the periodic images above its top and below its bottom.

    numbers       the number of each atom in the list
    axes          their places along x, y and z, of 32 bits
    cells         the cell of each; `starts` where each cell begins in the list, None if there are too many cells
    side, high    the number of columns along x and along y, and the number of cells in each
    more          the number of cells above a column's top, and below its bottom
    """

    numbers: Any
    axes: Tuple[Any, ...]
    cells: Any
    starts: Any
    side: int
    high: int
    more: int

    def begin(self, cells: Any) -> Any:
        """The indices in the list where some cells begin."""
        return arrays.numpy.searchsorted(self.cells, cells) if self.starts is None else self.starts[cells]


class Pairs(NamedTuple):
    """All pairs of neighbouring atoms: the parts from `Near`, concatenated."""

    first: Any
    second: Any
    images: Any
    squares: Any


def near_pairs(places: Any, square: float) -> Pairs:
    """The pairs of atoms whose squared distance is below `square`, in square ring units, each once."""
    found = [(each.first, each.second, each.images, each.squares) for each in near_parts(places, square)]
    none = arrays.numpy.zeros(0, dtype=arrays.numpy.intp)
    found.append((none, none, arrays.numpy.zeros((3, 0), dtype=arrays.numpy.int32), arrays.numpy.zeros(0)))
    return Pairs(*(arrays.numpy.concatenate(parts, axis=-1) for parts in zip(*found)))


def near_parts(places: Any, square: float) -> Iterator[Near]:
    """The same, in parts.

    places  whole numbers of shape (atoms, 3), in ring units
    """
    numpy = arrays.numpy
    axes = tuple(numpy.ascontiguousarray(axis) for axis in numpy.asarray(places).astype(numpy.uint32).T)
    reach = math.isqrt(math.ceil(square)) + 1
    return _by_cells(axes, reach, square) if COLUMNS * RING // reach > 2 * COLUMNS else _by_blocks(axes, square)


def _by_blocks(axes: Tuple[Any, ...], square: float) -> Iterator[Near]:
    """The pairs by comparing all atoms."""
    numbers = arrays.numpy.arange(len(axes[0]))
    for start in range(0, len(numbers), BLOCK):
        rows, later = numbers[start : start + BLOCK], numbers[start:]
        first, second = (part.ravel() for part in arrays.numpy.meshgrid(rows, later, indexing="ij"))
        images = _images(axes, first, axes, second)
        squares = _squares(images)
        yield Near(first, second, images, squares, arrays.numpy.flatnonzero((squares < square) & (first < second)))


def _by_cells(axes: Tuple[Any, ...], reach: int, square: float) -> Iterator[Near]:
    """The pairs by comparing atoms of cells that are in reach of each other."""
    numpy = arrays.numpy
    atoms = _sorted(axes, reach)
    x, y = ((axis.astype(numpy.int64) * atoms.side) >> 32 for axis in axes[:2])
    z = ((axes[2].astype(numpy.int64) * atoms.high) >> 32) + atoms.more
    for right, back, cells in _columns_in_reach(atoms, reach):
        column = ((x + right) % atoms.side * atoms.side + (y + back) % atoms.side) * (atoms.high + 2 * atoms.more) + z
        start, stop = atoms.begin(column - cells), atoms.begin(column + cells + 1)
        for first, at in _windows(start, stop - start):
            images = _images(axes, first, atoms.axes, at)
            squares = _squares(images)
            # Within a column each pair is met twice.
            is_once = (right, back) != (0, 0) or first < atoms.numbers[at]
            yield Near(first, at, images, squares, numpy.flatnonzero((squares < square) & is_once), atoms.numbers)


def _sorted(axes: Tuple[Any, ...], reach: int) -> Sorted:
    """Atoms sorted by cells for this reach."""
    numpy = arrays.numpy
    side, high = COLUMNS * RING // reach, CELLS * RING // reach
    more = math.ceil(reach * high / RING)
    x, y = ((axis.astype(numpy.int64) * side) >> 32 for axis in axes[:2])
    z = (axes[2].astype(numpy.int64) * high) >> 32
    column = (x * side + y) * (high + 2 * more) + more
    above, below = numpy.flatnonzero(z < more), numpy.flatnonzero(z >= high - more)
    numbers = numpy.concatenate([numpy.arange(len(z)), above, below])
    cells = numpy.concatenate([column + z, (column + z + high)[above], (column + z - high)[below]])
    order = numpy.argsort(cells, kind="stable")
    numbers, cells, count = numbers[order], cells[order], side * side * (high + 2 * more)
    starts = numpy.searchsorted(cells, numpy.arange(count + 1)) if count <= MOST_CELLS * len(z) else None
    return Sorted(numbers, tuple(axis[numbers] for axis in axes), cells, starts, side, high, more)


def _columns_in_reach(atoms: Sorted, reach: int) -> List[Tuple[int, int, int]]:
    """The offsets of columns in reach of a column, one of each opposite two, and the number of cells in reach up and down."""
    width, height, found = RING / atoms.side, RING / atoms.high, []
    for right, back in itertools.product(range(-COLUMNS, COLUMNS + 1), repeat=2):
        apart = math.hypot(max(abs(right) - 1, 0), max(abs(back) - 1, 0)) * width
        if (right, back) >= (0, 0) and apart < reach:
            found.append((right, back, min(math.ceil(math.sqrt(reach**2 - apart**2) / height), atoms.more)))
    return found


def _windows(start: Any, counts: Any) -> Iterator[Tuple[Any, Any]]:
    """For each atom, `counts` consecutive entries of a list from `start` on: the number of the atom, and their indices."""
    numpy = arrays.numpy
    ends = numpy.cumsum(counts)
    bounds = numpy.searchsorted(ends, numpy.arange(MOST_PAIRS, ends[-1], MOST_PAIRS)).tolist()
    for begin, end in zip([0, *bounds], [*bounds, len(counts)]):
        some, ends = counts[begin:end], numpy.cumsum(counts[begin:end])
        if len(some) and ends[-1]:
            places = numpy.arange(ends[-1]) + numpy.repeat(start[begin:end] - (ends - some), some)
            yield numpy.repeat(numpy.arange(begin, end), some), places


def _images(axes: Tuple[Any, ...], first: Any, others: Tuple[Any, ...], second: Any) -> Tuple[Any, ...]:
    """The vectors from first to second atoms of pairs, by the shorter way around the box, as differences of 32 bits."""
    return tuple((theirs[second] - ours[first]).view(arrays.numpy.int32) for ours, theirs in zip(axes, others))


def _squares(images: Tuple[Any, ...]) -> Any:
    """The squared distances of images."""
    x, y, z = (image.astype(arrays.numpy.float64) for image in images)
    return x * x + y * y + z * z
