"""Lists of coordinates: numpy arrays if numpy is installed, else lists of tuples.

Type checkers see arrays only: `FloatArray` is an `NDArray[float64]`, and `IntArray` an `NDArray[int64]`.
"""
from __future__ import annotations

import importlib
import math
import sys
from typing import TYPE_CHECKING, Any, List, Sequence, Tuple, Union, cast

from .units import RING

if TYPE_CHECKING:
    from numpy import float64, int64
    from numpy.typing import NDArray

    FloatArray = NDArray[float64]
    IntArray = NDArray[int64]
    # The types that are read as coordinates of all atoms.
    Rows = Union[Sequence[Any], NDArray[Any]]
else:
    # numpy need not be installed.
    FloatArray = IntArray = Rows = Any

HALF = RING // 2
LONG_TEXT = 10_000


def __getattr__(name: str) -> Any:
    """`numpy`, or None if it is not installed. It is imported at first access, which takes as long as the rest of this package."""
    if name != "numpy":
        raise AttributeError(f"module {__name__!r} has no attribute {name!r}")
    # Imported by name, so that types are the same whether it is installed or not.
    try:
        globals()[name] = importlib.import_module(name)
    except ImportError:
        globals()[name] = None
    return globals()[name]


def _numpy() -> Any:
    """`numpy` as this module has it now."""
    return sys.modules[__name__].numpy


def of_places(places: List[Tuple[int, int, int]]) -> IntArray:
    """Places in ring units: an int64 array of shape (atoms, 3), or the list itself."""
    numpy = _numpy()
    return cast(IntArray, places if numpy is None else numpy.array(places, dtype=numpy.int64).reshape(-1, 3))


def of_positions(places: Any, edge: float) -> FloatArray:
    """Positions in the unit of the edge, from the result of `of_places`: an array of shape (atoms, 3), or a list of tuples."""
    numpy = _numpy()
    if numpy is None:
        return cast(FloatArray, [tuple(coordinate * edge / RING for coordinate in place) for place in places])
    return cast(FloatArray, places * edge / RING)


def millionths(positions: Any) -> Any:
    """Positions with six decimals in millionths: whole numbers, in the form of places."""
    numpy = _numpy()
    if numpy is None:
        return [tuple(round(part * 10**6) for part in position) for position in positions]
    return numpy.rint(positions * 10**6).astype(numpy.int64)


def part_in_box(part: Any, nanos: int) -> Any:
    """As `in_box`, for one coordinate of a place, in Python integers."""
    return part * nanos // (RING * 1000)


def in_box(places: Any, nanos: int) -> Any:
    """The millionths that the server dumps for places in a box of edge `nanos` * 10^-9: `place * nanos / (2^32 * 1000)`, rounded
    down. Whole numbers, in the form of places.

    A place is below 2^32, and the edge has two halves of 32 bits. So each product is below 2^64, and so is their sum, since it
    is at most the edge. An edge of more bits, which no server accepts, is multiplied in Python integers.
    """
    numpy = _numpy()
    if numpy is None:
        return [tuple(part_in_box(part, nanos) for part in place) for place in places]
    if nanos >= 2**64:
        return part_in_box(places.astype(object), nanos)
    parts = places.astype(numpy.uint64)
    high, low, bits = (numpy.uint64(number) for number in (nanos >> 32, nanos % RING, 32))
    return ((parts * high + (parts * low >> bits)) // numpy.uint64(1000)).astype(numpy.int64)


def of_millionths(parts: Any) -> Any:
    """Positions from millionths: an array of floats, or a list of tuples."""
    numpy = _numpy()
    if numpy is None:
        return [tuple(part / 10**6 for part in each) for each in parts]
    return (parts / 10**6).astype(numpy.float64, copy=False)


def listed(places: Any) -> List[Any]:
    """Places as a list, with Python numbers."""
    return list(places.tolist() if hasattr(places, "tolist") else places)


def greatest(places: Any) -> int:
    """The greatest coordinate of places."""
    return int(places.max() if hasattr(places, "max") else max(part for place in places for part in place))


def stacked(things: List[Any]) -> Any:
    """Positions, or frames of coordinates, as one array with one more axis, or the list itself."""
    numpy = _numpy()
    return things if numpy is None else numpy.array(things)


def scaled(images: Any, unit: float) -> FloatArray:
    """Differences multiplied by this unit: an array of floats, or a list of tuples."""
    numpy = _numpy()
    return cast(FloatArray, [tuple(part * unit for part in image) for image in images] if numpy is None else images * unit)


def count_of_lines(text: bytes) -> int:
    """The number of line ends in a text. In a long text numpy counts them, if it is imported, in a tenth of the time."""
    numpy = globals().get("numpy")
    if numpy is None or len(text) < LONG_TEXT:
        return text.count(b"\n")
    return int(numpy.count_nonzero(numpy.frombuffer(text, dtype=numpy.uint8) == ord("\n")))


def has_others(text: bytes, plain: bytes) -> bool:
    """Whether a text has bytes other than the plain ones: printable ASCII characters, and line ends. A long text is checked by
    numpy, if it is imported: a printable character minus a blank is at most 94."""
    numpy = globals().get("numpy")
    if numpy is None or len(text) < LONG_TEXT:
        return bool(text.translate(None, plain))
    data = numpy.frombuffer(text, dtype=numpy.uint8)
    unprinted = numpy.count_nonzero(data - numpy.uint8(ord(" ")) > ord("~") - ord(" "))
    return bool(unprinted != numpy.count_nonzero(data == ord("\n")))


def added(images: Any, others: Any) -> Any:
    """The sums of two lists of differences, or of coordinates: an array, or a list of tuples."""
    numpy = _numpy()
    if numpy is None:
        return [tuple(a + b for a, b in zip(*pair)) for pair in zip(images, others)]
    return numpy.add(images, others)


def farthest(images: Any) -> Any:
    """The greatest absolute difference along an axis."""
    return abs(images).max() if hasattr(images, "max") else max(abs(part) for image in images for part in image)


def least_images(places: Rows, others: Rows) -> IntArray:
    """The differences `places - others`, by the shorter way around the box.

    Parameters
    ----------
    places, others : numpy.ndarray of int, shape (atoms, 3)
        Places in ring units, or lists of tuples.

    Returns
    -------
    numpy.ndarray of int, shape (atoms, 3)
        In ring units: -2^31 to 2^31 - 1 along each axis. A list of tuples if numpy is not installed.
    """
    numpy = _numpy()
    if numpy is None:
        images = [tuple((a - b + HALF) % RING - HALF for a, b in zip(*pair)) for pair in zip(places, others)]
    else:
        images = (numpy.asarray(places, dtype=numpy.int64) - numpy.asarray(others, dtype=numpy.int64) + HALF) % RING - HALF
    return cast(IntArray, images)


def distance(places: Rows, others: Rows) -> float:
    """The root mean square distance of atoms between two lists of places, each by the shorter way around the box.

    Parameters
    ----------
    places, others : numpy.ndarray of int, shape (atoms, 3)
        Places in ring units, or lists of tuples.

    Returns
    -------
    float
        In ring units.
    """
    squares = [sum(float(part) ** 2 for part in image) for image in least_images(places, others)]
    return math.sqrt(sum(squares) / len(squares)) if squares else 0.0
