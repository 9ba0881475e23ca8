"""Lines of atoms with replaced positions, which numpy writes all at once.

Each piece of a line is written as one number of eight bytes, but may be shorter: the pieces after it overwrite the excess.
So all symbols are written first, then the whole numbers, and then the decimals, which are eight bytes with their point and
the blank or line end after them.
"""
from __future__ import annotations

import functools
from typing import Any, Optional, Tuple

from .arrays import numpy
from .digits import Rows
from .order import Order

MILLION = 10**6
PIECE = 8
# In millionths: numbers have at most six digits before the point.
TOO_MANY = 10**12
# The most bytes of a symbol and the blank after it. Its pieces have 24 bytes, and the line has more.
LONGEST = 17


def lines(text: bytes, rows: Rows, columns: Any, order: Order) -> Optional[bytes]:
    """The lines of a text, with its numbers replaced by the millionths of these columns, in the user's order.

    None if a number has more than six digits before its point, or if a symbol is not one that the server accepts.
    """
    lengths = rows.blanks - rows.begins
    lengths += 1
    if lengths.max() > LONGEST or columns.max() >= TOO_MANY:
        return None
    symbols, lengths, columns = order._for_user(rows.begins), order._for_user(lengths), order._columns_for_user(columns)
    whole = columns // MILLION
    wholes, widths = _whole_pieces(whole)
    whole *= MILLION
    whole = numpy.subtract(columns, whole, out=whole)
    begins, points = _begins(lengths, widths)
    written = numpy.empty(points[2, -1] + PIECE, dtype=numpy.uint8)
    read_from, write_to = _pieces(numpy.frombuffer(text, dtype=numpy.uint8)), _pieces(written)
    for at in range(0, int(lengths.max()), PIECE):
        write_to[begins + at] = read_from[symbols + at]
    widths = numpy.subtract(points, widths, out=widths)
    write_to[widths] = wholes
    write_to[points] = _decimal_pieces(whole)
    return bytes(written)


def _begins(lengths: Any, widths: Any) -> Tuple[Any, Any]:
    """Where lines begin, and where their points are, by the numbers of bytes of their symbols and whole numbers."""
    points = numpy.empty_like(widths)
    numpy.add(lengths, widths[0], out=points[0])
    for axis in (1, 2):
        numpy.add(points[axis - 1], widths[axis], out=points[axis])
        points[axis] += PIECE
    ends = points[2] + PIECE
    begins = numpy.cumsum(ends)
    begins -= ends
    points += begins
    return begins, points


def _pieces(data: Any) -> Any:
    """Bytes as overlapping numbers of eight bytes, one from each byte on."""
    return numpy.ndarray((data.size - PIECE + 1,), dtype="<u8", buffer=data, strides=(1,))


def _whole_pieces(numbers: Any) -> Tuple[Any, Any]:
    """The digits of whole numbers below 10^6 as pieces, and the number of digits of each."""
    plain, counts, threes = _tables()
    if numbers.max() < 1000:
        return plain.take(numbers), counts.take(numbers)
    thousands = numbers // 1000
    rest = numbers - thousands * 1000
    many, digits = thousands > 0, counts[thousands]
    pieces = numpy.where(many, plain[thousands] | threes[rest] << (8 * digits).astype(numpy.uint64), plain[rest])
    return pieces, numpy.where(many, digits + 3, counts[rest])


def _decimal_pieces(numbers: Any) -> Any:
    """Points, six decimals and the byte after them, as pieces: three digits with their point, and three with a blank, which
    becomes a line end in the last column."""
    first, last = _decimal_tables()
    thousands = numbers // 1000
    pieces = first.take(thousands)
    thousands *= 1000
    pieces |= last.take(numpy.subtract(numbers, thousands, out=thousands))
    pieces[2] ^= numpy.uint64((ord(" ") ^ ord("\n")) << 56)
    return pieces


@functools.lru_cache(maxsize=1)
def _decimal_tables() -> Tuple[Any, Any]:
    """For the numbers below 1000: a point and three digits, and three digits in the bytes after these and a blank."""
    threes = _tables()[2]
    return threes << numpy.uint64(8) | numpy.uint64(ord(".")), threes << numpy.uint64(32) | numpy.uint64(ord(" ") << 56)


@functools.lru_cache(maxsize=1)
def _tables() -> Tuple[Any, Any, Any]:
    """For the numbers below 1000: their digits, the number of digits, and three digits with leading zeros."""
    words, threes = [str(number) for number in range(1000)], [f"{number:03}" for number in range(1000)]
    numbers = [[int.from_bytes(word.encode(), "little") for word in each] for each in (words, threes)]
    plain, filled = (numpy.array(each, dtype=numpy.uint64) for each in numbers)
    return plain, numpy.array([len(word) for word in words]), filled
