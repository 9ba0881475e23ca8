"""Whole numbers from the bytes of many lines, which numpy reads all at once.

A place is found by its end: the eight bytes before are taken as one number, and the bytes before its digits are ignored. A position
is found by its end too: its point is six digits before. Little memory is allocated, since allocation costs as much as computing.
"""
from __future__ import annotations

from typing import Any, NamedTuple, Optional

from .arrays import numpy

NUMBER_DIGITS = 4
PLACE_DIGITS = 10
DECIMALS = 6
# The most digits of an edge before its point.
MOST_DIGITS = 7


def places(text: bytes, head: bytes) -> Optional[Any]:
    """The numbers and places of atoms, from lines with this head, of 8 bytes or more, and four whole numbers: an array of shape
    (4, atoms). None if any line has another form.
    """
    data = numpy.frombuffer(text, dtype=numpy.uint8)
    ends = _last_ends(data, head.count(b" ") + 4)
    if ends is None:
        return None
    starts = ends[0] - (len(head) - 1)
    if starts[0] or not (starts[1:] == ends[4, :-1] + 1).all() or not _begin_with(data, starts, head):
        return None
    lengths = ends[1:] - ends[:4]
    lengths -= 1
    if lengths.min() < 1 or lengths[0].max() > NUMBER_DIGITS or lengths.max() > PLACE_DIGITS:
        return None
    numbers, high = _last_eight(data, ends[1:], lengths), _first_two(data, ends[2:], lengths[1:])
    if numbers is None or high is None:
        return None
    numbers[1:] += high
    return numbers


class Rows(NamedTuple):
    """The lines of atoms, each of a symbol and three numbers of six decimals. They are in columns, to compute with all at once.

    begins   where the symbol of each line begins, and `blanks` where the blank after it is
    columns  the numbers in millionths: an int64 array of shape (3, atoms)
    """

    begins: Any
    blanks: Any
    columns: Any


def positions(text: bytes, start: int, count: int) -> Optional[Any]:
    """The numbers of the lines of atoms that `rows` reads, an array of shape (atoms, 3). They equal `float` of the words, since
    their millionths are below 2^53."""
    found = rows(text, start, count)
    return None if found is None else numpy.ascontiguousarray(found.columns.T / 10**DECIMALS)


def rows(text: bytes, start: int, count: int) -> Optional[Rows]:
    """The `count` lines of a text from `start` on, each a symbol and three numbers of six decimals, with one blank between two
    words. Before the start there are at least 8 bytes.

    None if any line has another form. Symbols are not checked further.
    """
    data = numpy.frombuffer(text, dtype=numpy.uint8)
    ends = numpy.flatnonzero(data[start:] <= ord(" "))
    if not count or ends.size != 4 * count or data[-1] != ord("\n"):
        return None
    ends = numpy.ascontiguousarray(ends.reshape(-1, 4).T)
    ends += start
    if not (data.take(ends[0]) == ord(" ")).all():
        return None
    points = ends[1:] - (DECIMALS + 1)
    numbers, decimals = _whole_between(data, ends[:3], points), _decimals_after(data, points)
    if numbers is None or decimals is None:
        return None
    numbers *= 10**DECIMALS
    numbers += decimals
    begins = numpy.concatenate(([start], ends[3, :-1] + 1))
    return Rows(begins, ends[0], numbers)


def _eights(data: Any, starts: Any) -> Any:
    """The eight bytes from each of these starts on, as one number."""
    return numpy.ndarray((data.size - 7,), dtype="<u8", buffer=data, strides=(1,))[starts]


def _whole_between(data: Any, blanks: Any, points: Any) -> Optional[Any]:
    """The whole numbers between blanks and points. None if one is not a number, or too long.

    Eight bytes before a point are taken as one number, and the bytes before its digits are set to zero.
    """
    lengths = points - blanks
    lengths -= 1
    if lengths.min() < 1 or lengths.max() > MOST_DIGITS:
        return None
    kept = numpy.array([0xFFFFFFFFFFFFFFFF << 64 - 8 * length & 0xFFFFFFFFFFFFFFFF for length in range(MOST_DIGITS + 1)], "<u8")
    masks = kept.take(lengths)
    numpy.subtract(points, 8, out=lengths)
    eights = _eights(data, lengths)
    eights &= masks
    masks &= numpy.uint64(0x3030303030303030)
    eights ^= masks
    return _numbers(eights, masks, 0x0606060606060606, 0xF0F0F0F0F0F0F0F0)


def _decimals_after(data: Any, points: Any) -> Optional[Any]:
    """The six decimals after each point as a whole number. None if one has another form, or if the lines do not end after three.

    Eight bytes are taken as one number: the point, six digits, and the byte after them.
    """
    eights = _eights(data, points)
    inner, last = (numpy.uint64(int.from_bytes(text, "little")) for text in (b".000000 ", b".000000\n"))
    eights[:2] ^= inner
    eights[2] ^= last
    return _numbers(eights, numpy.empty_like(eights), 0x0006060606060600, 0xFFF0F0F0F0F0F0FF, 8)


def _numbers(eights: Any, free: Any, carry: int, wrong: int, shift: int = 0) -> Optional[Any]:
    """The numbers with these eight digits, the first in the lowest byte, after a shift by `shift` bits. `free` is an array of the
    same shape to overwrite.

    None if a digit is wrong: one of the `wrong` bits is set, or a carry sets it.
    """
    numpy.add(eights, numpy.uint64(carry), out=free)
    free |= eights
    free &= numpy.uint64(wrong)
    if free.any():
        return None
    if shift:
        eights <<= numpy.uint64(shift)
    # Two digits are joined, and then four: a factor adds each number to 10 or 100 times the one before it.
    fours = eights.view("<u4")
    for factor, bits, kept in ((10 << 8 | 1, 8, 0x00FF00FF), (100 << 16 | 1, 16, 0x0000FFFF)):
        fours *= numpy.uint32(factor)
        fours >>= numpy.uint32(bits)
        fours &= numpy.uint32(kept)
    numbers = free.view(numpy.int64)
    numpy.multiply(fours[..., ::2], 10000, out=numbers, casting="unsafe")
    numbers += fours[..., 1::2]
    return numbers


def _last_ends(data: Any, words: int) -> Optional[Any]:
    """Where the last five words of each line end, if each has `words` words with one blank between two: an array of shape (5, lines).
    None if any line has another form."""
    marks = data <= ord(" ")
    ends = numpy.flatnonzero(marks)
    lines, blanks = (numpy.count_nonzero(numpy.equal(data, ord(end), out=marks)) for end in "\n ")
    if not lines or ends.size != words * lines or lines + blanks != ends.size:
        return None
    ends = numpy.ascontiguousarray(ends.reshape(-1, words)[:, -5:].T)
    return ends if (data.take(ends[4]) == ord("\n")).all() else None


def _begin_with(data: Any, starts: Any, head: bytes) -> bool:
    """Whether each line begins with this head, of 8 bytes or more: eight of them are compared at once."""
    places = [*range(0, len(head) - 7, 8), len(head) - 8]
    return all((_eights(data, starts + place) == int.from_bytes(head[place : place + 8], "little")).all() for place in places)


def _last_eight(data: Any, ends: Any, lengths: Any) -> Optional[Any]:
    """The whole numbers of the last eight digits, or all if there are fewer, of words with these ends. None if one is not a number."""
    kept = numpy.array([0xFFFFFFFFFFFFFFFF << 64 - 8 * min(length, 8) & 0xFFFFFFFFFFFFFFFF for length in range(PLACE_DIGITS + 1)], "<u8")
    masks, eights = kept.take(lengths), _eights(data, ends - 8)
    eights &= masks
    masks &= numpy.uint64(0x3030303030303030)
    eights ^= masks
    return _numbers(eights, masks, 0x0606060606060606, 0xF0F0F0F0F0F0F0F0)


def _first_two(data: Any, ends: Any, lengths: Any) -> Optional[Any]:
    """The value of the digits before the last eight. None if one is not a number."""
    kept = numpy.array([0] * 9 + [0xFF00, 0xFFFF], "<u8")
    masks, twos = kept.take(lengths), _eights(data, ends - PLACE_DIGITS)
    twos &= masks
    masks &= numpy.uint64(0x3030)
    twos ^= masks
    if ((twos + numpy.uint64(0x0606) | twos) & numpy.uint64(0xF0F0)).any():
        return None
    ones = twos >> numpy.uint64(8)
    twos &= numpy.uint64(0xFF)
    twos *= numpy.uint64(10)
    twos += ones
    twos *= numpy.uint64(10**8)
    return twos.view(numpy.int64)
