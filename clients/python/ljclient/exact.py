"""XYZ text as whole numbers: the places that the server would load from it, bit for bit, and text that reproduces places.

The grammar is the server's. A text that it refuses is not read here, and the server says what is wrong with it.
"""
from __future__ import annotations

import re
from typing import Iterator, List, NamedTuple, Optional, Sequence, Tuple

from .names import SYMBOL
from .order import Place
from .units import RING

MAX_ATOMS = 4096
MAX_NANO = 10**15
MIN_EDGE, MAX_EDGE = 10**6, 10**15
COUNT = re.compile(rb"[0-9]{1,19}\Z")
NUMBER = re.compile(rb"([+-]?)(?=\.?[0-9])([0-9]*)\.?([0-9]*)(?:[eEdD]([+-]?[0-9]{1,3}))?\Z")
MAX_WORD = 40
BLANKS = re.compile(rb"[ \t]+")


class Exact(NamedTuple):
    """The frames of a text, in ring units.

    symbols         the symbol of each atom
    places, before  the place of each atom now and one step before
    """

    symbols: Tuple[str, ...]
    places: Tuple[Place, ...]
    before: Tuple[Place, ...]

    def moved(self, displacements: Sequence[Sequence[int]]) -> "Exact":
        """The same atoms with these displacements since the step before."""
        before = [tuple((a - b) % RING for a, b in zip(*each)) for each in zip(self.places, displacements)]
        return self._replace(before=tuple((x, y, z) for x, y, z in before))


def exact_frames(mode: str, body: bytes, edge: int) -> Optional[Exact]:
    """The frames of a body for a LOAD of this mode, in a box whose edge is `edge` * 10^-9 of the file's unit. None if it has
    none."""
    if not MIN_EDGE <= edge <= MAX_EDGE:
        return None
    lines = _lines(body)
    try:
        frames = [_frame(lines, edge) for _ in range(2 if mode == "pair" else 1)]
    except (StopIteration, ValueError):
        return None
    symbols, before = frames[0]
    places = frames[-1][1]
    return Exact(symbols, places, before) if len(places) == len(before) else None


def text_in_box(comment: str, symbols: Sequence[str], places: Sequence[Place], edge: int) -> bytes:
    """A frame of XYZ text with these places in a box of this edge, at least 2^32 * 10^-9. In it each place has a coordinate in
    units of 10^-9."""
    lines = [f"{symbol} {' '.join(f'{-(-part * edge // RING)}e-9' for part in place)}\n" for symbol, place in zip(symbols, places)]
    return f"{len(lines)}\n{comment}\n{''.join(lines)}".encode()


def _lines(body: bytes) -> Iterator[bytes]:
    """The lines of a text, without their ends. Text after the last line feed is a line unless it is empty."""
    lines = body.split(b"\n")
    if not lines[-1]:
        del lines[-1]
    return (line[:-1] if line.endswith(b"\r") else line for line in lines)


def _words(line: bytes) -> List[bytes]:
    return [word for word in BLANKS.split(line) if word]


def _frame(lines: Iterator[bytes], edge: int) -> Tuple[Tuple[str, ...], Tuple[Place, ...]]:
    """The symbols and the places of the next frame. Raises StopIteration or ValueError if there is none."""
    count = _count(next(words for words in map(_words, lines) if words)[0])
    next(lines)
    rows = [_atom(_words(next(lines)), edge) for _ in range(count)]
    return tuple(symbol for symbol, _ in rows), tuple(place for _, place in rows)


def _count(word: bytes) -> int:
    if not (COUNT.match(word) and 1 <= int(word) <= MAX_ATOMS):
        raise ValueError(f"the number of atoms must be from 1 to {MAX_ATOMS}")
    return int(word)


def _atom(words: Sequence[bytes], edge: int) -> Tuple[str, Place]:
    """The symbol of an atom and its place: `floor(q * 2^32 / edge)` of each coordinate q in 10^-9, modulo 2^32."""
    symbol, x, y, z = words[:4]
    text = symbol.decode("ascii")
    if not SYMBOL.match(text):
        raise ValueError("a symbol must be 1 to 16 printing characters")
    return text, (_place(x, edge), _place(y, edge), _place(z, edge))


def _place(word: bytes, edge: int) -> int:
    return nano_of(word) * RING // edge % RING


def nano_of(word: bytes) -> int:
    """A decimal word of the protocol in units of 10^-9, halves rounded away from zero. ValueError for another form, or out of range."""
    found = NUMBER.match(word)
    if found is None or len(word) > MAX_WORD:
        raise ValueError("a number must be decimal, as in the protocol")
    sign, whole, fraction, power = found.groups()
    shift = 9 - len(fraction) + int(power or 0)
    digits = int(whole + fraction)
    number = digits * _power(shift) if shift >= 0 else (2 * digits + _power(-shift)) // (2 * _power(-shift))
    if number > MAX_NANO:
        raise ValueError("a number must not be beyond a million")
    return -number if sign == b"-" else number


def _power(exponent: int) -> int:
    """Ten to an exponent that is not below zero."""
    power: int = 10**exponent
    return power
