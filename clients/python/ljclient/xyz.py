"""The sources of a session, as the XYZ text that the server reads."""
from __future__ import annotations

import collections
import contextlib
import itertools
import math
import os
import re
from typing import Any, Iterable, Iterator, List, Optional, Sequence, Tuple

from . import ase_bridge, other_files
from .names import shortened
from .species import Symbols, names_of, with_symbols

MAX_BYTES = 1_048_576
LATTICE = re.compile(rb'\bLattice\s*=\s*"([^"]*)"')
Row = Tuple[str, float, float, float]
Frames = Tuple[str, bytes]


def body_of(source: Any, symbols: Symbols = None) -> bytes:
    """The XYZ text of a source.

    Paths (`str` or `os.PathLike`) and open files are read. `bytes`, and a `str` with a line end in it, are the text itself.
    `Atoms` of ASE, a list of `(symbol, x, y, z)`, and a list or an array of positions are written as text with all digits of
    each coordinate. `symbols`, one for all atoms or a list with one for each, replaces the symbols of the source; positions
    have none.
    """
    text = _text_in(source)
    if text is None:
        body = text_of(_rows(source, symbols))
    else:
        body = text if symbols is None else with_symbols(text, symbols)
    if len(body) > MAX_BYTES:
        raise ValueError(f"the XYZ text must have at most {MAX_BYTES} bytes, got {len(body)}")
    return body


def _text_in(source: Any) -> Optional[bytes]:
    """The text of a source that is text, a path or a file. None for any other."""
    if isinstance(source, (bytes, bytearray, memoryview)):
        return bytes(source)
    if isinstance(source, str) and "\n" in source:
        return source.encode()
    if isinstance(source, (str, os.PathLike)):
        with open(source, "rb") as file:
            text = file.read(MAX_BYTES + 1)
        other_files.check_text(source, text)
        return text
    if hasattr(source, "read"):
        read = source.read()
        return read.encode() if isinstance(read, str) else bytes(read)
    return None


def _rows(source: Any, symbols: Symbols) -> List[Tuple[str, Sequence[float]]]:
    """The symbol and the position of each atom of a source that is not text."""
    if ase_bridge.is_atoms(source):
        own, positions = list(source.get_chemical_symbols()), list(source.get_positions())
    else:
        own, positions = _listed(source)
    if symbols is None and len(own) < len(positions):
        raise ValueError("positions must come with symbols, got None; use symbols='Ar', or rows of (symbol, x, y, z)")
    return list(zip(own if symbols is None else names_of(symbols, len(positions)), positions))


def _listed(source: Any) -> Tuple[List[str], List[Any]]:
    """The symbols and the positions of a list. There are no symbols unless all rows have one."""
    try:
        rows = list(source)
    except TypeError:
        raise TypeError(f"the atoms must be a path, a file, a text, `Atoms` of ASE or a list, got {shortened(source)}") from None
    if not all(hasattr(row, "__len__") and len(row) == 4 and isinstance(row[0], str) for row in rows):
        return [], rows
    return [row[0] for row in rows], [row[1:] for row in rows]


def text_of(atoms: Iterable[Tuple[str, Sequence[float]]], comment: str = "ljclient") -> bytes:
    """A frame of XYZ text, with all digits of each coordinate."""
    lines = []
    for number, (symbol, position) in enumerate(atoms):
        if not (isinstance(symbol, str) and symbol.split() == [symbol]):
            raise ValueError(f"the symbol of atom {number} must be a word such as 'Ar', got {shortened(symbol)}")
        try:
            x, y, z = map(float, position)
        except (TypeError, ValueError) as error:
            raise type(error)(f"the position of atom {number} must be three numbers, got {shortened(position)}") from None
        lines.append(f"{symbol} {x!r} {y!r} {z!r}\n")
    return f"{len(lines)}\n{comment}\n{''.join(lines)}".encode()


def frames_of(source: Any, before: Any, symbols: Symbols, pair: bool = False) -> Frames:
    """The mode and the body of a command that loads a source: at rest, or in motion from the atoms one step before.

    With `pair` the source has both frames itself, the earlier one first.
    """
    if pair and before is not None:
        raise ValueError("cannot use before= with pair=True: the source has both frames then; use one of them")
    body = body_of(source, symbols)
    if pair or before is None:
        return ("pair" if pair else "rest"), body
    return "pair", pair_of(body_of(before, symbols), body)


def pair_of(before: bytes, present: bytes) -> bytes:
    """Two frames, one step apart, as one text."""
    body = before + (b"" if before.endswith(b"\n") else b"\n") + present
    if len(body) > MAX_BYTES:
        raise ValueError(f"the two frames must have at most {MAX_BYTES} bytes, got {len(body)}")
    return body


def present_atoms(frames: Frames) -> List[Row]:
    """The atoms of the present frame of a text, each with its symbol and position. Empty if the text has no such frame."""
    mode, body = frames
    lines = iter(body.split(b"\n"))
    try:
        atoms = _next_frame(lines)
        return atoms if mode == "rest" else _next_frame(lines)
    except (StopIteration, ValueError):
        return []


def _next_frame(lines: Iterator[bytes]) -> List[Row]:
    """The next frame of some lines. Raises StopIteration or ValueError if there is none."""
    count = int(next(filter(None, map(bytes.split, lines)))[0])
    next(lines)
    rows = [line.split()[:4] for line in itertools.islice(lines, count)]
    atoms = [(symbol.decode(), _number(x), _number(y), _number(z)) for symbol, x, y, z in rows]
    if len(atoms) < count:
        raise ValueError(f"a frame must have {count} atoms, got {len(atoms)}")
    return atoms


def _number(word: bytes) -> float:
    """A coordinate. Raises ValueError unless it is a finite number."""
    number = float(word.lower().replace(b"d", b"e"))
    if not math.isfinite(number):
        raise ValueError(f"a coordinate must be a finite number, got {number}")
    return number


def edge_of(source: Any, frames: Frames) -> Optional[float]:
    """The edge of the box from the source itself: the cubic cell of an ASE `Atoms`, or the `Lattice` of a text."""
    return ase_bridge.edge_of(source) if ase_bridge.is_atoms(source) else lattice_edge(frames)


def lattice_edge(frames: Frames) -> Optional[float]:
    """The edge of the box from the comment lines of extended XYZ text. None if they have no Lattice.

    Raises ValueError if the box is not a cube along the axes.
    """
    mode, body = frames
    comments = itertools.islice(_comments(body), 1 if mode == "rest" else 2)
    found = next(filter(None, map(LATTICE.search, comments)), None)
    if found is None:
        return None
    words = found[1].decode("latin-1")
    try:
        cell = [float(word) for word in words.split()]
    except ValueError:
        cell = []
    if not is_cubic(cell):
        raise ValueError(f'Lattice must be a cube along the axes, got "{words[:100]}"; use edge=.., the edge of the box')
    return cell[0]


def _comments(body: bytes) -> Iterator[bytes]:
    """The comment line of each frame of a text, as far as it has frames."""
    lines = iter(body.split(b"\n"))
    with contextlib.suppress(StopIteration, ValueError):
        while True:
            count = int(next(filter(None, map(bytes.split, lines)))[0])
            yield next(lines)
            collections.deque(itertools.islice(lines, count), maxlen=0)


def is_cubic(cell: Sequence[float]) -> bool:
    """Whether these are the nine numbers of a cell that is a cube along the axes."""
    edge = cell[0] if len(cell) == 9 else 0.0
    return edge > 0 and all(abs(part - edge * (place % 4 == 0)) <= 1e-9 * edge for place, part in enumerate(cell))
