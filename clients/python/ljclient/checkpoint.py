"""Files of saved sessions: readable text, in which a check on each line shows damage.

The first line is the head, and the last is `end`. Each line below the head begins with the CRC-32 of all text up to its
own end, without the digits of the checks. So the first changed line is known.
"""
from __future__ import annotations

import math
import os
import re
import zlib
from typing import Dict, Iterator, List, Pattern, Sequence, Tuple

from .errors import Damaged
from .files import Path, checked_target, write_whole
from .mixture import MAX_WEIGHT, Mixture
from .names import NAME, SYMBOL
from .order import IN_SPACE, Place
from .state import State
from .units import MAX_STEP_FACTOR, RING, Scale

HEAD = "ljserve checkpoint 1"
# How the files of all versions begin.
FAMILY = b"ljserve checkpoint "
END = "end"
WHOLE = re.compile(r"-?[0-9]{1,19}\Z")
DIRECTION = re.compile(r"-?1\Z")
MAX_ATOMS = 4096
MAX_SIZE = 1 << 20
LEAST_SIGMA = 1 << 16
MAX_STEP = 10**18
MAX_SIGMA = RING // 5
SPECIES = ("first", "second")
CLASS = ("sigma", "ring", "h", "weight")
UNITS = ("epsilon", "mass")


def write(state: State, path: Path) -> None:
    """Writes a state to a file. An older file of that name stays until the new one is complete.

    Raises ValueError, and changes nothing, if the path has something other than a saved session or an empty file.
    """
    check_may_be_replaced(path)
    write_whole(path, text_of(state).encode("ascii"))


def check_may_be_replaced(path: Path) -> None:
    """Raises ValueError if the path has something other than a saved session or an empty file."""
    try:
        with open(checked_target(path), "rb") as file:
            head = file.read(len(FAMILY))
    except FileNotFoundError:
        return
    if head and head != FAMILY:
        raise ValueError(
            f"cannot write {os.fspath(path)}: it exists and is not a saved session; use another name, or delete that file first"
        )


def text_of(state: State) -> str:
    """The text of a file in which a state is saved."""
    check, told = _check_of(HEAD, 0), [HEAD]
    for line in [*_words_of(state), *_atoms_of(state), END]:
        check = _check_of(line, check)
        told.append(f"{check:08x} {line}")
    return "\n".join(told) + "\n"


def _check_of(line: str, above: int) -> int:
    """The check of a line below text with the check `above`."""
    return zlib.crc32(line.encode("ascii") + b"\n", above)


def _words_of(state: State) -> Iterator[str]:
    """The lines above the atoms."""
    yield f"session {state.name}"
    yield f"step {state.step} direction {state.direction}"
    yield f"edge {float(state.scale.edge)!r}"
    if state.mixture is not None:
        yield " ".join(word for pair in zip(SPECIES, state.mixture.species) for word in pair)
    for each in (state.scale,) if state.mixture is None else state.mixture.classes:
        line = f"sigma {float(each.sigma)!r} ring {each.sigma_on_ring} h {each.h} weight {each.weight}"
        units = zip(UNITS, (each.epsilon, each.mass))
        yield line + "".join(f" {name} {float(value)!r}" for name, value in units if value is not None)
    if state.is_sorted:
        yield f"order {IN_SPACE}"
    yield f"atoms {len(state.symbols)}"


def _atoms_of(state: State) -> Iterator[str]:
    """A line for each atom: its symbol, its place, and its place one step before."""
    for symbol, (x, y, z), (u, v, w) in zip(state.symbols, state.places, state.before):
        yield f"{symbol} {x} {y} {z} {u} {v} {w}"


def read(path: Path) -> State:
    """The state in a file. Raises `Damaged`, with the line, if the file is not as it was written."""
    with open(path, "rb") as file:
        data = file.read(MAX_SIZE + 1)
    reader = _Reader(os.fspath(path))
    reader.check(data)
    return reader.state()


class _Reader:
    """Reads a saved state line by line. If a line is not as it should be, `Damaged` names it."""

    def __init__(self, path: str):
        self._path = path
        self._lines: List[str] = []
        self._at = 0

    def check(self, data: bytes) -> None:
        """Checks the lines below the head, and keeps them without checks."""
        head, *rows = data.split(b"\n")
        if head != HEAD.encode():
            raise self._damaged(f"a saved session must begin with `{HEAD}`")
        check = _check_of(HEAD, 0)
        for self._at, row in enumerate(rows, 1):
            told, _, line = row.decode("ascii", "replace").partition(" ")
            check = _check_of(line, check) if line.isascii() else -1
            if told != f"{check:08x}":
                raise self._damaged("the file ends too early" if self._at == len(rows) else "the line was changed")
            self._lines.append(line)
            if line == END and rows[self._at :] == [b""]:
                self._at = 0
                return
        raise self._damaged("the file ends too early")

    def state(self) -> State:
        """The state in the lines."""
        name = self._shaped(self._pairs(("session",))["session"], NAME)
        moved = self._pairs(("step", "direction"))
        step, direction = self._whole(moved["step"], -MAX_STEP, MAX_STEP), int(self._shaped(moved["direction"], DIRECTION))
        edge = self._real(self._pairs(("edge",))["edge"])
        species = tuple(self._pairs(SPECIES).values()) if self._is_next("first") else ()
        classes = tuple(self._class(edge) for _ in range(3 if species else 1))
        is_sorted = self._is_next("order") and self._pairs(("order",))["order"] == IN_SPACE
        count = self._whole(self._pairs(("atoms",))["atoms"], 1, MAX_ATOMS)
        symbols, places, before = zip(*[self._atom(species) for _ in range(count)])
        if self._next() != END:
            raise self._damaged(f"{count} atoms must be followed by `{END}`")
        mixture = Mixture((species[0], species[1]), classes) if species else None
        return State(name, classes[0], mixture, step, direction, symbols, places, before, is_sorted)

    def _next(self) -> str:
        """The next line; at the end always `end`, which fits no other kind."""
        self._at += 1
        return self._lines[min(self._at, len(self._lines)) - 1]

    def _is_next(self, name: str) -> bool:
        return self._lines[min(self._at, len(self._lines) - 1)].startswith(name + " ")

    def _pairs(self, names: Sequence[str], more: Sequence[str] = ()) -> Dict[str, str]:
        """The words of the next line by their names: all of `names`, and then any of `more`."""
        words = self._next().split(" ")
        told = dict(zip(words[::2], words[1::2]))
        if tuple(told)[: len(names)] != tuple(names) or not set(told) <= {*names, *more} or 2 * len(told) != len(words):
            raise self._damaged(f"the line must have {', '.join(names)}")
        return told

    def _class(self, edge: float) -> Scale:
        """How the atoms of a class of pairs interact."""
        told = self._pairs(CLASS, UNITS)
        ring, h = self._whole(told["ring"], LEAST_SIGMA, MAX_SIGMA), self._whole(told["h"], 1, MAX_STEP_FACTOR)
        epsilon, mass = (self._real(told[name]) if name in told else None for name in UNITS)
        weight = self._whole(told["weight"], 1, MAX_WEIGHT)
        return Scale(edge, self._real(told["sigma"]), h, epsilon, mass, ring, weight)

    def _atom(self, species: Sequence[str]) -> Tuple[str, Place, Place]:
        symbol, *words = self._next().split(" ")
        if self._shaped(symbol, SYMBOL) not in (species or (symbol,)) or len(words) != 6:
            raise self._damaged("the line must be a symbol and two places")
        x, y, z, u, v, w = (self._whole(word, 0, RING - 1) for word in words)
        return symbol, (x, y, z), (u, v, w)

    def _shaped(self, word: str, shape: Pattern[str]) -> str:
        if not shape.match(word):
            raise self._damaged(f"{word[:40]!r} cannot stand here")
        return word

    def _whole(self, word: str, least: int, most: int) -> int:
        if not least <= int(self._shaped(word, WHOLE)) <= most:
            raise self._damaged(f"a number must be whole, from {least} to {most}, got {word!r}")
        return int(word)

    def _real(self, word: str) -> float:
        try:
            number = float(word)
        except ValueError:
            number = math.nan
        if not 0 < number < math.inf:
            raise self._damaged(f"a number must be above 0, got {word!r}")
        return number

    def _damaged(self, why: str) -> Damaged:
        return Damaged(self._path, self._at + 1, why)
