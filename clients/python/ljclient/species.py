"""Symbols of loaded atoms: `symbols=` in place of those in a text, and the check that one species has one symbol."""
from __future__ import annotations

import re
from typing import Any, Iterable, List, Optional, Sequence, Union

from .elements import ELEMENTS
from .names import checked_symbol, shortened
from .units import SUBSTANCES, Scale

# One symbol for all atoms, or a list with one for each.
Symbols = Union[str, Sequence[str], None]
FIRST_WORD = re.compile(rb"\S+")


def names_of(symbols: Any, count: int) -> List[str]:
    """The symbol of each of `count` atoms. Raises TypeError or ValueError for anything else."""
    if isinstance(symbols, str):
        return [symbols] * count
    try:
        names = list(symbols)
    except TypeError:
        raise TypeError(f"symbols must be a string, or a list of one for each atom, got {shortened(symbols)}") from None
    if len(names) != count:
        raise ValueError(f"symbols must be one for each of the {count} atoms, got {len(names)}")
    return names


def with_symbols(body: bytes, symbols: Any) -> bytes:
    """XYZ text in which these symbols replace its own, in each frame. Text outside frames stays as it is."""
    lines, at = body.split(b"\n"), 0
    while (atoms := _next_atoms(lines, at)) is not None:
        names = [checked_symbol(name).encode() for name in names_of(symbols, len(atoms))]
        part = slice(atoms.start, atoms.start + len(atoms))
        lines[part] = [FIRST_WORD.sub(name, line, 1) for name, line in zip(names, lines[part])]
        at = max(atoms.start, atoms.stop)
    return b"\n".join(lines)


def _next_atoms(lines: Sequence[bytes], at: int) -> Optional[range]:
    """The lines with the atoms of the next frame, from line `at` on. None if there is no frame."""
    begin = next((number for number in range(at, len(lines)) if lines[number].split()), len(lines))
    count = lines[begin].split()[0] if begin < len(lines) else b""
    return range(begin + 2, min(begin + 2 + int(count), len(lines))) if count.isdigit() else None


def check_alike(symbols: Iterable[str], scale: Scale) -> None:
    """Raises ValueError if the symbols differ, or are of another element than the substance of the scale."""
    names = sorted(set(symbols))
    if len(names) > 1:
        told = f"{', '.join(names[:-1])} and {names[-1]}"
        raise ValueError(
            f"the atoms must have one symbol, since they are all alike here, got {told[:100]}; "
            f"use symbols={names[0]!r}, or load_mix for two species"
        )
    substance = next((name for name, words in SUBSTANCES.items() if words == _words_of(scale)), None)
    if names and substance is not None and names[0] in ELEMENTS - {substance}:
        raise ValueError(
            f"the symbol of the atoms must be {substance}, since sigma, epsilon and mass are those of {substance}, got {names[0]}; "
            f"use those of {names[0]}, or symbols={substance!r}"
        )


def _words_of(scale: Scale) -> Any:
    """A scale as a `units.Substance`."""
    return {"sigma": scale.sigma, "epsilon": scale.epsilon, "mass": scale.mass}
