"""The columns of extended XYZ, which its comment line names, and the velocities of atoms in them."""
from __future__ import annotations

import itertools
import re
from typing import Dict, List, NamedTuple, Optional, Sequence, Tuple

from .ase_bridge import TIME_UNIT
from .scalars import checked_positive

PROPERTIES = re.compile(rb'\bProperties\s*=\s*(?:"([^"]*)"|(\S+))')
# The columns that the server reads: a symbol and three coordinates.
READ = "species:S:1:pos:R:3"
# Columns of velocities in angstrom / femtosecond. They are used if there are no momenta, which are in the units of ASE.
VELOCITIES = ("velo", "vel", "velocities", "velocity")
MOMENTA, MASSES = "momenta", "masses"


class Column(NamedTuple):
    """Words of an atom's line: the index of the first, their kind R (real), I (whole), S (a word) or L (true or false), and their count."""

    start: int
    kind: str
    width: int


class Velocities(NamedTuple):
    """The velocities in a text, in angstrom / femtosecond, and the name of their column."""

    column: str
    values: List[List[float]]


def velocities_of(body: bytes, mass: float) -> Optional[Velocities]:
    """The velocities of the first frame of extended XYZ text. None if it has none, or if all are 0.

    mass  the mass of an atom in dalton; momenta are divided by it if the text has no column `masses`

    Raises ValueError if the first columns are not those that the server reads, or if an atom has no numbers in the columns used here.
    """
    comment, rows = _frame_of(body)
    columns = columns_of(comment)
    names = [name for name in (MOMENTA, *VELOCITIES) if name in columns]
    if not names:
        return None
    values = _numbers(rows, names[0], columns[names[0]], 3)
    if names[0] == MOMENTA:
        masses = _numbers(rows, MASSES, columns[MASSES], 1) if MASSES in columns else [[mass]] * len(rows)
        units = [checked_positive("a mass in the text", each[0]) * TIME_UNIT for each in masses]
        values = [[part / unit for part in momentum] for momentum, unit in zip(values, units)]
    return Velocities(names[0], values) if any(map(any, values)) else None


def columns_of(comment: bytes) -> Dict[str, Column]:
    """The columns that the comment line of extended XYZ names; an empty dict if it names none.

    Raises ValueError if the first columns are not the symbol and three coordinates that the server reads.
    """
    told = PROPERTIES.search(comment)
    if told is None:
        return {}
    text = (told[1] or told[2] or b"").decode("latin-1")
    if text != READ and not text.startswith(READ + ":"):
        raise ValueError(f"the first columns of the text must be {READ}, got Properties={text[:60]}")
    words = text.split(":")
    columns, start = {}, 0
    for name, kind, count in zip(words[::3], words[1::3], words[2::3]):
        columns[name] = Column(start, kind, int(count) if count.isdecimal() else 0)
        start += columns[name].width
    return columns


def without_columns(body: bytes) -> bytes:
    """The text with no columns named in its first comment line, so that its atoms are at rest."""
    comment, _ = _frame_of(body)
    return body.replace(comment, PROPERTIES.sub(b"", comment), 1) if comment else body


def _frame_of(body: bytes) -> Tuple[bytes, List[bytes]]:
    """The comment line of the first frame of a text, and the lines of its atoms. Both are empty if there is no such frame."""
    lines = iter(body.split(b"\n"))
    try:
        count = int(next(filter(None, map(bytes.split, lines)))[0])
        return next(lines), list(itertools.islice(lines, count))
    except (StopIteration, ValueError):
        return b"", []


def _numbers(rows: Sequence[bytes], name: str, column: Column, count: int) -> List[List[float]]:
    """The numbers of each atom in a column of this width. Raises ValueError for other words, or another width."""
    if column.kind not in ("R", "I") or column.width != count:
        raise ValueError(f"a column {name} must be {name}:R:{count}, got {name}:{column.kind}:{column.width}")
    numbers = []
    for atom, row in enumerate(rows):
        words = row.split()[column.start : column.start + count]
        try:
            numbers.append([float(word) for word in words])
        except ValueError:
            words = []
        if len(words) != count:
            raise ValueError(f"the {name} of atom {atom} of the text must be {count} number{'s' * (count > 1)}")
    return numbers
