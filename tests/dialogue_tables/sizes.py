"""Simulations of each number of blocks, which go on, are measured, saved and restored: at none of them is there no memory.

The atoms stand on a lattice of 16 times 16 times 16, all of them out of reach of each other, so each stays where it is.
"""
from typing import Iterator, Tuple

from dialogue_tables.dialogues import Dialogue

BLOCK = 64
# In the box of edge 256, and in units of 2^-32 of it.
APART, APART_UNITS = 16, 2**28


def site(atom: int) -> Tuple[int, int, int]:
    return atom % 16, atom // 16 % 16, atom // 256


def frame(atoms: int) -> str:
    rows = "".join(f"X {x * APART} {y * APART} {z * APART}\n" for x, y, z in map(site, range(atoms)))
    return f"{atoms}\nlattice\n{rows}"


def items(atoms: int) -> Iterator[Tuple[str, str]]:
    """Commands with their replies."""
    place = " ".join(str(part * APART_UNITS) for part in site(atoms - 1))
    for mode, body in (("rest", frame(atoms)), ("pair", frame(atoms) * 2)):
        yield f"LOAD s 256 1 1 {mode} {len(body)}\n{body}", f"OK LOAD s 0 {atoms}\n"
        yield "START s 1\nADVANCE s 1\n", "OK START s 1\nOK ADVANCE s 2\n"
        yield "BRANCH s b\nMEASURE s\n", f"OK BRANCH s b 2\nOK MEASURE s 2 {atoms} 0 0 0 0 0\n"
        yield "REVERSE s\nRESTORE s b\n", "OK REVERSE s 1\nOK RESTORE s b 2\n"
        yield f"SHOW s {atoms - 1}\nDROP s\n", f"OK SHOW s 2 {atoms - 1} {place}\nOK DROP s\n"


def of_blocks(count: int) -> Dialogue:
    """So many blocks, of which the last has 62, 63 or 64 atoms."""
    stream, replies = zip(*items(BLOCK * count - count % 3))
    return Dialogue(f"{count} blocks", (("".join(stream), 1),), "".join(replies), "OK LIST 0\n", sizes=(None,))


DIALOGUES = tuple(of_blocks(count) for count in range(1, 65))
