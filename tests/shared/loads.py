"""Commands that load atoms, and how many tiles a step of them has."""
import os
import subprocess
import sys
from typing import Union

from shared.program import SECONDS, TOP

DIMER = "2\ndimer\nAr 0 0 0\nAr 1.5 0 0\n"

# 65 atoms in a row, 1.5 sigma apart.
CHAIN = "65\nchain\n" + "".join(f"X {place // 10}{'.5' if place % 10 else ''} 0 0\n" for place in range(0, 65 * 15, 15))


def load(name: str, body: str) -> bytes:
    """A LOAD of atoms at rest in a box of 256 sigma."""
    return f"LOAD {name} 256 1 131072 rest {len(body)}\n{body}".encode()


LOAD = load("a", DIMER)
LOADED = b"OK LOAD a 0 2\n"

# Commands in parts that end anywhere, and the replies to each part before the next one comes. Their one step has a tile.
IN_PARTS = [
    (LOAD, LOADED),
    (b"ADVANCE a 1\n", b"OK ADVANCE a 1\n"),
    (b"SHOW a 0\n", b"OK SHOW a 1 0 589 0 0\n"),
    (b"SHOW a 1\nLI", b"OK SHOW a 1 1 25165235 0 0\n"),
    (b"ST\n", b"OK LIST 1\na 1 2 0\n"),
    (b"\n", b"ERR 03 SYNTAX\n"),
    (b"LOAD b 256 1 1 rest 12\n1\nc\n", b""),
    (b"X 0 0 0\n", b"OK LOAD b 0 1\n"),
    (b"SHOW b 0\nLOAD c 256 1 1 rest 12\n1\nc\n", b"OK SHOW b 0 0 0 0 0\n"),
    (b"X 0 0 0\n", b"OK LOAD c 0 1\n"),
]


def liquid_stream(atoms: Union[int, str], *words: str) -> bytes:
    """The output of `bench/liquid` for this number of atoms, with these options."""
    command = [sys.executable, os.path.join(TOP, "bench", "liquid"), str(atoms), *words]
    return subprocess.run(command, check=True, stdout=subprocess.PIPE, timeout=SECONDS).stdout


def liquid(atoms: int, name: str = "a") -> bytes:
    """A LOAD of a liquid."""
    line, _, rest = liquid_stream(atoms, "--name", name).partition(b"\n")
    return line + b"\n" + rest[: int(line.split()[-1])]


def tiles_of_step(atoms: int) -> int:
    """The number of tiles of a step if all blocks of 64 atoms are within reach of each other: one for each pair of blocks,
    and one for each block by itself, except for a last block of one atom."""
    blocks, is_last_alone = -(-atoms // 64), atoms % 64 == 1
    return blocks * (blocks + 1) // 2 - is_last_alone
