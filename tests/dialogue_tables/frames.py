"""Texts of frames: the first fault of each with its line, the atoms that are read, and frames of each size."""
from typing import Iterator, List, Sequence, Tuple

from dialogue_tables.in_boxes import FINE, ROW, UNEVEN, WIDE, Atom, Item, at_rest, dialogue, in_a_pair, load

# On the edges of blocks of 64 atoms, some sizes within, and the most.
SIZES = (1, 63, 64, 65, 129, 256, 4096)

# Bodies of one frame with the refusal of each: of its count line, its comment line and its atoms.
FAULTS_AT_REST = (
    ("\n \n\t", "30 XYZ_COUNT line 4"),
    ("\n\n00000000000000000001\nc\nX 0 0 0\n", "30 XYZ_COUNT line 3"),
    ("\r\r\n1\nc\nX 0 0 0\n", "30 XYZ_COUNT line 1"),
    ("4097\nc\n", "30 XYZ_COUNT line 1"),
    ("\n4096\r\n", "31 XYZ_SHORT line 3"),
    ("2\nc\nNa 0 0 0\n", "31 XYZ_SHORT line 4"),
    ("1\nc\nX\v0\v0\v0\n", "31 XYZ_SHORT line 3"),
    ("1\nc\nABCDEFGHIJKLMNOPQ 0 0 0\n", "32 XYZ_SYMBOL line 3"),
    ("2\nc\nX 0 0 0\nX\x01 . 1e7 0\n", "32 XYZ_SYMBOL line 4"),
    ("1\nn\nH x 1e7 0\n", "33 XYZ_NUMBER line 3"),
    ("1\nn\nH 0 1*^3 0\n", "33 XYZ_NUMBER line 3"),
    ("1\nn\nH 0 0 0\r\r\n", "33 XYZ_NUMBER line 3"),
    ("1\nn\nH 1000000.0000000005 0 0\n", "34 XYZ_RANGE line 3"),
    ("1\nn\nH 0 1e7 x\n", "34 XYZ_RANGE line 3"),
    ("2\nn\nH 0 0 0\nH 0 0 1d99", "34 XYZ_RANGE line 4"),
)

# Bodies of two frames with the refusal of each.
FAULTS_OF_PAIRS = (
    # The first frame.
    ("", "30 XYZ_COUNT line 1"),
    ("1", "31 XYZ_SHORT line 2"),
    ("2\na\nX 0 0 0\n", "31 XYZ_SHORT line 4"),
    ("1\na\n\x7f 0 0 0\n", "32 XYZ_SYMBOL line 3"),
    ("1\na\nX . 0 0\n", "33 XYZ_NUMBER line 3"),
    ("1\na\nX 1e7 0 0\n", "34 XYZ_RANGE line 3"),
    # The second frame: none, and one of another number of atoms.
    ("1\na\nX 0 0 0", "35 XYZ_PAIR line 4"),
    ("1\na\nX 0 0 0\n\n \n", "35 XYZ_PAIR line 6"),
    (UNEVEN, "35 XYZ_PAIR line 5"),
    ("1\na\nX 0 0 0\n\n4096", "35 XYZ_PAIR line 5"),
    # Its own faults.
    ("1\na\nX 0 0 0\n0\n", "30 XYZ_COUNT line 4"),
    ("1\na\nX 0 0 0\r\n\r\n4097\r\n", "30 XYZ_COUNT line 5"),
    ("1\na\nX 0 0 0\n1", "31 XYZ_SHORT line 5"),
    ("2\na\nX 0 0 0\nX 0 0 0\n2\nb\nX 0 0 0\n", "31 XYZ_SHORT line 8"),
    ("1\na\nX 0 0 0\n1\nb\nX 0 0\n", "31 XYZ_SHORT line 6"),
    ("1\na\nX 0 0 0\n1\nb\n\x01 0 0 0\n", "32 XYZ_SYMBOL line 6"),
    ("1\na\nX 0 0 0\n1\nb\nX 0 . 0\n", "33 XYZ_NUMBER line 6"),
    ("1\na\nX 0 0 0\n\n1\nb\nX 0 0 1e7\n", "34 XYZ_RANGE line 7"),
)

# All of these, with their modes.
FAULTS = (*(("rest", *fault) for fault in FAULTS_AT_REST), *(("pair", *fault) for fault in FAULTS_OF_PAIRS))

HALF = 1_500_000_000
MILLION = 10**15

# Bodies of two frames, with the atoms of each.
BODIES: Tuple[Tuple[str, Sequence[Atom], Sequence[Atom]], ...] = (
    (
        "1\nn\nH -0.0000000005 0 0\n1\n\nH 15D-1 1.5e0 +1.5\n",
        [("H", -1, 0, 0)],
        [("H", HALF, HALF, HALF)],
    ),
    (
        "2\r\nc\r\nNa 0 0 0 1.0\r\nCl 1.5 0 0 -1.0\r\n\r\n002\r\n\r\nNa 0 0 0\r\nCl 0 0 0\r",
        [("Na", 0, 0, 0), ("Cl", HALF, 0, 0)],
        [("Na", 0, 0, 0), ("Cl", 0, 0, 0)],
    ),
    (
        "\n \t\n 001 atoms of 9\n\n\t~! \t 1e6\t-1e6 \t0 v 1 \r\n1\n\nABCDEFGHIJKLMNOP 0 0 0",
        [("~!", MILLION, -MILLION, 0)],
        [("ABCDEFGHIJKLMNOP", 0, 0, 0)],
    ),
    (
        "1\np\nH -0.0000003 0 0\n1\nc\nH -0.000000001 0 0\n",
        [("H", -300, 0, 0)],
        [("H", -1, 0, 0)],
    ),
    (
        "1\np\nH 0 0 0\n\n 01 x\nc\nHe 0 0 1\nnot read",
        [("H", 0, 0, 0)],
        [("He", 0, 0, 10**9)],
    ),
)

# The second frame of the third body alone, as that of a symbol of the most bytes.
LONG_SYMBOL = "1\n\nABCDEFGHIJKLMNOP 0 0 0"


def faults() -> Iterator[Item]:
    for mode, text, refusal in FAULTS:
        yield load(text, mode), f"ERR {refusal}\n"


def atoms_of_bodies() -> Iterator[Item]:
    for box in (FINE, WIDE):
        for text, first, second in BODIES:
            yield from at_rest(box, text, first)
            yield from in_a_pair(box, text, first, second)
        yield from at_rest(box, LONG_SYMBOL, BODIES[2][2])


def numbered(size: int) -> Tuple[str, List[Atom]]:
    """The text of a frame of so many atoms, each with its number for a coordinate, and these atoms."""
    text = f"{size}\n\n" + "".join(f"X {number} 0 0\n" for number in range(size))
    return text, [("X", number * 10**9, 0, 0) for number in range(size)]


def of_size(size: int) -> Iterator[Item]:
    """Frames of so many atoms, one and two."""
    text, atoms = numbered(size)
    for box in (FINE, ROW) if size < 1000 else (ROW,):
        yield from at_rest(box, text, atoms)
        yield from in_a_pair(box, text * 2, atoms, atoms)


DIALOGUES = (
    dialogue("the first fault of each text", faults()),
    dialogue("the atoms of each text", atoms_of_bodies()),
    *(dialogue(f"frames of {size} atoms", of_size(size)) for size in SIZES),
)
