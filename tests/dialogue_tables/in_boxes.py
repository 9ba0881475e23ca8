"""LOADs of texts, and what SHOW and DUMP tell of their atoms, from the billionths that their words say."""
from typing import Iterable, Iterator, Sequence, Tuple

from dialogue_tables.dialogues import Dialogue
from reference import RING, units_of
from shared.program import USUAL, Quota

# What is sent, and the reply to it.
Item = Tuple[str, str]

# A symbol, and coordinates in billionths.
Atom = Tuple[str, int, int, int]

# An edge, as a word and in billionths, with a sigma that fits it.
Box = Tuple[str, int, str]

# In the first box a place is the billionths themselves, as far as the ring goes; in the second one the ring goes as far
# as any number. Both together tell a number to the billionth. In the third one 4,096 atoms stand in a row.
FINE: Box = ("4.294967296", RING, "0.5")
WIDE: Box = ("1000000", 10**15, "100")
ROW: Box = ("4096", 4096 * 10**9, "1")

# Two frames of different numbers of atoms.
UNEVEN = "2\na\nX 0 0 0\nX 1 0 0\n3\nb\nX 0 0 0\nX 1 0 0\nX 2 0 0\n"

DROP: Item = ("DROP a\n", "OK DROP a\n")


def dialogue(name: str, items: Iterable[Item], state: str = "OK LIST 0\n", quota: Quota = USUAL) -> Dialogue:
    """These items one after the other."""
    sent, replies = zip(*items)
    return Dialogue(name, (("".join(sent), 1),), "".join(replies), state, quota)


def load(text: str, mode: str = "rest", words: str = "256 1 131072", session: str = "a") -> str:
    """A LOAD of this body, with its edge, sigma and step factor in words."""
    return f"LOAD {session} {words} {mode} {len(text)}\n{text}"


def load_in(box: Box, text: str, mode: str = "rest") -> str:
    edge, _, sigma = box
    return load(text, mode, f"{edge} {sigma} 1")


def loaded(atoms: int, session: str = "a") -> str:
    return f"OK LOAD {session} 0 {atoms}\n"


def place_of(box: Box, billionths: int) -> int:
    return units_of(box[1], billionths) % RING


def show(box: Box, atoms: Sequence[Atom], number: int, step: int = 0) -> Item:
    """SHOW of one of these atoms."""
    places = " ".join(str(place_of(box, part)) for part in atoms[number][1:])
    return f"SHOW a {number}\n", f"OK SHOW a {step} {number} {places}\n"


def shows(box: Box, atoms: Sequence[Atom], step: int = 0) -> Iterator[Item]:
    """SHOW of each of these atoms; of many, of the first, of the last and of those beside the edge of a block."""
    few = {0, 62, 63, 64, len(atoms) - 1} & {*range(len(atoms))}
    for number in range(len(atoms)) if len(atoms) < 63 else sorted(few):
        yield show(box, atoms, number, step)


def dump(box: Box, atoms: Sequence[Atom], step: int = 0) -> Item:
    """DUMP of these atoms."""
    lines = [f"OK DUMP a {step} {len(atoms) + 2}", str(len(atoms)), f"step {step}"]
    lines += [" ".join([symbol, *(decimals_of(box, part) for part in coordinates)]) for symbol, *coordinates in atoms]
    return "DUMP a\n", "".join(f"{line}\n" for line in lines)


def decimals_of(box: Box, billionths: int) -> str:
    """The coordinate at the place of a number, rounded down to six decimals."""
    millionths = place_of(box, billionths) * box[1] // (RING * 1000)
    return f"{millionths // 10**6}.{millionths % 10**6:06}"


def at_rest(box: Box, text: str, atoms: Sequence[Atom]) -> Iterator[Item]:
    yield load_in(box, text), loaded(len(atoms))
    yield from shows(box, atoms)
    yield dump(box, atoms)
    yield DROP


def in_a_pair(box: Box, text: str, first: Sequence[Atom], second: Sequence[Atom]) -> Iterator[Item]:
    """The second frame is the present one, and the first one that before it. The symbols are those of the first one."""
    present = [(symbol, x, y, z) for (symbol, *_), (_, x, y, z) in zip(first, second)]
    yield load_in(box, text, "pair"), loaded(len(first))
    yield from shows(box, present)
    yield dump(box, present)
    yield "REVERSE a\n", "OK REVERSE a -1\n"
    yield from shows(box, first, -1)
    yield dump(box, first, -1)
    yield DROP
