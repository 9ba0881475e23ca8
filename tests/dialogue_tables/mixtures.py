"""LOADMIX: two species of atoms and three classes of pairs, what is told of them, and the words that are taken."""
import re
from dataclasses import replace
from typing import Iterator, Sequence, Tuple

from dialogue_tables.branches import of_words
from dialogue_tables.in_boxes import Item, dialogue
from dialogue_tables.worked import MOTION_AND_WHAT_IS_SAVED
from dialogue_tables.dialogues import Dialogue
from schedule_tables.runs import MIX

USUAL = "1 131072 256"
USUAL_CLASSES = (USUAL, USUAL, USUAL)


def load_mix(
    text: str,
    classes: Sequence[str] = USUAL_CLASSES,
    mode: str = "rest",
    session: str = "m",
    edge: str = "256",
    symbols: str = "Na Cl",
) -> str:
    """A LOADMIX of this body, with the sigma, the step factor and the weight of each class in words."""
    return f"LOADMIX {session} {edge} {symbols} {' '.join(classes)} {mode} {len(text)}\n{text}"


def mixed(atoms: int, session: str = "m") -> str:
    return f"OK LOADMIX {session} 0 {atoms}\n"


# The class of one atom of each species, and what is told of two such atoms 1.5 sigma apart.
WORKED = (
    (
        "1 131072 1",
        (
            ("MEASURE m\n", "OK MEASURE m 0 2 0 0 0 0 -20895"),
            ("ADVANCE m 1\n", "OK ADVANCE m 1"),
            ("SHOW m 0\n", "OK SHOW m 1 0 589 0 0"),
        ),
    ),
    (
        "1 262144 512",
        (
            ("MEASURE m\n", "OK MEASURE m 0 2 0 0 0 0 -10698264"),
            ("ADVANCE m 1\n", "OK ADVANCE m 1"),
            ("SHOW m 1\n", "OK SHOW m 1 1 25164646 0 0"),
        ),
    ),
    # The last bin within reach, and the first one out of it.
    ("0.6001 131072 256", (("MEASURE m\n", "OK MEASURE m 0 2 0 0 0 0 -274263"),)),
    ("0.6 131072 65536", (("MEASURE m\n", "OK MEASURE m 0 2 0 0 0 0 0"),)),
    # The least sigma.
    ("0.00390625 1 1", (("MEASURE m\n", "OK MEASURE m 0 2 0 0 0 0 0"), ("ADVANCE m 0\n", "OK ADVANCE m 0"))),
)

REFUSED = (
    (load_mix(MIX, (USUAL, "1 131072 0", USUAL)), "ERR 40 WEIGHT\n"),
    (load_mix(MIX.replace("Cl", "Ar")), "ERR 39 XYZ_SPECIES line 4\n"),
)

# What is saved has the species of its atoms, and each atom is shown by its own symbol.
SAVED = (
    ("DUMP m\n", "OK DUMP m 0 4\n2\nstep 0\nNa 0.000000 0.000000 0.000000\nCl 1.500000 0.000000 0.000000"),
    ("BRANCH m k\n", "OK BRANCH m k 0"),
    ("ADVANCE m 1\n", "OK ADVANCE m 1"),
    ("SHOW m 1\n", "OK SHOW m 1 1 25164646 0 0"),
    ("BRANCH m l\n", "OK BRANCH m l 1"),
    *(
        ("TUG m 0 -50000000 0 0\n", "OK TUG m 0 1"),
        ("ADVANCE m 1\n", "OK ADVANCE m 2"),
        ("MEASURE m\n", "OK MEASURE m 2 2 -50000000 0 0 2499763011233800 0"),
        ("RESTORE m k\n", "OK RESTORE m k 0"),
        ("MEASURE m\n", "OK MEASURE m 0 2 0 0 0 0 -10698264"),
        ("RESTORE m l\n", "OK RESTORE m l 1"),
        ("SHOW m 1\n", "OK SHOW m 1 1 25164646 0 0"),
        ("REVERSE m\n", "OK REVERSE m 0"),
        ("MEASURE m\n", "OK MEASURE m 0 2 0 0 0 2775368 -10698264"),
        ("RESTORE m l\n", "OK RESTORE m l 1"),
    )
    * 2,
    ("LIST m\n", "OK LIST m 2\nk 0\nl 1"),
)

# A LOAD with its edge, its sigma and step factor, and the symbol of its first atom.
LOADING = re.compile(r"LOAD (\S+) (\S+) (\S+ \S+) (rest|pair) (\d+)\n(\d+\n.*\n)(\S+)")


def of_equal_classes(known: Dialogue, symbols: str) -> Dialogue:
    """A dialogue of which each LOAD is a LOADMIX with three equal classes of the weight 256. The symbol of its atoms
    stands for `*` in these symbols."""

    def mixing(found: "re.Match[str]") -> str:
        session, edge, scale, mode, count, head, symbol = found.groups()
        words = f"{session} {edge} {symbols.replace('*', symbol)} {f'{scale} 256 ' * 3}{mode} {count}"
        return f"LOADMIX {words}\n{head}{symbol}"

    stream = tuple((LOADING.sub(mixing, text), times) for text, times in known.stream)
    replies = known.replies.replace("OK LOAD ", "OK LOADMIX ")
    return replace(known, name=f"{known.name}, of {symbols}", stream=stream, replies=replies)


def of_two_species(known: Dialogue) -> Dialogue:
    """The same, where the second of two atoms of argon is another one of the same classes."""
    mixture = of_equal_classes(known, "* Kr")
    stream = tuple((text.replace("\nAr 1.5 ", "\nKr 1.5 "), times) for text, times in mixture.stream)
    replies = mixture.replies.replace("Ar 1.", "Kr 1.")
    return replace(mixture, name=f"{known.name}, of two", stream=stream, replies=replies)


ONE = "1\nc\nNa 0 0 0\n"

# Words of the weight, and whether they are taken.
WEIGHTS = (
    *((word, True) for word in ("1", "65536", "0000000000000065536", "007")),
    *((word, False) for word in ("0", "65537", "00000000000000000001", "99999999999999999999")),
    *((word, False) for word in ("-1", "+1", "1.0", "1e2", "x")),
)


def weights() -> Iterator[Item]:
    """Each word as the weight of each class, whether a pair is of it or not."""
    for word, is_taken in WEIGHTS:
        for number in range(3):
            classes = [f"1 131072 {word}" if place == number else USUAL for place in range(3)]
            yield load_mix(ONE, classes), mixed(1) if is_taken else "ERR 40 WEIGHT\n"
            yield dropped(is_taken)


# Two symbols of the most bytes, which differ in the last one.
LONG, OTHER = "ABCDEFGHIJKLMNOP", "ABCDEFGHIJKLMNOQ"

# Two symbols, a text, and what is told of it.
SYMBOLS = (
    ((LONG, OTHER), f"2\nc\n{OTHER} 0 0 0\n{LONG} 1 1 1\n", "OK LOADMIX m 0 2"),
    ((LONG, OTHER), f"2\nc\n{LONG} 0 0 0\n{LONG[:-1]}R 1 1 1\n", "ERR 39 XYZ_SPECIES line 4"),
    ((LONG, OTHER), f"1\nc\n{LONG[:-1]} 0 0 0\n", "ERR 39 XYZ_SPECIES line 3"),
    (("~!", "!~"), "2\nc\n!~ 0 0 0\n~! 0 0 0\n", "OK LOADMIX m 0 2"),
    (("~!", "!~"), "2\nc\n!~ 0 0 0\n~ 0 0 0\n", "ERR 39 XYZ_SPECIES line 4"),
    (("Na", "na"), "2\nc\nna 0 0 0\nNa 0 0 0\n", "OK LOADMIX m 0 2"),
    (("Na", "na"), "2\nc\nna 0 0 0\nNA 0 0 0\n", "ERR 39 XYZ_SPECIES line 4"),
    (("N", "Na"), "2\nc\nNa 0 0 0\nN 0 0 0\n", "OK LOADMIX m 0 2"),
    (("N", "Na"), "1\nc\nNaN 0 0 0\n", "ERR 39 XYZ_SPECIES line 3"),
    (("1", "2"), "2\nc\n2 0 0 0 1\n1 0 0 0 2\n", "OK LOADMIX m 0 2"),
    (("rest", "256"), "2\nc\n256 0 0 0\nrest 0 0 0\n", "OK LOADMIX m 0 2"),
)


def symbols() -> Iterator[Item]:
    """Each text with both orders of its symbols."""
    for (first, second), text, reply in SYMBOLS:
        for words in (f"{first} {second}", f"{second} {first}"):
            yield load_mix(text, symbols=words), f"{reply}\n"
            yield dropped(reply.startswith("OK"))


def dropped(is_there: bool) -> Item:
    return "DROP m\n", "OK DROP m\n" if is_there else "ERR 10 NO_SESSION\n"


def worked(between: str, told: Sequence[Tuple[str, str]]) -> Dialogue:
    """Two atoms, one of each species, whose class is said so."""
    items = [(load_mix(MIX, (USUAL, between, USUAL)), mixed(2)), *of_words(told)]
    step = int(any(item.startswith("ADVANCE m 1") for item, _ in told))
    return dialogue(f"two species of the class {between}", items, f"OK LIST 1\nm {step} 2 0\n")


DIALOGUES = (
    *(worked(between, told) for between, told in WORKED),
    *(dialogue(f"a mixture is refused: {reply.strip()}", [(item, reply)]) for item, reply in REFUSED),
    dialogue(
        "what is saved of a mixture comes back",
        [(load_mix(MIX, (USUAL, "1 262144 512", USUAL)), mixed(2)), *of_words(SAVED)],
        "OK LIST 1\nm 1 2 2\n",
    ),
    *(of_equal_classes(known, symbols) for known in MOTION_AND_WHAT_IS_SAVED for symbols in ("* Q", "Q *")),
    *(of_two_species(MOTION_AND_WHAT_IS_SAVED[number]) for number in (0, 4)),
    dialogue("weights", weights()),
    dialogue("symbols of mixtures", symbols()),
)
