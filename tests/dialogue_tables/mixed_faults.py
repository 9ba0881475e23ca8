"""Refusals of LOADMIX: the one that is told where a command has two faults, and words that are not of their shape."""
from itertools import combinations, product
from typing import Dict, Iterator, Tuple

from dialogue_tables.in_boxes import Item, dialogue
from dialogue_tables.mixtures import USUAL_CLASSES, load_mix, mixed
from schedule_tables.runs import MIX
from shared.program import Quota

# A refusal, and the words and lines of a command that are put in place of good ones.
Fault = Tuple[str, Dict[str, str]]

# The words of each class, a bad one, and its refusal.
WORDS_OF_CLASS = (("sigma", "37 SIGMA"), ("h", "38 STEP_FACTOR"), ("e", "40 WEIGHT"))
BAD_WORDS = ("0", "x", "99999999")

GOOD = {
    "session": "m",
    "edge": "256",
    **{f"{word}{number}": "1" for number in range(3) for word, _ in WORDS_OF_CLASS},
    "last": "Cl 1.5 0 0",
    "again": "2",
}

# In the order in which they are told.
NAME: Fault = ("11 EXISTS", {"session": "a"})
WORDS: Tuple[Fault, ...] = (
    ("36 EDGE", {"edge": "1e7"}),
    *((refusal, {f"{word}{number}": bad}) for number, bad in enumerate(BAD_WORDS) for word, refusal in WORDS_OF_CLASS),
)

# Atom lines of the first frame with a fault each, and the count line of the second frame.
ATOMS = (
    ("31 XYZ_SHORT", "Cl 1 0"),
    ("32 XYZ_SYMBOL", "\x7f 1 0 0"),
    ("39 XYZ_SPECIES", "Ar 1 0 0"),
    ("33 XYZ_NUMBER", "Cl 1 . 0"),
    ("34 XYZ_RANGE", "Cl 1 0 1e7"),
)
COUNTS = (("30 XYZ_COUNT", "x"), ("35 XYZ_PAIR", "3"))
TEXTS: Tuple[Fault, ...] = (
    *((f"{refusal} line 4", {"last": line}) for refusal, line in ATOMS),
    *((f"{refusal} line 5", {"again": line}) for refusal, line in COUNTS),
)

# Whether there is a place for a session, and for two atoms, beside a session of two atoms.
ROOM: Quota = (2, 4, 0)
NO_SESSIONS: Quota = (1, 4, 0)
NO_ATOMS: Quota = (2, 3, 0)
NEITHER: Quota = (1, 3, 0)


def command(*faults: Fault) -> str:
    """A LOADMIX of two frames with these faults."""
    parts = dict(GOOD)
    for _, bad in faults:
        parts.update(bad)
    classes = [" ".join(parts[f"{word}{number}"] for word, _ in WORDS_OF_CLASS) for number in range(3)]
    text = f"2\none\nNa 0 0 0\n{parts['last']}\n{parts['again']}\ntwo\nNa 0 0 0\nCl 1 0 0\n"
    return load_mix(text, classes, "pair", parts["session"], parts["edge"])


def refused(refusal: str, *faults: Fault) -> Item:
    return command(*faults), f"ERR {refusal}\n"


def begun() -> Iterator[Item]:
    yield load_mix(MIX, session="a"), mixed(2, "a")


def two_faults() -> Iterator[Item]:
    """Each fault alone, and each two that are not of one word or line: the earlier one is told."""
    yield from begun()
    for fault in (NAME, *WORDS, *TEXTS):
        yield refused(fault[0], fault)
    for earlier, later in combinations((NAME, *WORDS, *TEXTS), 2):
        if earlier[1].keys() != later[1].keys():
            yield refused(earlier[0], earlier, later)
    yield command(), mixed(2)
    yield "DROP m\n", "OK DROP m\n"


def without_room_for_a_session() -> Iterator[Item]:
    yield from begun()
    yield refused("20 QUOTA_SESSIONS")
    yield refused("11 EXISTS", NAME)
    for fault in (*WORDS, *TEXTS):
        yield refused("20 QUOTA_SESSIONS", fault)
        yield refused("11 EXISTS", NAME, fault)


def without_room_for_atoms() -> Iterator[Item]:
    yield from begun()
    yield refused("21 QUOTA_ATOMS")
    for fault in (NAME, *WORDS, *TEXTS):
        yield refused(fault[0], fault)


def without_room_for_either() -> Iterator[Item]:
    yield from begun()
    yield refused("20 QUOTA_SESSIONS")
    yield refused("11 EXISTS", NAME)


# Faults of one atom line, of which the earlier one is told.
ONE_LINE = (
    ("Ar", "31 XYZ_SHORT"),
    ("Ar . 0", "31 XYZ_SHORT"),
    ("\x7f 0 0", "31 XYZ_SHORT"),
    ("\x7f . 0 0", "32 XYZ_SYMBOL"),
    ("ABCDEFGHIJKLMNOPQ 1e7 0 0", "32 XYZ_SYMBOL"),
    ("Na\x01 0 0 0", "32 XYZ_SYMBOL"),
    ("Ar . 0 0", "39 XYZ_SPECIES"),
    ("Ar 1e7 0 0", "39 XYZ_SPECIES"),
    ("Ar 0 x 0", "39 XYZ_SPECIES"),
    ("Ar 0 0 1e7 Na", "39 XYZ_SPECIES"),
    ("Na . 1e7 0", "33 XYZ_NUMBER"),
    ("Cl 0 1e7 .", "34 XYZ_RANGE"),
)

# Texts with the mode of each, and what is told of it.
READ = (
    # After the comment line, and before what is missing.
    ("rest", "2\nc\nAr 0 0 0\n", "ERR 39 XYZ_SPECIES line 3"),
    ("rest", "2\nc\nNa 0 0 0\n", "ERR 31 XYZ_SHORT line 4"),
    ("pair", "1\nc\nAr 0 0 0\n", "ERR 39 XYZ_SPECIES line 3"),
    ("pair", "1\nc\nNa 0 0 0\n", "ERR 35 XYZ_PAIR line 4"),
    ("rest", "4097\nAr 0 0 0\nAr 0 0 0\n", "ERR 30 XYZ_COUNT line 1"),
    ("rest", "\n \n1\nAr 0 0 0\nAr 0 0 0\n", "ERR 39 XYZ_SPECIES line 5"),
    # The comment is kept nowhere, and what stands after the last frame is not read.
    ("rest", "1\nAr 0 0 0\nNa 0 0 0\n1\nc\nAr 0 0 0\n", "OK LOADMIX m 0 1"),
    # The symbols of the second frame are not compared, and those that are none are a fault there too.
    ("pair", "2\na\nNa 0 0 0\nCl 1 0 0\n2\nb\nAr 0 0 0\nKr 1 0 0\n", "OK LOADMIX m 0 2"),
    ("pair", "2\na\nNa 0 0 0\nNa 1 0 0\n2\nb\nCl 0 0 0\nCl 1 0 0\n", "OK LOADMIX m 0 2"),
    ("pair", "1\na\nNa 0 0 0\n1\nb\nAr . 0 0\n", "ERR 33 XYZ_NUMBER line 6"),
    ("pair", "1\na\nNa 0 0 0\n1\nb\nAr 1e7 0 0\n", "ERR 34 XYZ_RANGE line 6"),
    ("pair", "1\na\nNa 0 0 0\n1\nb\nAr 0 0\n", "ERR 31 XYZ_SHORT line 6"),
    ("pair", "1\na\nNa 0 0 0\n1\nb\n\x7f 0 0 0\n", "ERR 32 XYZ_SYMBOL line 6"),
    ("pair", "1\na\nAr 0 0 0\n1\nb\nAr . 0 0\n", "ERR 39 XYZ_SPECIES line 3"),
    ("rest", "", "ERR 30 XYZ_COUNT line 1"),
)


def texts() -> Iterator[Item]:
    """Two faults of one text, in one atom line, and in each two lines in both orders."""
    for line, refusal in ONE_LINE:
        yield load_mix(f"2\nc\nNa 0 0 0\n{line}\n"), f"ERR {refusal} line 4\n"
    for (refusal, first), (_, second) in product(ATOMS, ATOMS):
        yield load_mix(f"2\nc\n{first}\n{second}\n"), f"ERR {refusal} line 3\n"
    for mode, text, reply in READ:
        yield load_mix(text, mode=mode), f"{reply}\n"
        yield "DROP m\n", "OK DROP m\n" if reply.startswith("OK") else "ERR 10 NO_SESSION\n"


# The first five words after LOADMIX and the mode, one of which is not of its shape, or two of which are one symbol.
SHAPES = (
    ("m! 256 Na Cl", "rest"),
    ("ABCDEFGHIJKLMNOPQ 256 Na Cl", "rest"),
    ("m 256 Na Na", "rest"),
    ("m 256 ABCDEFGHIJKLMNOP ABCDEFGHIJKLMNOP", "rest"),
    ("m 256 \x7f Cl", "rest"),
    ("m 256 Na \x7f", "rest"),
    ("m 256 N\x01 Cl", "rest"),
    ("m 256 Na \xe9", "rest"),
    ("m 256 ABCDEFGHIJKLMNOPQ Cl", "rest"),
    ("m 256 Na ABCDEFGHIJKLMNOPQ", "rest"),
    ("m 256 Na Cl", "Rest"),
    ("m 256 Na Cl", "pairs"),
    ("m 256 Na Cl", "256"),
    # Such a fault comes before each other one.
    ("a x Na Na", "pair"),
    ("a x Na Cl", "both"),
)


def shapes() -> Iterator[Item]:
    """The bodies are passed over."""
    yield from begun()
    for words, mode in SHAPES:
        for classes in (USUAL_CLASSES, ("x 0 x",) * 3):
            yield f"LOADMIX {words} {' '.join(classes)} {mode} 4\nBYE\n", "ERR 03 SYNTAX\n"
    # Words of the scale may have any shape.
    yield f"LOADMIX m \x01 Na Cl {'! ! ! ' * 3}rest 4\nBYE\n", "ERR 36 EDGE\n"
    yield f"LOADMIX a \x01 Na Cl {'! ! ! ' * 3}rest 4\nBYE\n", "ERR 11 EXISTS\n"


OF_TWO = "OK LIST 1\na 0 2 0\n"

DIALOGUES = (
    dialogue("two faults of a mixture", two_faults(), OF_TWO, ROOM),
    dialogue("faults of a mixture without room for a session", without_room_for_a_session(), OF_TWO, NO_SESSIONS),
    dialogue("faults of a mixture without room for its atoms", without_room_for_atoms(), OF_TWO, NO_ATOMS),
    dialogue("faults of a mixture without room for either", without_room_for_either(), OF_TWO, NEITHER),
    dialogue("faults of texts of mixtures", texts()),
    dialogue("words of mixtures that are not of their shape", shapes(), OF_TWO),
)
