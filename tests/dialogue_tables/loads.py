"""LOADs: bodies of any form, the first fault of one, and the order of refusals."""
from dialogue_tables.dialogues import LOAD, Dialogue
from dialogue_tables.in_boxes import UNEVEN

# Words of a second LOAD, and its refusal.
REFUSED_WORDS = (
    ("a x x x", "ERR 11 EXISTS\n"),
    ("b x x x", "ERR 36 EDGE\n"),
    ("b 0 x x", "ERR 36 EDGE\n"),
    ("b -256 x x", "ERR 36 EDGE\n"),
    ("b 0.000999999 x x", "ERR 36 EDGE\n"),
    ("b 1e7 x x", "ERR 36 EDGE\n"),
    ("b 1000000.1 x x", "ERR 36 EDGE\n"),
    ("b 256 x x", "ERR 37 SIGMA\n"),
    ("b 256 0 x", "ERR 37 SIGMA\n"),
    ("b 256 -1 x", "ERR 37 SIGMA\n"),
    ("b 256 0.0039 x", "ERR 37 SIGMA\n"),
    ("b 256 51.2000001 x", "ERR 37 SIGMA\n"),
    ("b 256 1e7 x", "ERR 37 SIGMA\n"),
    ("b 256 1 x", "ERR 38 STEP_FACTOR\n"),
    ("b 256 1 0", "ERR 38 STEP_FACTOR\n"),
    ("b 256 1 +5", "ERR 38 STEP_FACTOR\n"),
    ("b 256 1 16777217", "ERR 38 STEP_FACTOR\n"),
    ("b 256 1 00000000000000000001", "ERR 38 STEP_FACTOR\n"),
)

# What follows the words, and the reply to its last line.
BODY = " rest 28\n2\ndimer\nAr 0 0 0\nAr 1.5 0 0\nSHOW a 1\n"
SHOWN = "OK SHOW a 0 1 25165824 0 0\n"

# Bodies of one frame, and their refusals.
BAD_FRAMES = (
    ("0\nc\n", "30 XYZ_COUNT line 1"),
    ("4097\nc\n", "30 XYZ_COUNT line 1"),
    ("\nx\nc\nX 0 0 0\n", "30 XYZ_COUNT line 2"),
    ("1", "31 XYZ_SHORT line 2"),
    ("1\nc\n", "31 XYZ_SHORT line 3"),
    ("2\nc\nNa 0 0 0\n", "31 XYZ_SHORT line 4"),
    ("1\nc\nX 0 0\n", "31 XYZ_SHORT line 3"),
    ("1\nc\nabcdefghijklmnopq 0 0 0\n", "32 XYZ_SYMBOL line 3"),
    ("1\nc\n\x7f 0 0 0\n", "32 XYZ_SYMBOL line 3"),
    ("1\nn\nH . 0 0\n", "33 XYZ_NUMBER line 3"),
    ("1\nn\nH NaN 0 0\n", "33 XYZ_NUMBER line 3"),
    ("1\nn\nH 1. .5 1e7\n", "34 XYZ_RANGE line 3"),
    ("1\nn\nH 1e7 x 0\n", "34 XYZ_RANGE line 3"),
)

# Bodies of two frames, and their refusals.
BAD_PAIRS = (
    (UNEVEN, "35 XYZ_PAIR line 5"),
    ("1\nc\nX 0 0 0\n", "35 XYZ_PAIR line 4"),
)

# Bodies that are taken, how many atoms they have, and the place of the first one.
BODIES = (
    ("1\nq\nH -0.0000000005 0 0\n", 1, "4294967295 0 0"),
    ("1\nn\nH 15D-1 1.5e0 +1.5\n", 1, "25165824 25165824 25165824"),
    ("2\r\nc\r\nNa 0 0 0 1.0\r\nCl 1.5 0 0 -1.0", 2, "0 0 0"),
    (UNEVEN, 2, "0 0 0"),
)


def refused_words(words: str, refusal: str) -> Dialogue:
    stream = ((LOAD, 1), ("LOAD ", 1), (words, 1), (BODY, 1))
    return Dialogue(f"LOAD {words}", stream, "OK LOAD a 0 2\n" + refusal + SHOWN, "OK LIST 1\na 0 2 0\n")


def of_body(body: str, replies: str, state: str, mode: str = "rest") -> Dialogue:
    """A LOAD with this body, and a look at its first atom."""
    line = f"LOAD a 256 1 1 {mode} {len(body)}"
    return Dialogue(f"{line} of {body!r}", ((f"{line}\n", 1), (body, 1), ("SHOW a 0\n", 1)), replies, state)


def refused_body(body: str, refusal: str, mode: str = "rest") -> Dialogue:
    return of_body(body, f"ERR {refusal}\nERR 10 NO_SESSION\n", "OK LIST 0\n", mode)


def taken_body(body: str, atoms: int, place: str) -> Dialogue:
    return of_body(body, f"OK LOAD a 0 {atoms}\nOK SHOW a 0 0 {place}\n", f"OK LIST 1\na 0 {atoms} 0\n")


DIALOGUES = (
    *(refused_words(words, refusal) for words, refusal in REFUSED_WORDS),
    Dialogue(
        "the greatest step factor",
        ((LOAD, 1), ("LOAD b 256 1 016777216", 1), (BODY, 1)),
        "OK LOAD a 0 2\nOK LOAD b 0 2\n" + SHOWN,
        "OK LIST 2\na 0 2 0\nb 0 2 0\n",
    ),
    Dialogue(
        "an empty body",
        (("LOAD a 256 1 1 rest 0\nSHOW a 0\n", 1),),
        "ERR 30 XYZ_COUNT line 1\nERR 10 NO_SESSION\n",
        "OK LIST 0\n",
    ),
    *(refused_body(body, refusal) for body, refusal in BAD_FRAMES),
    *(refused_body(body, refusal, "pair") for body, refusal in BAD_PAIRS),
    *(taken_body(body, atoms, place) for body, atoms, place in BODIES),
    # Words are cut at blanks, and one carriage return is dropped.
    Dialogue(
        "blanks and returns",
        (
            ("\t LOAD  a\t256 1 1 rest\t12 \r\n1\n\r\nX 1 0 0\n SHOW a 0 \r\n", 1),
            ("SHOW a\x0b0\nSHOW a 0\r\r\n", 1),
        ),
        "OK LOAD a 0 1\nOK SHOW a 0 0 16777216 0 0\nERR 03 SYNTAX\nERR 03 SYNTAX\n",
        "OK LIST 1\na 0 1 0\n",
    ),
)
