"""Words of numbers, and how each is read: as a coordinate, as an edge, as a sigma, and as a whole number."""
from typing import Iterator, Tuple, Union

from dialogue_tables.in_boxes import DROP, FINE, WIDE, Item, at_rest, dialogue, load, load_in, loaded
from reference import RING, units_of

BAD = "33 XYZ_NUMBER line 3"
OUT = "34 XYZ_RANGE line 3"

MOST = 10**15

# Decimal words with the billionths that each says, or with its refusal as a coordinate.
DECIMALS: Tuple[Tuple[str, Union[int, str]], ...] = (
    ("0e999", 0),
    ("-0.0000000005", -1),
    ("0.00000000049", 0),
    ("+0.0000000015d0", 2),
    ("-1E+6", -MOST),
    ("1000000", MOST),
    ("1000000.0000000004", MOST),
    ("1000000.0000000005", OUT),
    ("1000000.000000001", OUT),
    ("-1000000.000000001", OUT),
    ("1ee1", BAD),
    ("1e0001", BAD),
    # 40 bytes, 40 of them digits.
    ("0000000000000000000000000000000000000007", 7_000_000_000),
    ("9999999999999999999999999999999999999999", OUT),
    # 36 digits, of which 15 are left.
    ("123456789012345678901234567890123456e-30", 123_456_789_012_346),
    # The digit that decides is not the last.
    ("0.9999999994999999999999999999999999999", 999_999_999),
    ("0.9999999995000000000000000000000000000", 1_000_000_000),
    # 40 bytes, and 41.
    ("99999999999999999999999999999999999e-999", 0),
    ("999999999999999999999999999999999999e-999", BAD),
)

ONE_ATOM = "1\nw\nX 0.0005 0 0\n"


def coordinates() -> Iterator[Item]:
    """Each word as a coordinate along each axis."""
    for word, read in DECIMALS:
        text = f"1\nw\nX {word} {word} {word}\n"
        for box in (FINE, WIDE):
            if isinstance(read, str):
                yield load_in(box, text), f"ERR {read}\n"
            else:
                yield from at_rest(box, text, [("X", read, read, read)])


def edges() -> Iterator[Item]:
    """Each word as an edge, of which sigma is a tenth."""
    for word, read in DECIMALS:
        if isinstance(read, int) and 10**6 <= read <= MOST:
            tenth = f"{read // 10**10}.{read // 10 % 10**9:09}"
            yield load(ONE_ATOM, words=f"{word} {tenth} 1"), loaded(1)
            yield "SHOW a 0\n", f"OK SHOW a 0 0 {units_of(read, 500_000) % RING} 0 0\n"
            yield DROP
        else:
            yield load(ONE_ATOM, words=f"{word} 1 1"), "ERR 36 EDGE\n"


def sigmas() -> Iterator[Item]:
    """Each word as a sigma, in boxes of several edges."""
    for word, read in DECIMALS:
        for edge in (4, 36, 1_000, 1_000_000):
            units = units_of(edge * 10**9, read) if isinstance(read, int) else 0
            fits = 65_536 <= units and 5 * units < RING
            yield load(ONE_ATOM, words=f"{edge} {word} 1"), loaded(1) if fits else "ERR 37 SIGMA\n"
            yield DROP if fits else ("DROP a\n", "ERR 10 NO_SESSION\n")


EIGHT = "8\nw\n" + "".join(f"X {number} 0 0\n" for number in range(8))

# Words of whole numbers, with the replies to ADVANCE, to SHOW of one of eight atoms, to a LOAD with the word as its
# step factor, and to one with it as the count line of seven atoms.
WHOLE = (
    ("0", "OK ADVANCE a 0", "OK SHOW a 0 0 0 0 0", "ERR 38 STEP_FACTOR", "ERR 30 XYZ_COUNT line 1"),
    ("007", "OK ADVANCE a 7", "OK SHOW a 0 7 117440512 0 0", "OK LOAD b 0 1", "OK LOAD b 0 7"),
    ("9999999999999999999", "ERR 23 STEP_RANGE", "ERR 14 NO_ATOM", "ERR 38 STEP_FACTOR", "ERR 30 XYZ_COUNT line 1"),
    ("00000000000000000001", "ERR 03 SYNTAX", "ERR 03 SYNTAX", "ERR 38 STEP_FACTOR", "ERR 30 XYZ_COUNT line 1"),
    ("-1", "ERR 03 SYNTAX", "ERR 03 SYNTAX", "ERR 38 STEP_FACTOR", "ERR 30 XYZ_COUNT line 1"),
)


def whole_numbers() -> Iterator[Item]:
    for word, advanced, shown, of_factor, of_count in WHOLE:
        yield load(EIGHT), loaded(8)
        yield f"SHOW a {word}\n", f"{shown}\n"
        yield DROP
        yield load(ONE_ATOM), loaded(1)
        yield f"ADVANCE a {word}\n", f"{advanced}\n"
        yield DROP
        for text, words, reply in (
            (ONE_ATOM, f"256 1 {word}", of_factor),
            (f"{word}\nw\n" + "X 0 0 0\n" * 7, "256 1 1", of_count),
        ):
            yield load(text, words=words, session="b"), f"{reply}\n"
            yield "DROP b\n", "OK DROP b\n" if reply.startswith("OK") else "ERR 10 NO_SESSION\n"


DIALOGUES = (
    dialogue("words of coordinates", coordinates()),
    dialogue("words of edges", edges()),
    dialogue("words of sigmas", sigmas()),
    dialogue("whole numbers", whole_numbers()),
)
