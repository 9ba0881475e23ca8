"""What is saved and gone back to, and the last place of each quota."""
from typing import Iterable, Iterator, Tuple

from dialogue_tables.frames import SIZES
from dialogue_tables.in_boxes import DROP, Item, dialogue, load, loaded
from dialogue_tables.dialogues import LOAD

# What is saved comes back, as often as it is asked for; the potential is that of two atoms at rest, 1.5 sigma apart.
SAVED = (
    (LOAD, "OK LOAD a 0 2"),
    ("LIST a\n", "OK LIST a 0"),
    ("BRANCH a rest\n", "OK BRANCH a rest 0"),
    ("TUG a 0 5 0 0\n", "OK TUG a 0 0"),
    ("BRANCH a tugged\n", "OK BRANCH a tugged 0"),
    ("REVERSE a\n", "OK REVERSE a -1"),
    *(
        ("RESTORE a rest\n", "OK RESTORE a rest 0"),
        ("MEASURE a\n", "OK MEASURE a 0 2 0 0 0 0 -5349132"),
        ("REVERSE a\n", "OK REVERSE a -1"),
        ("RESTORE a rest\n", "OK RESTORE a rest 0"),
        ("RESTORE a tugged\n", "OK RESTORE a tugged 0"),
        ("MEASURE a\n", "OK MEASURE a 0 2 5 0 0 25 -5349132"),
        ("REVERSE a\n", "OK REVERSE a -1"),
    )
    * 2,
    ("RESTORE a other\n", "ERR 12 NO_BRANCH"),
    ("LIST\n", "OK LIST 1\na -1 2 2"),
    ("LIST a\n", "OK LIST a 2\nrest 0\ntugged 0"),
    ("REVERSE a\n", "OK REVERSE a 0"),
)

# What is saved before a tug takes back the tug and the step after it, as often as it is asked for.
TAKEN_BACK = (
    (LOAD, "OK LOAD a 0 2"),
    ("ADVANCE a 1\n", "OK ADVANCE a 1"),
    ("BRANCH a k\n", "OK BRANCH a k 1"),
    ("MEASURE a\n", "OK MEASURE a 1 2 0 0 0 693842 -5399727"),
    ("TUG a 0 5 0 0\n", "OK TUG a 0 1"),
    ("ADVANCE a 1\n", "OK ADVANCE a 2"),
    ("SHOW a 0\n", "OK SHOW a 2 0 1779 0 0"),
    *(("RESTORE a k\n", "OK RESTORE a k 1"), ("MEASURE a\n", "OK MEASURE a 1 2 0 0 0 693842 -5399727")) * 2,
    ("LIST a\n", "OK LIST a 1\nk 1"),
    ("FORGET a k\n", "OK FORGET a k"),
    ("BRANCH a m\n", "OK BRANCH a m 1"),
    ("LIST a\n", "OK LIST a 1\nm 1"),
    ("ADVANCE a 1\n", "OK ADVANCE a 2"),
    ("SHOW a 0\n", "OK SHOW a 2 0 1774 0 0"),
)

# What is saved is listed in the order of saving.
ORDER = (
    (LOAD, "OK LOAD a 0 2"),
    ("BRANCH a a\n", "OK BRANCH a a 0"),
    ("BRANCH a b\n", "OK BRANCH a b 0"),
    ("REVERSE a\n", "OK REVERSE a -1"),
    ("BRANCH a c\n", "OK BRANCH a c -1"),
    ("BRANCH a a\n", "ERR 13 BRANCH_EXISTS"),
    ("LIST a\n", "OK LIST a 3\na 0\nb 0\nc -1"),
    ("FORGET a a\n", "OK FORGET a a"),
    ("FORGET a a\n", "ERR 12 NO_BRANCH"),
    ("LIST a\n", "OK LIST a 2\nb 0\nc -1"),
    ("BRANCH a a\n", "OK BRANCH a a -1"),
    ("LIST a\n", "OK LIST a 3\nb 0\nc -1\na -1"),
)

# Seven sessions with 16,383 atoms in all.
NEARLY = (4096, 4096, 4096, 4092, 1, 1, 1)

# The same, with the last ones of each.
LISTED = "OK LIST 8\ns0 0 4096 0\ns1 0 4096 0\ns2 0 4096 0\ns3 0 4092 0\ns4 0 1 0\ns5 0 1 0\ns6 0 1 15\nt 0 1 1\n"


def of_words(table: Iterable[Tuple[str, str]]) -> Iterator[Item]:
    for item, reply in table:
        yield item, f"{reply}\n"


def frame(atoms: int) -> str:
    """A frame of so many atoms at one place."""
    return f"{atoms}\nframe\n" + "X 1 2 3\n" * atoms


def last_places() -> Iterator[Item]:
    """The usual quota, of which one session, one atom and one branch are left at first."""
    for number, atoms in enumerate(NEARLY):
        yield load(frame(atoms), session=f"s{number}"), loaded(atoms, f"s{number}")
    for number in range(15):
        yield f"BRANCH s6 k{number}\n", f"OK BRANCH s6 k{number} 0\n"
    for atoms in (2, 4096):
        yield load(frame(atoms), session="t"), "ERR 21 QUOTA_ATOMS\n"
    yield load(frame(1), session="t"), loaded(1, "t")
    yield "BRANCH t k\n", "OK BRANCH t k 0\n"
    yield load(frame(1), session="u"), "ERR 20 QUOTA_SESSIONS\n"
    yield "BRANCH t l\n", "ERR 22 QUOTA_BRANCHES\n"
    yield "LIST\n", LISTED


def of_each_size(mode: str, frames: int) -> Iterator[Item]:
    for atoms in SIZES:
        yield load(frame(atoms) * frames, mode), loaded(atoms)
        yield DROP


DIALOGUES = (
    dialogue("what is saved comes back", of_words(SAVED), "OK LIST 1\na 0 2 2\n"),
    dialogue("a branch takes back a tug", of_words(TAKEN_BACK), "OK LIST 1\na 2 2 1\n"),
    dialogue("the order is that of saving", of_words(ORDER), "OK LIST 1\na -1 2 3\n"),
    dialogue("the last place of each quota is free", last_places(), LISTED),
    dialogue("loads of each size at rest", of_each_size("rest", 1), quota=(1, 4096, 0)),
    dialogue("loads of each size in a pair", of_each_size("pair", 2), quota=(1, 4096, 0)),
)
