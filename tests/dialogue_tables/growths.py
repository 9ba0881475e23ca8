"""Streams of growths, any of which may be refused memory: nothing has changed then, and the same once more succeeds.

A growth is sent twice, each time with a LIST after it. The second one tells that the first was done, or is done where
memory was refused to the first.
"""
from dataclasses import dataclass
from typing import Callable, Iterator, List, Optional, Sequence, Union

from dialogue_tables.frames import FAULTS, SIZES, faults, numbered
from dialogue_tables.in_boxes import DROP, ROW, Item, load, load_in, loaded, show
from dialogue_tables.mixtures import load_mix, mixed
from dialogue_tables.dialogues import LOAD
from shared.program import Quota

NO_MEMORY = "ERR 90 MEMORY\n"


@dataclass(frozen=True)
class Growth:
    """A command that takes memory, its reply, its reply once more, and what LIST is answered before it and after it."""

    command: str
    first: str
    again: str
    before: str
    after: str

    def sent(self) -> str:
        return f"{self.command}LIST\n" * 2

    def told(self, is_refused: bool) -> str:
        if is_refused:
            return NO_MEMORY + self.before + self.first + self.after
        return self.first + self.after + self.again + self.after


@dataclass(frozen=True)
class Plain:
    """Any other item. A refused one may be answered, too, that there is no memory."""

    item: str
    reply: str

    def sent(self) -> str:
        return self.item

    def told(self, is_refused: bool) -> str:
        return NO_MEMORY if is_refused else self.reply


@dataclass(frozen=True)
class Growing:
    """A stream of a user of this quota, and the numbers of those of its parts to which memory may be refused."""

    name: str
    quota: Quota
    parts: Sequence[Union[Growth, Plain]]
    growing: Sequence[int]

    def stream(self) -> bytes:
        return "".join(part.sent() for part in self.parts).encode()

    def replies(self, refused: Optional[int] = None) -> bytes:
        """What is replied where memory is refused to the part of this number."""
        return "".join(part.told(number == refused) for number, part in enumerate(self.parts)).encode()


def growing(name: str, quota: Quota, parts: List[Union[Growth, Plain]]) -> Growing:
    return Growing(name, quota, parts, [number for number, part in enumerate(parts) if isinstance(part, Growth)])


def listed(step: int, atoms: int, branches: int) -> str:
    return f"OK LIST 1\na {step} {atoms} {branches}\n"


def saved(name: str, step: int, atoms: int, count: int) -> Growth:
    """BRANCH, where so many are saved before it."""
    lists = listed(step, atoms, count), listed(step, atoms, count + 1)
    return Growth(f"BRANCH a {name}\n", f"OK BRANCH a {name} {step}\n", "ERR 13 BRANCH_EXISTS\n", *lists)


# What loads a body of so many atoms in a mode, and its reply.
Loading = Callable[[str, int, str], Item]


def of_one_species(body: str, size: int, mode: str) -> Item:
    return load_in(ROW, body, mode), loaded(size)


def of_two_species(body: str, size: int, mode: str) -> Item:
    """The atom of the number 1, if there is one, is of another species."""
    text = body.replace("X 1 ", "Y 1 ")
    return load_mix(text, ("1 1 1", "1 1 2", "1 1 3"), mode, "a", ROW[0], "X Y"), mixed(size, "a")


def of_size(size: int, loading: Loading) -> Iterator[Union[Growth, Plain]]:
    """Loads of so many atoms, at rest and in a pair, and branches of them."""
    text, atoms = numbered(size)
    for mode, body in (("rest", text), ("pair", text * 2)):
        yield Growth(*loading(body, size, mode), "ERR 11 EXISTS\n", "OK LIST 0\n", listed(0, size, 0))
        yield Plain(*show(ROW, atoms, size - 1))
        yield saved("k", 0, size, 0)
        yield Plain("REVERSE a\n", "OK REVERSE a -1\n")
        yield Plain(*show(ROW, atoms, size - 1, -1))
        yield saved("m", -1, size, 1)
        yield from (Plain(f"FORGET a {name}\n", f"OK FORGET a {name}\n") for name in "km")
        yield Plain(*DROP)


def most_branches() -> Iterator[Union[Growth, Plain]]:
    """As many branches as the largest quota has, one at each step from 127 down to -128."""
    yield Growth(LOAD, loaded(2), "ERR 11 EXISTS\n", "OK LIST 0\n", listed(0, 2, 0))
    yield Plain("ADVANCE a 128\nREVERSE a\n", "OK ADVANCE a 128\nOK REVERSE a 127\n")
    lines = ""
    for count in range(256):
        name, step = chr(ord("a") + count // 16) + chr(ord("a") + count % 16), 127 - count
        lines += f"{name} {step}\n"
        yield saved(name, step, 2, count)
        yield Plain("ADVANCE a 1\n", f"OK ADVANCE a {step - 1}\n")
    yield Plain("LIST a\nLIST\n", f"OK LIST a 256\n{lines}{listed(-129, 2, 256)}")


# Texts of mixtures with an atom of a third species.
STRANGE = (
    (load_mix("1\nc\nAr 0 0 0\n"), "ERR 39 XYZ_SPECIES line 3\n"),
    (load_mix("2\nc\nNa 0 0 0\nAr 0 0 0\n" * 2, mode="pair"), "ERR 39 XYZ_SPECIES line 4\n"),
)

# Texts of more atoms than the quota has.
TWO_ATOMS = "2\nc\nX 0 0 0\nX 1 0 0\n"
MANY = (
    (load(TWO_ATOMS), "ERR 21 QUOTA_ATOMS\n"),
    (load(TWO_ATOMS * 2, "pair"), "ERR 21 QUOTA_ATOMS\n"),
)

# Texts that are refused. Where there is no memory for the bytes of one, or for the atoms of one of its frames, that is
# told and not what is wrong behind.
REFUSED = (*faults(), *STRANGE, *MANY)
BAD_TEXTS = Growing(
    "texts that are refused",
    (1, 1, 0),
    [Plain(*item) for item in REFUSED],
    [*(number for number, (_, text, _) in enumerate(FAULTS) if text), *range(len(FAULTS), len(REFUSED))],
)

# The numbers of those whose fault stands before the atoms of the first frame, and of those whose second frame is begun.
NOT_BEGUN = (0, 1, 2, 3, 4, 15, 16)
BOTH_BEGUN = (28, 29, 30, 31, 32, 36)


def growths_of(number: int) -> int:
    """How often the text of this number takes memory: for its bytes, and for the atoms of each frame that is begun."""
    return 1 + (number not in NOT_BEGUN) + (number in BOTH_BEGUN)


GROWING = (
    growing(
        "loads and branches of each size",
        (1, 4096, 2),
        [part for size in SIZES for part in of_size(size, of_one_species)],
    ),
    growing(
        "mixtures and branches of them",
        (1, 4096, 2),
        [part for size in (1, 65, 256) for part in of_size(size, of_two_species)],
    ),
    growing("as many branches as the largest quota", (8, 16384, 256), list(most_branches())),
    BAD_TEXTS,
)
