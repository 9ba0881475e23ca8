"""Dialogues as data: a stream of commands, its replies, how it ends, and what LIST tells then."""
import re
from dataclasses import dataclass
from enum import Enum
from itertools import accumulate, cycle
from typing import FrozenSet, Iterator, Optional, Tuple

from schedule_tables.runs import Part
from shared import loads
from shared.program import USUAL, Quota

LOAD = loads.LOAD.decode()

# Streams above this size are cut into pieces of these sizes.
LONG_STREAM = 100_000
UNEVEN_SIZES = (1, 7, 4096, 251, 4093, 2)

LOAD_LINE = re.compile(rb"LOAD[^\n]*?(\d{1,7})[ \t]*\r?\n")


class Ending(Enum):
    """What ends a dialogue, with the last lines that tell so."""

    INPUT: FrozenSet[str] = frozenset()
    BYE = frozenset({"OK BYE"})
    FAULT = frozenset({"ERR 04 BODY", "ERR 05 LONG", "ERR 08 ENOUGH"})


LAST_LINES = {line for ending in Ending for line in ending.value}


@dataclass(frozen=True)
class Dialogue:
    """A dialogue of a user without sessions: each part of the stream comes so many times over. The state is what LIST
    is answered by the sessions that are left."""

    name: str
    stream: Tuple[Part, ...]
    replies: str
    state: str
    quota: Quota = USUAL
    ending: Ending = Ending.INPUT
    # The most bytes of a piece, for each time that the stream is played; None is for a whole stream.
    sizes: Tuple[Optional[int], ...] = (None, 1, 7)
    # How many bytes are read, where that is looked at.
    taken: Optional[int] = None

    def __post_init__(self) -> None:
        last = self.replies.splitlines()[-1] if self.replies else ""
        if last not in (self.ending.value or {last} - LAST_LINES):
            raise ValueError(f"{self.name!r} does not end as its last reply says")

    def text(self) -> bytes:
        return "".join(text * times for text, times in self.stream).encode()

    def pieces(self, most: Optional[int]) -> Iterator[bytes]:
        """The whole stream, or it in pieces of at most so many bytes, of uneven sizes where it is long. No piece goes
        on after the end of a part or of a body, so that none is longer than a read has room for."""
        text, at = self.text(), 0
        if most is None:
            yield from [text] if text else []
            return
        sizes = cycle(UNEVEN_SIZES if len(text) > LONG_STREAM else (most,))
        for end in sorted({*self.ends_of_parts(), *ends_of_bodies(text)}):
            while at < end:
                piece = text[at : min(at + next(sizes), end)]
                yield piece
                at += len(piece)

    def ends_of_parts(self) -> Iterator[int]:
        return accumulate(len(text) * times for text, times in self.stream)


def ends_of_bodies(text: bytes) -> Iterator[int]:
    """Where the bodies end that belong to lines like LOADs."""
    for line in LOAD_LINE.finditer(text):
        yield min(line.end() + int(line[1]), len(text))
