"""Words of replies, the numbers in them, and the rows of two lists: sessions, and the branches of a session."""
from __future__ import annotations

import re
from typing import List, NamedTuple, Sequence

from .errors import BadReply


class Saved(NamedTuple):
    """A branch of a session.

    Attributes
    ----------
    name : str
        Its name.
    step : int
        The step at which it was saved.
    """

    name: str
    step: int


class Row(NamedTuple):
    """A line of the list of sessions.

    Attributes
    ----------
    name : str
        The name of the session.
    step : int
        The step number after all steps that were started.
    atoms : int
        How many atoms it has.
    branches : int
        The number of its branches.
    """

    name: str
    step: int
    atoms: int
    branches: int


def fields(line: str, count: int) -> List[str]:
    """The words of a line of a reply, which must be `count` words."""
    words = line.split(" ")
    if len(words) != count:
        raise BadReply(f"{line!r} is not {count} words")
    return words


def whole_number(word: str) -> int:
    """A word of a reply as a number."""
    if not re.fullmatch(r"-?[0-9]{1,60}", word):
        raise BadReply(f"{word[:80]!r} is not a number")
    return int(word)


def whole_numbers(words: Sequence[str], count: int) -> List[int]:
    """The words of a reply, which must be `count` words, as numbers."""
    if len(words) != count:
        raise BadReply(f"{' '.join(words)[:80]!r} are not {count} numbers")
    return [whole_number(word) for word in words]


def of_session(line: str, words: List[str]) -> List[str]:
    """The words of the reply to a command, which must name the session of the command."""
    name = line.split(" ")[1]
    if words[1:2] != [name]:
        raise BadReply(f"session {name} was asked for, and the reply is {' '.join(words)!r}")
    return words


def number_after(line: str, words: List[str], index: int) -> int:
    """The number at this index, the last word of the reply to a command of a session."""
    if len(of_session(line, words)) != index + 1:
        raise BadReply(f"{line} was answered {' '.join(words)!r}")
    return whole_number(words[index])
