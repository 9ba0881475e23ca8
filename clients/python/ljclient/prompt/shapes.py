"""The form of words: which word of a line is wrong, and which form of a command a line has."""
from __future__ import annotations

import re
from typing import Callable, Dict, List, NamedTuple, Sequence

from ..names import NAME, SYMBOL
from ..xyz import MAX_BYTES
from .commands import MODES, OWN, WORDS, forms_of

DECIMAL = re.compile(r"(?=.{1,40}\Z)[+-]?([0-9]+\.?[0-9]*|\.[0-9]+)([eEdD][+-]?[0-9]{1,3})?\Z")
WHOLE = re.compile(r"[0-9]{1,19}\Z")
DISPLACEMENT = re.compile(r"-?[0-9]{1,19}\Z")
QUANTITY = re.compile(r"((?:[0-9]{1,18}(?:\.[0-9]*)?|\.[0-9]+)(?:[eE][+-]?[0-9]{1,2})?)([A-Za-z]*)\Z")
RANGE = re.compile(r"([0-9]{1,19})\.\.([0-9]{1,19})\Z")
COUNT = re.compile(r"[0-9]{1,7}\Z")
Fits = Callable[[str], bool]


class WrongWord(NamedTuple):
    """A wrong word of a line: its place, counted from 0, and what should be there.

    word  the word; empty if it is missing
    kind  the word of the usage; empty if the line has a word too many
    """

    place: int
    word: str
    kind: str

    def __str__(self) -> str:
        if not self.kind:
            return f"`{self.word}` is a word too many"
        kind, meaning = self.kind.strip("[]"), meaning_of(self.kind)
        if not self.word:
            return f"missing: {kind}, {meaning}" if meaning else f"missing: {kind}"
        return f"{kind} must be {meaning}, got `{self.word}`" if meaning else f"`{kind}` must stand in place of `{self.word}`"


def whole(low: int, high: int) -> Fits:
    return lambda word: WHOLE.match(word) is not None and low <= int(word) <= high


def decimal(word: str) -> bool:
    return DECIMAL.match(word) is not None


def is_edge(word: str) -> bool:
    return decimal(word) and 0.001 <= float(re.sub("[dD]", "e", word)) <= 1e6


def displacement(word: str) -> bool:
    return DISPLACEMENT.match(word) is not None and -(2**31) <= int(word) < 2**31


def is_count(word: str) -> bool:
    """Whether a word is a count of bytes that the server accepts."""
    return COUNT.match(word) is not None and int(word) <= MAX_BYTES


def has_unit(word: str, units: Sequence[str]) -> bool:
    """Whether a word is a number of at least 0 with one of these units."""
    found = QUANTITY.match(word)
    return found is not None and found[2] in units


SHAPES: Dict[str, Fits] = {
    **dict.fromkeys(("s", "b"), lambda word: NAME.match(word) is not None),
    **dict.fromkeys(("P", "Q"), lambda word: SYMBOL.match(word) is not None),
    **dict.fromkeys(("dx", "dy", "dz"), displacement),
    **dict.fromkeys(("h", "h1", "h2", "h3"), whole(1, 1 << 24)),
    **dict.fromkeys(("e1", "e2", "e3"), whole(1, 65_536)),
    **dict.fromkeys(("sigma", "s1", "s2", "s3"), decimal),
    **dict.fromkeys(("rest", "[rest|pair]"), MODES.__contains__),
    "n": whole(0, 1_000_000),
    "i": whole(0, 10**19),
    "i..j": lambda word: RANGE.match(word) is not None,
    "edge": is_edge,
    "count": is_count,
    ">": ">".__eq__,
    "T": lambda word: has_unit(word, ("", "K")),
    "SEED": whole(0, 10**18),
    "STRETCH": lambda word: has_unit(word, ("", "fs", "ps", "ns", "step", "steps")),
}
SHAPES.update({f"[{kind}]": SHAPES[kind] for kind in ("s", "SEED", "STRETCH")})


def meaning_of(kind: str) -> str:
    """The meaning of a word of a usage; empty if it needs none."""
    kind = kind.strip("[]").split("|")[0]
    return next((meaning for words, meaning in WORDS.items() if kind in words.split()), "")


def usages(name: str) -> List[str]:
    """The usages of a command at the prompt, with a file first."""
    found = [usage for form in forms_of(name) for usage in (form.with_file, form.usage) if usage]
    return found + [own.usage for own in OWN if own.name == name]


def wrong_words(words: Sequence[str], usage: str, is_whole: bool = True) -> List[WrongWord]:
    """The words of a line that are wrong for this usage. If the line is not whole, its last word and missing words do not
    count."""
    kinds = usage.split()[1:]
    said = list(words[1:])
    last = len(said) if is_whole else len(said) - 1
    found = [
        WrongWord(place + 1, word, kind)
        for place, (word, kind) in enumerate(zip(said[: max(last, 0)], kinds))
        if kind in SHAPES and not SHAPES[kind](word)
    ]
    needed = [kind for kind in kinds[len(said) :] if not kind.startswith("[")]
    found += [WrongWord(len(said) + 1, "", needed[0])] if needed and is_whole else []
    if kinds[-1:] == ["[SCALE]"]:
        return found
    return found + [WrongWord(len(kinds) + 1, word, "") for word in said[len(kinds) :][:1] if word]


def usage_for(words: Sequence[str], is_whole: bool = True) -> str:
    """The usage that fits the words of a line best; empty if there is no such command."""
    found = usages(words[0])
    return min(found, key=lambda usage: len(wrong_words(words, usage, is_whole))) if found else ""
