"""Hints for a line as it is typed: the words to come, what the last word means, and which word is wrong."""
from __future__ import annotations

from typing import List, Optional

from .commands import MODES, command_of, first_words
from .explaining import meant
from .loading import quoted_words, without_comment
from .physical import is_physical, substances
from .shapes import WrongWord, meaning_of, usage_for, usages, wrong_words

AT_START = "`help` lists the commands, Tab completes, Ctrl-D ends"
IN_UNITS = "LOAD s FILE dt=.. SUBSTANCE [rest|pair]"


def words_to_come(text: str) -> str:
    """The words that may follow the line typed so far; while its first word is typed, the rest of that word too."""
    words, is_new = words_before(text)
    if not words:
        return ""
    if len(words) == 1 and not is_new:
        found = [name for name in first_words() if name.lower().startswith(words[0].lower())]
        found = [name for name in found if len(name) == len(words[0])] or found
        if len(found) != 1:
            return ""
        ending = found[0][len(words[0]) :]
        return " ".join([ending.lower() if words[0].islower() else ending, *usages(found[0])[0].split()[1:]])
    usage = usage_of(words, is_new)
    rest = usage.split()[len(words) :] if usage != IN_UNITS else quantities_to_come(words)
    if usage and not rest:
        rest = more_of(words, is_new)
    return "" if not rest else " ".join(rest if is_new else ["", *rest])


def more_of(words: List[str], is_new: bool) -> List[str]:
    """The words that may follow a complete line, such as the file of a DUMP."""
    found = [usage.split()[len(words) :] for usage in usages(command_of(words[0]) or "") if fits(words, usage, is_new)]
    rest = next(filter(None, found), None)
    return [f"[{' '.join(rest)}]"] if rest else []


def fits(words: List[str], usage: str, is_new: bool) -> bool:
    """Whether the words typed so far fit a usage."""
    return not wrong_words([*words, ""] if is_new else words, usage, is_whole=False)


def quantities_to_come(words: List[str]) -> List[str]:
    """The words that a LOAD in physical units lacks."""
    heads = {"dt=..": ("dt=", "h="), "SUBSTANCE": (*substances(), "sigma="), "[edge=..]": ("edge=",), "[rest|pair]": MODES}
    return [kind for kind, known in heads.items() if not any(word.lower().startswith(known) for word in words[3:])]


def told(text: str) -> str:
    """What the word at the end of a line means, or which word before it is wrong."""
    words, is_new = words_before(text)
    if not words:
        return "" if text.strip() else AT_START
    if len(words) == 1 and not is_new:
        return ""
    if command_of(words[0]) is None:
        return f"there is no command `{words[0]}`: {meant(words[0])[0]}"
    usage = usage_of(words, is_new)
    if wrong := wrong_of(text):
        return str(wrong)
    if usage == IN_UNITS and len(words) > 3:
        return "dt=2fs, argon or sigma=3.4 epsilon=119.8K mass=39.948, edge=21.04 if the file has no Lattice"
    kinds = usage.split()
    place = len(words) if is_new else len(words) - 1
    return f"{kinds[place]}: {meaning_of(kinds[place])}" if place < len(kinds) and meaning_of(kinds[place]) else ""


def wrong_of(text: str) -> Optional[WrongWord]:
    """The first wrong word of a line, except the one that is still typed."""
    words, is_new = words_before(text)
    if not words or (len(words) == 1 and not is_new):
        return None
    if command_of(words[0]) is None:
        return WrongWord(0, words[0], "a command")
    usage = usage_of(words, is_new)
    if usage == IN_UNITS:
        usage, words, is_new = "LOAD s FILE", words[:3], False
    found = wrong_words([*words, ""] if is_new else words, usage, is_whole=False)
    return found[0] if found else None


def words_before(text: str) -> "tuple[List[str], bool]":
    """The words typed so far, and whether a blank follows them."""
    said = without_comment(text)
    return quoted_words(said), said[-1:] in (" ", "\t")


def usage_of(words: List[str], is_new: bool) -> str:
    """The usage that fits the words typed so far best."""
    command = command_of(words[0])
    if command is None:
        return ""
    if command == "LOAD" and any(map(is_physical, words[3:])):
        return IN_UNITS
    return usage_for([command, *words[1:], *([""] if is_new else [])], is_whole=False)
