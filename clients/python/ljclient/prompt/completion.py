"""Completion of a word: commands, names of sessions and of saved states, and files."""
from __future__ import annotations

import glob
import os
from typing import List, Optional, Sequence, Set

from ..errors import ClientError, TimedOut
from ..user import User
from .commands import MODES, command_of, first_words
from .physical import UNITS, substances
from .shapes import usages, wrong_words

PATIENCE = 1.0


def candidates(before: Sequence[str], word: str, user: Optional[User]) -> List[str]:
    """The completions of a word, after the words before it in the line."""
    known = [name.lower() if word[:1].islower() else name for name in first_words()]
    if not before:
        return fitting(known, word)
    command = command_of(before[0])
    if command in ("LOAD", "LOADMIX"):
        return of_load(command, before, word)
    possible = [usage for usage in usages(command or "") if not wrong_words([*before, ""], usage, is_whole=False)]
    kinds = {kind for usage in possible for kind in usage.split()[len(before) : len(before) + 1]}
    if "[COMMAND]" in kinds:
        return fitting(known, word)
    if "FILE" in kinds:
        return files(word)
    return fitting(names_at({kind.strip("[]") for kind in kinds}, command or "", before, user), word)


def of_load(command: str, before: Sequence[str], word: str) -> List[str]:
    """The completions of a word of a LOAD: a file, a quantity, a substance, or a mode."""
    if len(before) == 2:
        return files(word)
    if not word or len(before) < 3:
        return files(word) if before[-1] in MODES else []
    physical = [*substances(), *(f"{name}=" for name in UNITS)] if command == "LOAD" else []
    found = [*fitting(MODES, word), *(each.replace("= ", "=") for each in fitting(physical, word))]
    return found or (files(word) if before[-1] in MODES else [])


def names_at(kinds: Set[str], command: str, before: Sequence[str], user: Optional[User]) -> List[str]:
    """The names that exist: of sessions, or of the branches of the session that the line names."""
    if user is None or user.closed:
        return []
    try:
        with user.on_wait(give_up):
            if "s" in kinds:
                return [row.name for row in user.sessions()]
            if "b" in kinds and command != "BRANCH":
                return [saved.name for saved in user.session(before[1]).saved()]
    except (ClientError, ValueError):
        pass
    return []


def give_up(command: str, silent: float) -> None:
    """Ends the wait for names after `PATIENCE` seconds."""
    if silent > PATIENCE:
        raise TimedOut(f"`{command}` is not answered yet")


def files(word: str) -> List[str]:
    """The files and folders whose paths begin with this word, except paths with blanks."""
    found = sorted(glob.glob(glob.escape(os.path.expanduser(word)) + "*"))
    home = os.path.expanduser("~")
    shown = [f"~{path[len(home):]}" if word.startswith("~/") else path for path in found if len(path.split()) == 1]
    return [f"{path}/" if os.path.isdir(os.path.expanduser(path)) else f"{path} " for path in shown]


def fitting(known: Sequence[str], word: str) -> List[str]:
    """Those that begin with this word, each followed by a blank."""
    return [f"{each} " for each in known if each.startswith(word)]
