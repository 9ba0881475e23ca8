"""Commands that only the prompt has: many atoms in one SHOW, frames in files, and simulations saved in files."""
from __future__ import annotations

import functools
import os
from typing import Callable, Dict, List, Optional

from ..files import write_whole
from ..refusals import NoAtom
from ..user import User
from .loading import Fault, quoted_words
from .physical import load_of, scale_of
from .sessions import renumbered, session_of
from .shapes import RANGE, wrong_words

# Carries out a command, and returns the lines to show.
Deed = Callable[[User], List[str]]


def deed_of(line: str) -> Optional[Deed]:
    """The function for a line, if only the prompt has its command. Raises Fault if its words are wrong."""
    words = quoted_words(line)
    if load := load_of(line):
        return load.perform
    if words[:1] == ["DUMP"] and any(word.startswith(">") for word in words[2:3]):
        return lambda user: dump(user, spread(words))
    if words[:1] == ["SHOW"] and any(map(RANGE.match, words[2:3])):
        return lambda user: show(user, checked(words, "SHOW s i..j"))
    saving = SAVING.get(words[0].lower()) if words else None
    return functools.partial(saving, words=words) if saving else None


def spread(words: List[str]) -> List[str]:
    """The words of a DUMP into a file, which may follow the `>` without a blank."""
    parts = [words[2][:1], words[2][1:]] if len(words[2]) > 1 else [words[2]]
    return checked([*words[:2], *parts, *words[3:]], "DUMP s > FILE")


def checked(words: List[str], usage: str) -> List[str]:
    """Returns these words. Raises Fault, which shows the wrong word, if they do not fit this usage."""
    if wrong := wrong_words(words, usage):
        raise Fault(f"{wrong[0]}; use `{usage}`")
    return words


def dump(user: User, words: List[str]) -> List[str]:
    """Writes the frame of a session into a file."""
    _, name, _, path = words
    text = session_of(user, name).dump()
    write(path, text.encode())
    count, comment, *_ = text.split("\n")
    return [f"  {count} atoms at {comment} are in {path}"]


def write(path: str, data: bytes) -> None:
    """Writes a file. Raises Fault if that fails."""
    try:
        write_whole(os.path.expanduser(path), data)
    except OSError as error:
        raise Fault(f"cannot write {path}: {error.strerror or error}") from error
    except ValueError as error:
        raise Fault(str(error)) from error


def show(user: User, words: List[str]) -> List[str]:
    """The places of several atoms."""
    _, name, atoms = words
    first, last = map(int, atoms.split(".."))
    if first > last:
        raise Fault(f"the first atom must not be after the last one, got `{atoms}`")
    session = session_of(user, name)
    if last >= session.n_atoms:
        raise NoAtom(f"SHOW {name} {last}")
    order = session.order
    replies = user.ask_all([f"SHOW {name} {order.number_of(atom)}" for atom in range(first, last + 1)])
    shown = [renumbered(reply, ["SHOW", name, str(atom)], order) for atom, reply in enumerate(replies, first)]
    return ["OK " + " ".join(reply.words) for reply in shown]


def save(user: User, words: List[str]) -> List[str]:
    """Writes a whole simulation into a file."""
    checked(words[:3], "save s FILE")
    _, name, path, *said = words
    row = user._row(name)
    try:
        if said:
            user.session(name, **scale_of(said))
        elif user._known_of(name).scale is None:
            example = f"`save {name} {path} edge=21.04 dt=2fs argon`"
            raise Fault(f"cannot save {name}: its scale is not known here; use {example}, or edge=, sigma= and h=")
        session_of(user, name).save(os.path.expanduser(path))
    except OSError as error:
        raise Fault(f"cannot write {path}: {error.strerror or error}") from error
    except ValueError as error:
        raise Fault(str(error)) from error
    left = ", but not what BRANCH has saved" if row.branches else ""
    return [f"  {name} at step {row.step} is in {path}{left}"]


def load_saved(user: User, words: List[str]) -> List[str]:
    """Loads a session from a file that `save` has written."""
    checked(words, "load_saved FILE [s]")
    try:
        session = user.load_saved(os.path.expanduser(words[1]), *words[2:])
    except OSError as error:
        raise Fault(f"cannot read {words[1]}: {error.strerror or error}") from error
    row = user._row(session.name)
    return [f"  {row.name} goes on at step {row.step}, with {row.atoms} atoms"]


SAVING: Dict[str, Callable[[User, List[str]], List[str]]] = {"save": save, "load_saved": load_saved}
