"""Checks whether a session that a record loads again is unchanged, or another trajectory begins.

A session that moves to a new program, or whose atoms are sorted again, is loaded again from both of its frames. The states just
before and just after are compared in ring units, in any order of the atoms.
"""
from __future__ import annotations

import contextlib
import re
from dataclasses import dataclass, field
from typing import TYPE_CHECKING, Dict, List, Optional, Sequence, Tuple

from . import record
from .errors import Refused
from .exact import nano_of
from .order import Place
from .record import Entry
from .record_rules import WORDS
from .units import RING
from .wire import Reply

if TYPE_CHECKING:
    from .user import User

# The edge of the box in which DUMP resolves each ring unit, in 10^-9 of the file's unit.
RING_EDGE = RING * 1000
FULL_WEIGHT = 256
# The least edge of a box in 10^-9 of the file's unit, and the most atoms.
LEAST_EDGE = 10**6
MOST_ATOMS = 4096
WHOLE = re.compile(rb"[0-9]{1,19}\Z")
# The name of the session's own state, besides the names of its saved states.
NOW = b""


@dataclass(frozen=True)
class Loaded:
    """How the atoms of a session interact.

    species  the two symbols of a mixture
    classes  sigma in ring units, h and weight of each class of pairs
    atoms    the number of atoms
    on_ring  whether DUMP resolves each ring unit
    """

    species: Tuple[bytes, ...]
    classes: Tuple[Tuple[int, int, int], ...]
    atoms: int
    on_ring: bool = field(compare=False)

    @property
    def cost(self) -> int:
        """The number of commands that read both frames."""
        return 4 if self.on_ring else 2 * self.atoms + 3


@dataclass(frozen=True)
class Side:
    """A session on one side of a joint: how its atoms interact, and each atom's symbol and places, now and one step before."""

    loaded: Loaded
    atoms: Sequence[Tuple[str, Place, Place]]


def whole_of(word: bytes) -> int:
    """A whole number of the protocol. Raises ValueError for other words."""
    if not WHOLE.match(word):
        raise ValueError("this is no whole number of the protocol")
    return int(word)


def loaded_by(entry: Entry) -> Loaded:
    """What a granted LOAD or LOADMIX has loaded. Raises ValueError if the protocol grants no such load."""
    verb, _, edge_word, *words = all_words = record.words_of(entry.line)
    if len(all_words) != WORDS[verb] or not 1 <= entry.atoms <= MOST_ATOMS:
        raise ValueError("a load of the protocol has other words")
    species = tuple(words[:2]) if verb == b"LOADMIX" else ()
    numbers = words[2:-2] if species else [*words[:-2], b"%d" % FULL_WEIGHT]
    edge = nano_of(edge_word)
    if edge < LEAST_EDGE:
        raise ValueError("the edge is too small")
    triples = zip(numbers[::3], numbers[1::3], numbers[2::3])
    classes = tuple((nano_of(sigma) * RING // edge, whole_of(h), whole_of(weight)) for sigma, h, weight in triples)
    return Loaded(species, classes, entry.atoms, edge == RING_EDGE)


def side_of(user: "User", name: str, loaded: Loaded) -> Side:
    """A session as the program has it. Reading leaves it unchanged."""
    return Side(loaded, sorted(present_of(user, name, loaded).atoms))


@dataclass(frozen=True)
class Present:
    """A session as a program has it: its step, the change of that number by the next step, and its atoms in order."""

    step: int
    direction: int
    atoms: Sequence[Tuple[str, Place, Place]]


def present_of(user: "User", name: str, loaded: Loaded) -> Present:
    """A session as the program has it, with its step and its order of atoms. Reading leaves it unchanged."""
    turn = f"REVERSE {name}"
    if loaded.on_ring:
        dumped, turned, past, _ = user.ask_all([f"DUMP {name}", turn, f"DUMP {name}", turn])
        now, before = _dumped_places(dumped), _dumped_places(past)
    else:
        shows = [f"SHOW {name} {number}" for number in range(loaded.atoms)]
        dumped, *shown = user.ask_all([f"DUMP {name}", *shows, turn, *shows, turn])
        turned = shown[loaded.atoms]
        now, before = _shown_places(shown[: loaded.atoms]), _shown_places(shown[loaded.atoms + 1 : -1])
    symbols = [line.split(" ")[0] for line in dumped.lines[2:]]
    step = int(dumped.words[2])
    return Present(step, step - int(turned.words[2]), list(zip(symbols, now, before)))


def _shown_places(replies: Sequence[Reply]) -> List[Place]:
    """The places in replies to SHOW."""
    return [(int(x), int(y), int(z)) for x, y, z in (reply.words[-3:] for reply in replies)]


def _dumped_places(reply: Reply) -> List[Place]:
    """The places in a reply to DUMP where a millionth is a ring unit."""
    words = (line.replace(".", "").split(" ") for line in reply.lines[2:])
    return [(int(x), int(y), int(z)) for _, x, y, z in words]


class Joints:
    """Counts the trajectories of a record.

    room          the number of commands that may still be sent to read frames
    trajectories  the number of trajectories; a load that was not compared counts as a new one
    uncompared    the number of loads that were not compared with the session before
    """

    def __init__(self, name: str, room: int):
        self.room = room
        self.trajectories = 1
        self.uncompared = 0
        self._name = name
        self._before: Dict[bytes, Side] = {}
        self._now: Optional[Dict[bytes, Side]] = None
        self._found: List[Optional[bool]] = []

    def look(self, user: "User", loaded: Optional[Loaded]) -> None:
        """Reads the session, before its saved states are restored and read for a move."""
        self._now = {}
        with contextlib.suppress(Refused):
            if loaded is not None:
                self._now = self._sides(user, loaded)

    def leave(self, user: "User", loaded: Optional[Loaded], has_moved: bool) -> None:
        """Reads the session before it is gone, and its saved states too if it moves to a new program."""
        now, self._now = self._now, None
        self._before, self._found = {}, []
        with contextlib.suppress(Refused):
            if loaded is not None:
                self._before = self._all_sides(user, loaded) if has_moved else self._sides(user, loaded)
        if self._before and now is not None:
            self._before = {**self._before, **now}

    def compare(self, user: "User", loaded: Optional[Loaded], saved: bytes) -> None:
        """Compares the session with the state saved under a name or, if the name is empty, with itself before."""
        after = self._sides(user, loaded) if self._before and loaded is not None else {}
        self._found.append(after[NOW] == self._before.get(saved) if after else None)

    def differ(self) -> None:
        """Notes that the commands after a load change the session."""
        self._found.append(False)

    def arrive(self) -> str:
        """Counts the trajectories, and returns the report on the session that was loaded again."""
        if self._found and all(self._found):
            return "the session goes on as it was"
        self.trajectories += 1
        if False in self._found:
            return "another trajectory begins"
        self.uncompared += 1
        return "it was not compared whether the session goes on as it was"

    def _sides(self, user: "User", loaded: Loaded) -> Dict[bytes, Side]:
        """The session as it is, if there is room to read it."""
        return {NOW: side_of(user, self._name, loaded)} if self._takes(loaded.cost) else {}

    def _all_sides(self, user: "User", loaded: Loaded) -> Dict[bytes, Side]:
        """The session as it is, and as it was saved under each name. It is left in the last saved state."""
        saved = [line.split(" ")[0] for line in user.ask(f"LIST {self._name}").lines] if self._takes(1) else []
        if not self._takes((loaded.cost + 1) * (len(saved) + 1)):
            return {}
        sides = {NOW: side_of(user, self._name, loaded)}
        for branch in saved:
            user.ask(f"RESTORE {self._name} {branch}")
            sides[branch.encode()] = side_of(user, self._name, loaded)
        return sides

    def _takes(self, cost: int) -> bool:
        """Takes `cost` commands from `room`, if it has them."""
        if cost > self.room:
            return False
        self.room -= cost
        return True
