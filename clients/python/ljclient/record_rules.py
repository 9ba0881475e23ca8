"""The rules for what may appear where in a record, so that entries that are not played need not be trusted.

A reply is either played and compared, or has a cause outside the session, where that is possible. The table of commands in the
protocol has the refusals of each command.
"""
from __future__ import annotations

from dataclasses import dataclass, field
from typing import Dict, FrozenSet, List, Set

from . import refusals, record
from .errors import Refused
from .names import NAME
from .record import Entry, Mark, Quota

# The refusals of each command for a quota or for memory.
OF_QUOTA_AND_MEMORY: Dict[bytes, FrozenSet[int]] = {
    b"LOAD": frozenset({20, 21, 90}),
    b"LOADMIX": frozenset({20, 21, 90}),
    b"BRANCH": frozenset({22, 90}),
}
# The commands that are refused if no session has the name.
OF_A_LOADED_SESSION = record.OF_A_SESSION - frozenset(record.LOADS)
# The number of words of each well-formed command that a quota can refuse.
WORDS = {b"LOAD": 7, b"LOADMIX": 16, b"BRANCH": 3}
BODY, ENOUGH = refusals.Body.number, refusals.Enough.number


class Misplaced(Exception):
    """Raised if an entry is not allowed where it is. `is_reply`: whether its reply is wrong."""

    def __init__(self, why: str, is_reply: bool = False):
        super().__init__(why)
        self.is_reply = is_reply


def text_of(number: int) -> bytes:
    """The line of a refusal."""
    return f"ERR {number:02} {Refused.by_number[number].name}".encode()


def outside_of(verb: bytes) -> FrozenSet[int]:
    """All refusals of this command that may follow `!` in a record."""
    of_loads = {BODY} if verb in record.LOADS else set()
    of_sessions = {record.NO_SESSION} if verb in OF_A_LOADED_SESSION else set()
    return OF_QUOTA_AND_MEMORY.get(verb, frozenset()) | of_loads | of_sessions | {ENOUGH}


@dataclass
class Rules:
    """Follows a record entry by entry, and raises `Misplaced` where one is not allowed.

    is_begun    whether a session was loaded
    is_loaded   whether the session exists according to the record
    is_lost     whether a new connection has found that it is gone
    is_renewed  whether a connection was begun, and no reply since shows that the session exists
    is_moving   whether the session must be loaded in a new program
    is_stopped  whether the connection has ended, and no new one was begun
    saved       the names of the saved states
    """

    is_begun: bool = False
    is_loaded: bool = False
    is_lost: bool = False
    is_renewed: bool = False
    is_moving: bool = False
    is_stopped: bool = False
    saved: Set[bytes] = field(default_factory=set)

    def follow(self, entry: Entry, quota: Quota) -> None:
        """Processes the next entry, which has this quota above it."""
        words = record.words_of(entry.line)
        is_load = entry.is_granted_of(*record.LOADS)
        if not is_load and not self.is_begun:
            raise Misplaced("a session must begin here, with a LOAD or LOADMIX that was granted")
        if not is_load and self.is_moving:
            raise Misplaced("`moved` must be followed by a LOAD or LOADMIX that was granted")
        if self.is_stopped and entry.mark not in (Mark.CONNECTION, Mark.UNANSWERED):
            raise Misplaced("a new connection must begin here: the one above has ended")
        if entry.mark is Mark.CONNECTION:
            self.is_stopped, self.is_renewed = False, self.is_loaded
        elif entry.mark is Mark.MOVED:
            self._move()
        elif entry.mark is Mark.UNANSWERED:
            self.is_stopped = True
        elif entry.mark is Mark.OUTSIDE:
            self._refused(entry, words)
        else:
            self._replied(entry, words, quota)

    def _move(self) -> None:
        if not self.is_loaded:
            raise Misplaced("the session must be there to have moved: it is gone above")
        self.is_moving = True

    def _refused(self, entry: Entry, words: List[bytes]) -> None:
        """Processes a refusal that is not played."""
        is_gone = record.tells_that_it_is_gone(words, entry.refusal)
        number = next((each for each in outside_of(words[0]) if entry.first == text_of(each)), 0)
        if number == ENOUGH or (number == BODY and record.count_of(entry.line) is None):
            self.is_stopped = True
        elif number == record.NO_SESSION and (self.is_renewed or self.is_lost):
            self._lose()
        elif number not in OF_QUOTA_AND_MEMORY.get(words[0], ()) or not self._gets_as_far(entry.line, words):
            raise Misplaced(f"a refusal behind `!` must be one that {record.shown(words[0])} can get here", True)
        elif self.is_renewed and is_gone:
            self._lose()

    def _lose(self) -> None:
        """Notes that a new connection has found the session gone."""
        self.is_loaded, self.is_lost, self.is_renewed = False, True, False

    def _gets_as_far(self, line: bytes, words: List[bytes]) -> bool:
        """Whether a command may be refused for a quota or for memory, without an earlier refusal."""
        is_whole = len(words) == WORDS[words[0]] and len(line) <= record.MAX_COMMAND and record.count_of(line) is not None
        if words[0] in record.LOADS:
            return is_whole and (self.is_renewed or not self.is_loaded)
        return is_whole and self.is_loaded and words[2] not in self.saved and bool(NAME.match(words[2].decode("latin-1")))

    def _replied(self, entry: Entry, words: List[bytes], quota: Quota) -> None:
        """Processes a reply that is played."""
        if entry.refusal in (*record.FROM_OUTSIDE, record.NO_SESSION):
            raise Misplaced("this refusal must stand behind `!`", True)
        if self.is_begun and not self.is_loaded and words[0] not in record.LOADS:
            raise Misplaced("the session must be loaded again: it is gone above")
        if self.is_renewed and record.tells_that_it_is_gone(words, entry.refusal):
            self._lose()
        elif entry.refusal not in record.OF_FORM:
            self.is_renewed = False
        if entry.is_granted:
            self._granted(words)
            if quota.with_these(entry.atoms, len(self.saved)) != quota:
                raise Misplaced("the quota above must have room for this")

    def _granted(self, words: List[bytes]) -> None:
        """Notes what a command has changed."""
        if words[0] in record.LOADS:
            self.is_begun = self.is_loaded = True
            self.is_lost = self.is_moving = False
            self.saved.clear()
        elif words[0] == b"BRANCH":
            self.saved.update(words[2:3])
        elif words[0] == b"FORGET":
            self.saved.difference_update(words[2:3])
        elif words[0] == b"DROP":
            self.is_loaded = False
