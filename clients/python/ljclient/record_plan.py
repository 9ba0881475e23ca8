"""The contents of a record, from its first reading: how much is played, and where the session is loaded again."""
from __future__ import annotations

import enum
import hashlib
from dataclasses import dataclass, field
from typing import Dict, List, Optional, Set, Tuple

from . import record
from .files import Path
from .record import Entry, Mark
from .record_file import RecordFile


# The commands that read a session, besides an ADVANCE of 0 steps.
READS = (b"SHOW", b"DUMP", b"LIST", b"REVERSE")


@dataclass(frozen=True)
class Arrival:
    """The state that a session must have after a command, to be unchanged.

    load     the line of the load that loaded it again
    saved    the name under which this state was saved; empty for the state before it was gone
    is_last  whether it is the last one to compare for this load
    """

    load: int
    saved: bytes = b""
    is_last: bool = True


@dataclass
class Return:
    """What follows the load in a new program: saved states are saved again in their order, with tugs from each to the next.

    load   the line of the load
    saved  the names that are not yet saved again
    turns  the number of REVERSEs left before the next BRANCH or the end
    """

    load: int
    saved: List[bytes]
    turns: int = 0
    arrivals: Dict[int, Arrival] = field(default_factory=dict)

    def takes(self, entry: Entry) -> bool:
        """Whether the next command is one of these. If so, it is processed."""
        words = record.words_of(entry.line)
        if self.turns and entry.is_granted_of(b"TUG", b"REVERSE"):
            self.turns -= words[0] == b"REVERSE"
            if self.is_done:
                self.arrivals[entry.number] = Arrival(self.load)
            return True
        if self.turns or not entry.is_granted_of(b"BRANCH") or words[2:] != self.saved[:1]:
            return False
        self.arrivals[entry.number] = Arrival(self.load, self.saved.pop(0), False)
        self.turns = 2
        return True

    @property
    def is_done(self) -> bool:
        return not self.saved and not self.turns


class Leaving(enum.Enum):
    """Why a session is gone before it is loaded again."""

    DROPPED = "by its own DROP"
    LOST = "a new connection has found that the server has it no longer"
    MOVED = "it goes on in a new program"


@dataclass
class Plan:
    """The contents of a record.

    file         the record, as it was read
    played       the number of commands played, in each program
    left_out     the number of commands not played
    connections  the number of new connections
    looks        the lines before which a session is read, since its saved states are then restored and read for a move
    leaves       the lines before which a session that is loaded again is read, and why it is gone
    arrives      the lines after which a session that was loaded again is compared, and with what
    unlike       the lines of loads in a new program that are followed by something other than the saved states
    unended      the lines of loads in a new program after which the record ends before all states are saved again
    """

    file: RecordFile
    played: List[int] = field(default_factory=lambda: [0])
    left_out: int = 0
    connections: int = 0
    looks: Set[int] = field(default_factory=set)
    leaves: Dict[int, Leaving] = field(default_factory=dict)
    arrives: Dict[int, Arrival] = field(default_factory=dict)
    unlike: Set[int] = field(default_factory=set)
    unended: Set[int] = field(default_factory=set)
    _commands: "hashlib._Hash" = field(default_factory=hashlib.sha256)
    _saved: List[bytes] = field(default_factory=list)
    _restored: List[Tuple[int, bytes]] = field(default_factory=list)
    _return: Optional[Return] = None
    _gone: Optional[Tuple[int, Leaving]] = None
    _is_renewed: bool = False

    @property
    def commands(self) -> str:
        """The SHA-256 of the played commands and their bodies: the text after `>` and `:`, each line with LF."""
        return self._commands.hexdigest()

    @property
    def is_settled(self) -> bool:
        """Whether the session exists and has no saved states, so that its two frames are its whole state."""
        return self._gone is None and self._return is None and not self._saved

    def take(self, entry: Entry) -> None:
        """Processes the next entry."""
        if self._return is not None:
            self._go_on(self._return, entry)
        if entry.mark is not Mark.MOVED:
            self._restore(entry)
        if entry.mark is Mark.REPLY:
            self._reply(entry)
        elif entry.mark is Mark.CONNECTION:
            self.connections += 1
            self._is_renewed = True
        elif entry.mark is Mark.MOVED:
            self.played.append(0)
            self._gone = entry.number, Leaving.MOVED
            if self._restored and [name for _, name in self._restored] == self._saved:
                self.looks.add(self._restored[0][0])
        else:
            self.left_out += 1
            self._find_gone(entry)

    def _reply(self, entry: Entry) -> None:
        if record.words_of(entry.line)[0] in record.LOADS and any(self.played):
            self._load(entry)
        elif entry.is_granted_of(b"DROP"):
            self._gone = entry.number, Leaving.DROPPED
        self._save(entry)
        self._is_renewed = self._is_renewed and entry.refusal in record.OF_FORM
        self.played[-1] += 1
        for row in record.sent_lines(entry.line, entry.body):
            self._commands.update(row[2:] + b"\n")

    def _find_gone(self, entry: Entry) -> None:
        """Notes if a command shows that the session is gone. A load shows this only over a new connection."""
        is_known = self._is_renewed or entry.refusal == record.NO_SESSION
        is_gone = entry.is_granted_of(*record.LOADS) or record.tells_that_it_is_gone(record.words_of(entry.line), entry.refusal)
        if self._gone is None and is_known and is_gone:
            self._gone = entry.number, Leaving.LOST

    def _load(self, entry: Entry) -> None:
        """Notes that the session is loaded again. For a refused load it must be gone too."""
        self._find_gone(entry)
        if self._gone is None:
            return
        line, leaving = self._gone
        self.leaves[line] = leaving
        if entry.is_granted:
            number = entry.number
            self.arrives[number] = Arrival(number)
            self._gone = None
            if leaving is Leaving.MOVED and self._saved:
                self._return = Return(number, self._saved)
                self.unended = {number}

    def _go_on(self, following: Return, entry: Entry) -> None:
        """Processes what follows the load in a new program. It is compared once all states are saved again."""
        is_taken = following.takes(entry)
        if is_taken and not following.is_done:
            return
        if is_taken:
            del self.arrives[following.load]
            self.arrives.update(following.arrivals)
        else:
            self.unlike.add(following.load)
        self._return, self.unended = None, set()

    def _restore(self, entry: Entry) -> None:
        """Tracks states that are restored and only read, in order of saving, as by a client that moves a session."""
        words = record.words_of(entry.line)
        if entry.is_granted_of(b"RESTORE"):
            if words[2:] != self._next_restored:
                self._restored = []
            if words[2:] == self._next_restored:
                self._restored.append((entry.number, words[2]))
        elif not entry.is_granted_of(*READS) and not (entry.is_granted_of(b"ADVANCE") and words[2:] == [b"0"]):
            self._restored = []

    @property
    def _next_restored(self) -> List[bytes]:
        """The name to restore next. If all were restored, a list that no words of a command equal."""
        return self._saved[len(self._restored) : len(self._restored) + 1] or [b"", b""]

    def _save(self, entry: Entry) -> None:
        """Tracks the saved states, in order of saving."""
        name = record.words_of(entry.line)[2:3]
        if entry.is_granted_of(*record.LOADS):
            self._saved = []
        elif entry.is_granted_of(b"BRANCH"):
            self._saved += name
        elif entry.is_granted_of(b"FORGET"):
            self._saved = [each for each in self._saved if [each] != name]


def plan_of(path: Path) -> Plan:
    """The contents of a record. Raises `Damaged`, with the line, if it is not as it was written."""
    plan = Plan(RecordFile(path))
    for entry in plan.file.entries():
        plan.take(entry)
    return plan
