"""The changes that a record makes to its session, by the number of steps made. Two records of one trajectory have the same changes,
however their steps are divided, and whatever they read in between."""
from __future__ import annotations

from dataclasses import dataclass, field
from typing import Dict, Iterator, List, Optional, Tuple

from . import record
from .files import Path
from .record import Entry, Mark
from .record_file import RecordFile
from .record_joints import Loaded, Present, loaded_by, present_of
from .record_parts import STEP_AT, steps_of
from .user import User

# The commands that change a session or its saved states, except those that make steps.
CHANGES = (*record.LOADS, b"REVERSE", b"TUG", b"BRANCH", b"RESTORE", b"FORGET", b"DROP")
STEPS = (b"ADVANCE", b"START")
Words = Tuple[bytes, ...]


@dataclass
class Moment:
    """The commands of a record between two steps.

    made     the number of steps made before
    changes  the commands that change the session, in order
    told     the other replies, by the number of changes before them and the words of the command
    is_end   whether the record ends here
    """

    made: int
    changes: List[Entry] = field(default_factory=list)
    told: Dict[Tuple[int, Words], Entry] = field(default_factory=dict)
    is_end: bool = False


def moments_of(path: Path) -> Iterator[Moment]:
    """The moments of a record at which it does something, and its end."""
    moment = Moment(0)
    for entry in RecordFile(path).entries():
        if entry.mark is not Mark.REPLY:
            continue
        steps = steps_of(entry)
        if steps:
            yield moment
            moment = Moment(moment.made + steps)
        if entry.is_granted_of(*CHANGES):
            moment.changes.append(entry)
        else:
            words = (b"step",) if entry.is_granted_of(*STEPS) else command_of(entry)
            moment.told[len(moment.changes), words] = entry
    moment.is_end = True
    yield moment


def command_of(entry: Entry) -> Words:
    """The words of a command without the session name. The body of a load replaces its count."""
    verb, _, *words = record.words_of(entry.line)
    if verb in record.LOADS:
        words[-1] = entry.body
    return verb, *words


def reply_of(entry: Entry) -> Words:
    """The words of a reply without the session name, and the SHA-256 of its further lines. For steps, only the step number."""
    words = entry.first.split(b" ")
    if entry.is_granted_of(*STEPS):
        return (words[STEP_AT[words[1]]],)
    return (*words[:2], *words[3:], entry.more) if entry.is_granted else tuple(words)


class Replay:
    """Plays a record from its start up to a requested moment, without the commands that only read.

    made     the number of steps made
    changes  the number of changes since then
    loaded   how its atoms interact
    """

    def __init__(self, path: Path, user: User):
        self.made = 0
        self.changes = 0
        self.loaded: Optional[Loaded] = None
        self._user = user
        self._left = 0
        self._name = ""
        self._next: Optional[Entry] = None
        self._entries = (
            entry for entry in RecordFile(path).entries() if entry.mark is Mark.REPLY and (steps_of(entry) or entry.is_granted_of(*CHANGES))
        )

    def go(self, made: int, changes: int) -> None:
        """Plays up to `made` steps, and from there up to `changes` changes."""
        while self.made < made:
            if not self._left:
                self._play(self._take())
            steps = min(self._left, made - self.made)
            if steps:
                self.step(steps)
        while self.changes < changes:
            self._play(self._take())

    def step(self, steps: int) -> None:
        """Makes `steps` steps."""
        self._user.ask(f"ADVANCE {self._name} {steps}")
        self._left, self.made, self.changes = self._left - steps, self.made + steps, 0

    def present(self) -> Optional[Present]:
        """The session as it is; None if it is gone."""
        return present_of(self._user, self._name, self.loaded) if self.loaded else None

    def _take(self) -> Entry:
        return next(self._entries)

    def _play(self, entry: Entry) -> None:
        if steps := steps_of(entry):
            self._left = steps
            return
        verb, name = record.words_of(entry.line)[:2]
        if verb in record.LOADS:
            if self.loaded:
                self._user.ask(f"DROP {self._name}")
            self._name, self.loaded = name.decode(), loaded_by(entry)
        elif verb == b"DROP":
            self.loaded = None
        self._user._ask_commands([(entry.line.decode(), entry.body)])
        self.changes += 1
