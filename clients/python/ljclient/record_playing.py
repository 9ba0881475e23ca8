"""Plays records again: sends each command, and compares its reply with the record."""
from __future__ import annotations

import contextlib
import hashlib
from collections import deque
from typing import Callable, Collection, Deque, Iterable, Iterator, List, Optional, Sequence

from . import record
from .errors import ClientError, Refused
from .record import Answer, Entry, Mark, shown
from .record_file import RecordFile
from .record_joints import Joints, Loaded, loaded_by
from .record_plan import Arrival, Leaving, Plan
from .recording import Listener
from .user import MAX_ITEMS, User

BATCH = 64
# Room for the commands that a user sends on its own, and some more.
SPARE_ITEMS = 32
# Opens a user that plays a record, with the record's quota.
Opener = Callable[[RecordFile], User]
Tell = Callable[[str], None]


class Trouble(Exception):
    """Raised if a record cannot be played."""


class Player(Listener):
    """Compares the replies to commands with a record, and reports on each.

    note       reports a line that is not about a reply
    count      the number of replies compared
    differing  the lines of the commands whose replies differ
    trouble    why playing cannot continue; empty if it can
    loaded     what the last load has loaded, here and in the record
    """

    def __init__(self, path: str, tell: Tell, note: Tell, complain: Tell):
        self.path = path
        self.note = note
        self.count = 0
        self.differing: List[int] = []
        self.trouble = ""
        self.loaded: Optional[Loaded] = None
        self.is_renewed = False
        self._awaited: Deque[Entry] = deque()
        self._tell = tell
        self._complain = complain

    def awaits(self, entries: Iterable[Entry]) -> None:
        self._awaited.extend(entries)

    @property
    def is_done(self) -> bool:
        """Whether each awaited reply was compared."""
        return not self._awaited

    def answered(self, words: Sequence[bytes], answer: Answer) -> None:
        self.is_begun = True
        if not self._awaited or self.trouble:
            return
        entry = self._awaited.popleft()
        more = record.sum_of(answer.rest) if answer.rest else b""
        if (answer.line, answer.first, more) == (entry.line, entry.first, entry.more):
            self.count += 1
            self._tell(f"same {'-' if self.differing else entry.sum} line {entry.number}: {shown(entry.line)}")
            if entry.is_granted_of(*record.LOADS):
                self._load(entry)
        elif answer.is_from_outside:
            self.trouble = f"line {entry.number}: `{shown(entry.line)}` is answered `{shown(answer.first)}` here"
        else:
            self.count += 1
            self._differs(entry, answer)

    def unanswered(self, line: bytes) -> None:
        self.trouble = self.trouble or f"`{shown(line)}` was not answered here"

    def _load(self, entry: Entry) -> None:
        """Stores what was loaded, and reports it."""
        try:
            self.loaded = loaded_by(entry)
        except ValueError:
            self.trouble = f"line {entry.number}: `{shown(entry.line)}` is granted here, which is no load of the protocol"
            return
        self.note(f"loaded - line {entry.number}: {told_of(entry)}")

    def _differs(self, entry: Entry, answer: Answer) -> None:
        self._tell(f"differs - line {entry.number}: {shown(entry.line)}")
        if not self.differing:
            here = f"and `{shown(answer.first)}` here"
            if answer.first == entry.first:
                here = "and here too, but the lines below it are others"
            why = "; above it a new connection was begun, and another one may have changed the session" if self.is_renewed else ""
            told = f"`{shown(entry.line)}` was answered `{shown(entry.first)}`, {here}{why}"
            self._complain(f"{self.path}, line {entry.number}: {told}")
        self.differing.append(entry.number)


class Stage:
    """Where a record is played: programs of its own, one after the other, or a server."""

    def __init__(self, opener: Opener, is_server: bool, plan: Plan, player: Player):
        self._opener = opener
        self._is_server = is_server
        self._file = plan.file
        self._plan = plan
        self._player = player
        self._rooms = [0 if is_server else MAX_ITEMS - SPARE_ITEMS - played for played in plan.played]
        self.joints = Joints(plan.file.session, self._rooms.pop(0))
        self.user = self._opened()

    def look(self) -> None:
        """Reads the session as it must be after a move."""
        self.joints.look(self.user, self._player.loaded)

    def leave(self, leaving: Leaving) -> None:
        """Reads the session, and then removes it, unless a command of the record does that."""
        self.joints.leave(self.user, self._player.loaded, leaving is Leaving.MOVED)
        self._player.loaded = None
        if leaving is Leaving.DROPPED:
            return
        if leaving is Leaving.LOST or self._is_server:
            self._drop()
            self.user._listen(self._file.session, self._player)
        else:
            self.user.close()
            self.user = self._opened()
        if leaving is Leaving.MOVED:
            self.joints.room = self._rooms.pop(0)

    def play(self, entries: List[Entry]) -> None:
        """Plays some commands."""
        self._player.awaits(entries)
        with contextlib.suppress(Refused):
            self.user._ask_commands([(entry.line.decode(), entry.body) for entry in entries])
        if self._player.trouble or not self._player.is_done:
            why = self._player.trouble or f"line {entries[-1].number}: not all commands up to here were answered"
            raise Trouble(f"{self._player.path}, {why}; the file says that it needs a quota of {self._file.quota}")

    def arrive(self, arrival: Arrival) -> None:
        """Compares the session that was loaded again with its state before, and reports on it after the last comparison."""
        if arrival.load in self._plan.unlike:
            self.joints.differ()
        elif arrival.load not in self._plan.unended:
            self.joints.compare(self.user, self._player.loaded, arrival.saved)
        if arrival.is_last:
            self._player.note(f"again - line {arrival.load}: {self.joints.arrive()}")

    def close(self) -> None:
        """Drops the session from a server, and closes the user."""
        if self._is_server and not self.user.closed:
            with contextlib.suppress(ClientError):
                self._drop()
        self.user.close()

    def _opened(self) -> User:
        user = self._opener(self._file)
        user._listen(self._file.session, self._player)
        return user

    def _drop(self) -> None:
        name = self._file.session
        self.user._listen(name, None)
        if any(row.name == name for row in self.user.sessions()):
            self.user.ask(f"DROP {name}")


def parts_of(entries: Iterable[Entry], alone: Collection[int]) -> Iterator[List[Entry]]:
    """The entries in pieces. An entry that is not played, or is at one of these lines, is alone."""
    piece: List[Entry] = []
    for entry in entries:
        is_alone = entry.mark is not Mark.REPLY or entry.number in alone
        if piece and (is_alone or len(piece) == BATCH):
            yield piece
            piece = []
        if is_alone:
            yield [entry]
        else:
            piece.append(entry)
    if piece:
        yield piece


def told_of(entry: Entry) -> str:
    """A command, with the SHA-256 of its body, which may be a whole file."""
    body = f", with a body of SHA-256 {hashlib.sha256(entry.body).hexdigest()}" if entry.body else ""
    return f"{shown(entry.line)}{body}"


def left_out(entry: Entry) -> str:
    """The report on an entry that is not played."""
    where = f"skipped - line {entry.number}:"
    if entry.mark is Mark.OUTSIDE:
        return f"{where} {told_of(entry)} (it was answered {shown(entry.first)}, and nothing was changed)"
    if entry.mark is Mark.UNANSWERED:
        return f"{where} {told_of(entry)} (its reply did not come)"
    return f"{where} a new {'program' if entry.mark is Mark.MOVED else 'connection'} was begun"


def play(plan: Plan, stage: Stage, player: Player) -> None:
    """Plays a whole record, as planned. Raises Trouble if that is not possible, or if the file has changed."""
    again = RecordFile(plan.file.path)
    for piece in parts_of(again.entries(), {*plan.arrives, *plan.leaves, *plan.looks}):
        play_piece(piece, plan, stage, player)
    if again.sum != plan.file.sum or player.count != sum(plan.played):
        raise Trouble(f"cannot play {player.path}: it was changed while it was played")


def play_piece(piece: List[Entry], plan: Plan, stage: Stage, player: Player) -> None:
    """Plays one of the pieces of a record (`parts_of`), and does what is planned before and after it."""
    first = piece[0]
    if first.number in plan.looks:
        stage.look()
    if first.number in plan.leaves:
        stage.leave(plan.leaves[first.number])
    if first.mark is Mark.REPLY:
        stage.play(piece)
    else:
        player.note(left_out(first))
        player.is_renewed = player.is_renewed or first.mark is Mark.CONNECTION
    if first.number in plan.arrives:
        stage.arrive(plan.arrives[first.number])
