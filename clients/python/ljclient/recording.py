"""Records of sessions: commands and replies are written to a file before the caller gets the reply."""
from __future__ import annotations

import contextlib
import os
from collections import deque
from typing import Callable, Deque, Dict, Iterator, List, Optional, Sequence, Set

from . import record
from .errors import NotRecorded
from .files import Path, checked_target
from .interrupts import held
from .record import Answer, Chain, Mark, Quota
from .record_target import RecordTarget
from .wire import Dialogue, Wire

# The commands that change what the session has.
FOLLOWED = (*record.LOADS, b"BRANCH", b"FORGET", b"DROP")
# Returns the version lines of a program.
Versions = Callable[[], List[str]]


class Listener:
    """Receives the commands of one session, each with its reply."""

    is_begun = False
    is_over = False

    def answered(self, words: Sequence[bytes], answer: Answer) -> None:
        """Receives the words of a command, and its reply."""

    def unanswered(self, line: bytes) -> None:
        """Receives a command whose reply will not come."""

    def told(self, mark: Mark) -> None:
        """Notes that a new connection was begun, or that the session is loaded again in a new program."""

    def flush(self) -> None:
        """Stores what was received, before the caller gets the reply. Raises `NotRecorded` if that fails."""

    def close(self) -> None:
        """Notes that nothing more comes."""


class Record(Listener):
    """The record of a session while it is written. It begins with a granted LOAD, and ends when the session does."""

    def __init__(self, path: Path, versions: Sequence[str], continues: str = ""):
        self.path = os.fspath(path)
        self.is_loaded = False
        self._is_renewed = False
        self._continues = continues
        self._file = RecordTarget(checked_target(path), self.path)
        self._versions = versions
        self._chain = Chain()
        self._quota = Quota()
        self._atoms = 0
        self._saved: Set[bytes] = set()
        self._pending: List[bytes] = []

    @property
    def sum(self) -> str:
        """The SHA-256 of what is written so far."""
        return self._chain.sum

    def is_of(self, path: Path) -> bool:
        """Whether the record is written to this file."""
        return self._file.target == os.path.realpath(path)

    def answered(self, words: Sequence[bytes], answer: Answer) -> None:
        is_load, is_granted = words[0] in record.LOADS, answer.first.startswith(b"OK ")
        is_gone = self._is_renewed and record.tells_that_it_is_gone(words, answer.refusal)
        if self.is_over or not (self.is_loaded or is_load) or not (self.is_begun or is_granted):
            return
        if answer.refusal in record.OF_NO_COMMAND or (answer.refusal == record.NO_SESSION and not self._is_renewed):
            self.close()
            return
        if not self.is_begun:
            self._begin()
        self._is_renewed = self._is_renewed and answer.refusal in record.OF_FORM
        if is_gone:
            self.is_loaded = False
        elif words[0] in FOLLOWED:
            self._follow(words, answer, is_granted)
        self._tell(*record.sent_lines(answer.line, answer.body), *record.reply_lines(answer))
        if not self.is_loaded:
            self.close()

    def unanswered(self, line: bytes) -> None:
        if self.is_begun and not self.is_over:
            self._tell(Mark.UNANSWERED.value + b" " + line)

    def told(self, mark: Mark) -> None:
        if self.is_begun and not self.is_over:
            self._is_renewed = mark is Mark.CONNECTION
            self._tell(mark.value)

    def flush(self) -> None:
        with held():
            try:
                if self._pending:
                    self._file.write(b"".join(self._pending))
                    self._pending.clear()
            except OSError as error:
                self.is_over = True
                raise NotRecorded(f"cannot write the record {self.path}: {error.strerror or error}; nothing more is recorded") from error
            finally:
                if self.is_over:
                    self._file.close()

    def close(self) -> None:
        if not self.is_over and self.is_begun:
            self._tell(Mark.END.value)
        self.is_over = True

    def give_up(self) -> None:
        """Leaves the file as it was, since the session was not loaded."""
        self.is_over = True
        self._file.give_up()

    def _begin(self) -> None:
        """Writes the lines above the first command."""
        from . import __version__

        self.is_begun = True
        self._pending.append(record.HEAD + b"\n")
        self._tell(f"client ljclient {__version__}".encode(), *(f"program {line}".encode() for line in self._versions))
        if self._continues:
            self._tell(f"{Mark.CONTINUES.value.decode()} {self._continues}".encode())

    def _follow(self, words: Sequence[bytes], answer: Answer, is_granted: bool) -> None:
        """Tracks what the session has, and writes a larger quota before the command that needs it."""
        if is_granted and words[0] in record.LOADS:
            self.is_loaded, self._atoms, self._saved = True, int(answer.first.split(b" ")[-1]), set()
        elif is_granted and words[0] == b"BRANCH":
            self._saved.add(words[2])
        elif is_granted and words[0] == b"FORGET":
            self._saved.discard(words[2])
        elif is_granted and words[0] == b"DROP":
            self.is_loaded = False
        needed = self._quota.with_these(self._atoms, len(self._saved))
        if needed != self._quota:
            self._quota = needed
            self._tell(record.quota_line(needed))

    def _tell(self, *lines: bytes) -> None:
        self._pending += map(self._chain.line_of, lines)


class Pause(Listener):
    """Holds back a session's commands from its listener, until it is known whether they may be left out.

    may_be_left_out  whether all commands were answered over this connection, and none was a load or DROP
    """

    def __init__(self, listener: Listener):
        self.listener = listener
        self.may_be_left_out = True
        self._heard: Deque[Callable[[], None]] = deque()

    def answered(self, words: Sequence[bytes], answer: Answer) -> None:
        self._keep(lambda: self.listener.answered(words, answer), words[0] not in (*record.LOADS, b"DROP"))

    def unanswered(self, line: bytes) -> None:
        self._keep(lambda: self.listener.unanswered(line), False)

    def told(self, mark: Mark) -> None:
        self._keep(lambda: self.listener.told(mark), False)

    def flush(self) -> None:
        try:
            self.listener.flush()
        finally:
            self.is_over = self.listener.is_over

    def close(self) -> None:
        self.tell()
        self.listener.close()

    def tell(self) -> None:
        """Passes all commands to the listener, in order."""
        while self._heard:
            self._heard.popleft()()

    def _keep(self, tell: Callable[[], None], may_be_left_out: bool) -> None:
        self._heard.append(tell)
        self.may_be_left_out = self.may_be_left_out and may_be_left_out


class Notes:
    """Collects the replies to all commands of a wire, of any session."""

    def __init__(self) -> None:
        self.answers: List[Answer] = []

    def of(self, wire: Wire) -> Wire:
        """The wire, whose answers are noted from now on."""
        wire.listener = self
        return wire

    def answered(self, answer: Answer) -> None:
        self.answers.append(answer)

    def unanswered(self, lines: Sequence[str]) -> None:
        pass

    def told(self, mark: Mark) -> None:
        pass


class Listeners:
    """The listeners of a user's sessions, one for each name."""

    def __init__(self) -> None:
        self.by_name: Dict[str, Listener] = {}

    def attach(self, wire: Dialogue) -> None:
        """Makes a wire report to these listeners, if there are any."""
        wire.listener = self if self.by_name else None

    def answered(self, answer: Answer) -> None:
        words = record.words_of(answer.line)
        listener = self.by_name.get(record.session_of(words))
        if listener is not None:
            listener.answered(words, answer)

    def unanswered(self, lines: Sequence[str]) -> None:
        for line in map(str.encode, lines):
            listener = self.by_name.get(record.session_of(record.words_of(line)))
            if listener is not None:
                listener.unanswered(line)

    def told(self, mark: Mark) -> None:
        for listener in self.by_name.values():
            listener.told(mark)

    def put(self, name: str, listener: Optional[Listener]) -> None:
        """Sets the listener of a session; None for none."""
        self.by_name.pop(name, None)
        if listener is not None:
            self.by_name[name] = listener

    def record_of(self, name: str) -> Optional[Record]:
        """The record that is written of this session, if there is one."""
        listener = self.by_name.get(name)
        return listener if isinstance(listener, Record) else None

    def writes(self, name: str, path: Optional[Path]) -> bool:
        """Whether the record of this session is written to this file."""
        record = self.record_of(name)
        return path is not None and record is not None and record.is_of(path)

    @contextlib.contextmanager
    def paused(self, name: str) -> Iterator[None]:
        """Withholds a session's commands in this block from its listener. If it fails, all are passed on, in order.

        All are passed on too if a new connection or program was begun within it. In nested blocks the outer block decides.
        """
        listener = self.by_name.get(name)
        if listener is None or isinstance(listener, Pause):
            yield
            return
        pause = self.by_name[name] = Pause(listener)
        try:
            yield
        except BaseException:
            pause.may_be_left_out = False
            raise
        finally:
            with held():
                if not pause.may_be_left_out:
                    pause.tell()
                if self.by_name.get(name) is pause:
                    self.by_name[name] = listener
                self.flush()

    def moved(self, answers: Sequence[Answer]) -> None:
        """Notes that these commands loaded the sessions in a new program."""
        self.told(Mark.MOVED)
        for answer in answers:
            self.answered(answer)

    def flush(self) -> None:
        """Flushes all listeners, and removes those that are over. The first `NotRecorded` is raised at the end."""
        faults: List[NotRecorded] = []
        for name, listener in list(self.by_name.items()):
            try:
                listener.flush()
            except NotRecorded as error:
                faults.append(error)
            if listener.is_over:
                del self.by_name[name]
        if faults:
            raise faults[0]

    def close(self) -> None:
        """Closes all listeners, and flushes them."""
        for listener in self.by_name.values():
            listener.close()
        self.flush()
