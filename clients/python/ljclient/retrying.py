"""A connection that is made again if it is lost, and continues from there.

It has the methods of a `wire.Wire`. `lost_replies` finds out which of the commands under way must be sent again.
"""
from __future__ import annotations

import contextlib
import itertools
import time
from collections import deque
from typing import Callable, Deque, Iterable, Iterator, List, NoReturn, Optional, Sequence, Tuple, TypeVar, Union

from .errors import ClientError, Closed, ConnectionLost, Refused, TimedOut, Undecided, refusal_of
from .expected import Sessions
from .lost_replies import Found, asked_of, batch_of, decide, drift_of, followed, is_read, lacking, parsed_verb, rows_of, saved_of
from .record import Answer, Mark
from .state import Command
from .wire import TICK_SECONDS, Listener, Reply, Wire

FIRST_WAIT = 0.05
LONGEST_WAIT = 5.0
# It reconnects after at most this many losses without a reply between them.
MOST_LOSSES = 20
# The most commands in a batch.
MOST_LOOKED_AT = 4096
# Room for a connection's own commands: a LIST, and one or two for each session and each branch.
OWN_COMMANDS = 512
Lost = (ConnectionLost, TimedOut)
Told = TypeVar("Told")
Made = TypeVar("Made")
# Opens a connection within a number of seconds.
Open = Callable[[float], Wire]


def tried_within(make: Callable[[float], Made], seconds: float, tell: Callable[[float], None] = lambda waited: None) -> Made:
    """The result of `make`, which is called again if the connection is lost, with growing waits, until `seconds` are over. Then the
    last error is raised.

    Each try may take a third of the time left, or five seconds if that is more, so a try without an answer does not use all of it.
    """
    start, wait = time.monotonic(), FIRST_WAIT
    end = start + seconds
    while True:
        left = end - time.monotonic()
        try:
            return make(max(min(left, max(left / 3, LONGEST_WAIT)), FIRST_WAIT))
        except Lost:
            if time.monotonic() >= end:
                raise
        _pause(min(time.monotonic() + wait, end), start, tell)
        wait = min(2 * wait, LONGEST_WAIT)


def _pause(until: float, start: float, tell: Callable[[float], None]) -> None:
    """Waits, and calls `tell` every quarter of a second with the seconds since `start`."""
    while (rest := until - time.monotonic()) > 0:
        tell(time.monotonic() - start)
        time.sleep(min(rest, TICK_SECONDS))


class RetryingWire:
    """A dialogue that outlasts its connections.

    wire       the first connection
    open_wire  opens the next ones
    seconds    how long it tries to reconnect
    timeout    how long each reply may take
    """

    def __init__(self, wire: Wire, open_wire: Open, seconds: float, timeout: float):
        self.listener: Optional[Listener] = None
        self._wire = wire
        self._open = open_wire
        self._seconds = seconds
        self._timeout = wire.timeout = timeout
        self._sessions: Optional[Sessions] = None
        # The commands of a batch that are not answered yet, and the answers to the others.
        self._batch: Deque[Command] = deque()
        self._answers: List[Answer] = []
        self._sent: List[str] = []
        self._lost: Optional[ClientError] = None
        self._losses = 0
        self._is_own = False
        self._is_over = False

    @property
    def timeout(self) -> float:
        """As `Wire.timeout`."""
        return self._timeout

    @timeout.setter
    def timeout(self, seconds: float) -> None:
        self._timeout = self._wire.timeout = seconds

    @property
    def on_wait(self) -> Optional[Callable[[str, float], None]]:
        """As `Wire.on_wait`. It is called while there is no connection, too."""
        return self._wire.on_wait

    @on_wait.setter
    def on_wait(self, tell: Optional[Callable[[str, float], None]]) -> None:
        self._wire.on_wait = tell

    @property
    def asked(self) -> int:
        """The number of commands that this connection has used up, with the reserve for its own commands."""
        return self._wire.asked + OWN_COMMANDS

    @property
    def closed(self) -> bool:
        """Whether no more commands can be sent."""
        return self._wire.closed and self._lost is None

    @property
    def is_idle(self) -> bool:
        """Whether all commands have been answered."""
        return not self._batch and self._lost is None and self._wire.is_idle

    @property
    def unanswered(self) -> List[str]:
        """The command lines that are not answered yet."""
        return [line for line, _ in self._batch]

    def catch_up(self) -> None:
        """Waits until all commands are answered."""
        self.pass_over()
        if self._wire.closed:
            self._wire.catch_up()

    def pass_over(self) -> None:
        """Waits for the replies that were not read because of an interrupt."""
        self._finish()
        self._answers.clear()

    def ask(self, line: str, body: bytes = b"") -> Reply:
        """The reply to a command. A refusal is raised."""
        return self.ask_all([(line, body)])[0]

    def ask_all(self, commands: Iterable[Command]) -> List[Reply]:
        """The replies to many commands. If some are refused, the first refusal is raised when all are answered."""
        granted: List[Reply] = []
        refused: List[Refused] = []
        for answer in self._answers_to(list(commands)):
            told = _reply_of(answer)
            if isinstance(told, Refused):
                refused.append(told)
            else:
                granted.append(told)
        if refused:
            raise refused[0]
        return granted

    def ask_text(self, line: str) -> Tuple[List[str], bytes]:
        """The words after `OK` in the reply to a command, and the bytes of the lines below them. A refusal is raised."""
        if self.listener is None and is_read(line):
            return self._read([line], lambda: self._wire.ask_text(line))
        words, lines = self.ask(line)
        return words, "\n".join([*lines, ""]).encode()

    def ask_rows(self, lines: Sequence[str]) -> bytes:
        """The bytes of the replies to many commands with one reply line each."""
        if self.listener is None and all(map(is_read, lines)):
            return self._read(lines, lambda: self._wire.ask_rows(lines))
        replies = self.ask_all([(line, b"") for line in lines])
        return "".join(" ".join(["OK", *reply.words]) + "\n" for reply in replies).encode()

    def close(self, why: str = "the connection was closed") -> None:
        """Closes the stream. Nothing is sent and nothing is awaited."""
        if self._wire.closed and self._lost is None:
            return
        self._lost, lines = None, self.unanswered
        self._batch.clear()
        self._wire.listener = None
        self._wire.close(why)
        if self.listener is not None:
            self.listener.unanswered(lines)

    def answered(self, answer: Answer) -> None:
        """Receives a command of the batch and its reply."""
        self._batch.popleft()
        self._answers.append(answer)
        self._sessions = followed(self._sessions, answer)
        self._losses = 0
        if self.listener is not None and not self._is_own:
            self.listener.answered(answer)

    def unanswered_of_wire(self, lines: Sequence[str]) -> None:
        """Receives the command lines that were sent, but not answered, when a connection ended."""
        self._sent = list(lines)

    def _answers_to(self, commands: Sequence[Command]) -> Iterator[Answer]:
        """The answers to commands, batch by batch."""
        self.pass_over()
        left = deque(commands)
        if any(parsed_verb(line) == "BYE" for line, _ in commands):
            self._is_over = True
        while left:
            self._learn(left[0][0])
            lines = [line for line, _ in itertools.islice(left, MOST_LOOKED_AT)]
            count = len(lines) if self._sessions is None else batch_of(self._sessions, lines)
            self._batch = deque(left.popleft() for _ in range(count))
            self._finish()
            yield from self._answers
            self._answers.clear()
            if self._wire.closed:
                return

    def _learn(self, line: str) -> None:
        """Asks for what must be known before a command is sent."""
        if is_read(line) or self._is_over:
            return
        while (own := "LIST" if self._sessions is None else lacking(self._sessions, line)) is not None:
            known, self._is_own, self._batch = self._sessions, True, deque([(own, b"")])
            try:
                self._finish()
            finally:
                self._is_own = False
                self._answers.clear()
            if known is self._sessions:
                return

    def _read(self, lines: Sequence[str], ask: Callable[[], Told]) -> Told:
        """The result of reading commands without a listener. They are sent again if the connection is lost."""
        self.pass_over()
        while True:
            self._batch = deque((line, b"") for line in lines)
            self._wire.listener = None
            try:
                told = ask()
                self._batch.clear()
                self._losses = 0
                return told
            except Lost as lost:
                self._again(lost)
            except ClientError:
                self._batch.clear()
                raise
            except BaseException:
                self._batch = deque((line, b"") for line in self._wire.unanswered)
                raise

    def _finish(self) -> None:
        """Sends the batch until all of its commands are answered, over one connection or more."""
        if self._lost is not None:
            self._again(self._lost)
        while self._batch:
            self._wire.listener = _BatchListener(self)
            try:
                self._ask_batch()
            except Lost as lost:
                self._again(lost)
            except Closed:
                self._batch.clear()
                raise
            except BaseException:
                self._leave_unsent(len(self._wire.unanswered))
                raise

    def _ask_batch(self) -> None:
        """Sends the commands of the batch, or waits for the replies that were not read because of an interrupt."""
        with contextlib.suppress(Refused):
            if self._wire.unanswered:
                self._wire.catch_up()
            else:
                self._wire.ask_all(list(self._batch))
        if self._wire.closed:
            self._batch.clear()

    def _leave_unsent(self, sent: int) -> None:
        """Removes the commands from the batch that were not sent because of an interrupt."""
        while len(self._batch) > sent:
            self._batch.pop()

    def _again(self, lost: ClientError) -> None:
        """Makes another connection, and leaves in the batch only what is still to be sent."""
        if self._lost is None:
            self._losses += 1
        if self._is_over or self._losses > MOST_LOSSES:
            self._give_up(lost)
        self._lost = lost
        try:
            wire, found = tried_within(self._looked, self._seconds, self._tell)
        except Lost as error:
            self._give_up(type(lost)(f"{lost}; no other connection in {self._seconds:g} s ({error})"), error)
        except ClientError as error:
            self._give_up(error, lost)
        except BaseException:
            self._leave_unsent(len(self._sent))
            raise
        wire.on_wait, self._wire = self._wire.on_wait, wire
        self._settle(found, lost)
        self._lost = None
        if self.listener is not None:
            self.listener.told(Mark.CONNECTION)

    def _settle(self, found: Found, lost: ClientError) -> None:
        """Removes the commands from the batch that were done, and passes them to the listener."""
        if self._sessions is None:
            if not all(is_read(line) for line, _ in self._batch):
                self._give_up(Undecided(self._batch[0][0], ["what the sessions were before it is not known"]), lost)
            return
        try:
            done = decide(self._sessions, list(self._batch), found)
        except Undecided as error:
            self._give_up(error, lost)
        for reply in done.replies:
            line, body = self._batch[0]
            self.answered(Answer(line.encode(), body, reply))
        self._sessions = done.sessions

    def _looked(self, seconds: float) -> Tuple[Wire, Found]:
        """Another connection, and what it finds."""
        wire = self._open(seconds)
        wire.timeout = self._timeout
        try:
            return wire, self._look(wire)
        except BaseException:
            wire.close()
            raise

    def _look(self, wire: Wire) -> Found:
        """What a connection finds at the server."""
        rows = rows_of(wire.ask("LIST").lines)
        if self._sessions is None:
            return Found(rows)
        lines = asked_of(self._sessions, list(self._batch), rows)
        replies = dict(zip(lines, wire.ask_all([(line, b"") for line in lines])))
        saved = {line[5:]: saved_of(reply.lines) for line, reply in replies.items() if line.startswith("LIST ")}
        drifts = {line[8:]: drift_of(["OK", *reply.words]) for line, reply in replies.items() if line.startswith("MEASURE ")}
        return Found(rows, saved, drifts)

    def _tell(self, waited: float) -> None:
        if self.on_wait is not None and self._batch:
            self.on_wait(self._batch[0][0], waited)

    def _give_up(self, error: ClientError, cause: Optional[ClientError] = None) -> NoReturn:
        """Closes the connection and raises the error."""
        if error.unanswered is None and self._batch:
            error.unanswered = self._batch[0][0]
        self._lost, lines = None, self.unanswered
        self._batch.clear()
        self._answers.clear()
        self._wire.listener = None
        self._wire.close(f"the connection was closed: {error}")
        if self.listener is not None:
            self.listener.unanswered(lines)
        raise error from cause


class _BatchListener:
    """The listener for the commands of a batch."""

    def __init__(self, wire: RetryingWire):
        self.answered = wire.answered
        self.unanswered = wire.unanswered_of_wire

    def told(self, mark: Mark) -> None:
        """Is never called."""


def _reply_of(answer: Answer) -> Union[Reply, Refused]:
    words = answer.first.decode("ascii").split(" ")
    if words[0] == "OK":
        return Reply(words[1:], b"\n".join(answer.rest).decode("ascii").split("\n") if answer.rest else [])
    return refusal_of(words, answer.line.decode())
