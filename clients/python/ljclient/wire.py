"""Commands out and replies in, over a socket or a child process.

A wire reads while it writes, so neither side's buffers fill up while it waits for the other, however many commands are
under way. Each wait has a time limit. A reply states its number of lines, so replies that a keyboard interrupt has left unread
are skipped before the next command.
"""
from __future__ import annotations

import contextlib
import itertools
import re
import selectors
import time
from collections import deque
from typing import Callable, Deque, Dict, Iterable, List, NamedTuple, Optional, Protocol, Sequence, Tuple, Union

from .arrays import count_of_lines, has_others
from .errors import BadReply, ClientError, Closed, ConnectionLost, Refused, TimedOut, not_answered, refusal_of, shown
from .interrupts import held
from .record import Answer, Mark
from .transport import Transport

MAX_UNDER_WAY = 1024
MAX_OUTGOING = 1 << 20
MAX_COMMAND = 256
MAX_LINE = 4096
MAX_LINES = 10_000
PIECE = 1 << 16
TICK_SECONDS = 0.25
ENDS_THE_CONNECTION = (1, 4, 5, 8)
# The bytes that replies may have: printable ASCII characters, and line ends.
PLAIN = b"\n" + bytes(range(0x20, 0x7F))
NOT_PLAIN = re.compile(rb"[^\n -~]")


class Reply(NamedTuple):
    """A reply: the words of its first line after `OK`, and the lines after that."""

    words: List[str]
    lines: List[str]


def checked_timeout(seconds: float) -> float:
    """A time limit. Raises ValueError unless it is finite and above 0: nothing is awaited forever."""
    if not 0 < seconds < float("inf"):
        raise ValueError(f"timeout must be a finite number of seconds above 0, got {seconds!r}")
    return seconds


def first_line_of_others(text: bytes) -> bytes:
    """The first line of a text with bytes that replies do not have."""
    found = NOT_PLAIN.search(text)
    at = len(text) if found is None else found.start()
    return text[text.rfind(b"\n", 0, at) + 1 :].partition(b"\n")[0]


class Listener(Protocol):
    """A listener for each command and its reply, and for commands whose replies will not come."""

    def answered(self, answer: Answer) -> None:
        """Receives a command and its reply, before the caller does."""

    def unanswered(self, lines: Sequence[str]) -> None:
        """Receives commands that were sent, but whose replies will not come."""

    def told(self, mark: Mark) -> None:
        """Receives the mark of a new connection."""


class Dialogue(Protocol):
    """The dialogue of a user: a `Wire`, or one that is made again if it is lost (`retrying`)."""

    timeout: float
    on_wait: Optional[Callable[[str, float], None]]
    listener: Optional[Listener]

    @property
    def asked(self) -> int:
        """The number of commands that a connection has used up."""

    @property
    def closed(self) -> bool:
        """As `Wire.closed`."""

    @property
    def is_idle(self) -> bool:
        """As `Wire.is_idle`."""

    @property
    def unanswered(self) -> List[str]:
        """As `Wire.unanswered`."""

    def catch_up(self) -> None:
        """As `Wire.catch_up`."""

    def pass_over(self) -> None:
        """As `Wire.pass_over`."""

    def ask(self, line: str, body: bytes = b"") -> Reply:
        """As `Wire.ask`."""

    def ask_all(self, commands: Iterable[Tuple[str, bytes]]) -> List[Reply]:
        """As `Wire.ask_all`."""

    def ask_text(self, line: str) -> Tuple[List[str], bytes]:
        """As `Wire.ask_text`."""

    def ask_rows(self, lines: Sequence[str]) -> bytes:
        """As `Wire.ask_rows`."""

    def close(self, why: str = "the connection was closed") -> None:
        """As `Wire.close`."""


class Wire:
    """A dialogue with `ljserve`: one command after the other, or many under way.

    on_wait  if set, it is called each quarter of a second in which nothing is received, with the command line whose reply is
             awaited, and the number of seconds without input
    """

    def __init__(self, transport: Transport, timeout: float):
        self.timeout = timeout
        self.on_wait: Optional[Callable[[str, float], None]] = None
        self.asked = 0
        self.listener: Optional[Listener] = None
        # The bodies of commands that are under way, by the number of the command, for the listener.
        self._bodies: Dict[int, bytes] = {}
        self._transport = transport
        self._outgoing = bytearray()
        self._lines: Deque[bytes] = deque()
        self._partial = b""
        self._unsplit = 0
        self._keeps_whole = False
        self._unanswered: Deque[str] = deque()
        self._at_end = ""
        self._torn = False
        self._closed = ""
        self._selector = selectors.DefaultSelector()
        self._selector.register(transport.source(), selectors.EVENT_READ)

    @property
    def closed(self) -> bool:
        """Whether no more commands can be asked."""
        return bool(self._closed)

    @property
    def is_idle(self) -> bool:
        """Whether each command that was asked has been answered."""
        return not self._unanswered and not self._torn

    @property
    def unanswered(self) -> List[str]:
        """The command lines that were asked and are not answered yet."""
        return list(self._unanswered)

    def catch_up(self) -> None:
        """Waits until each command that was asked is answered. These replies are skipped."""
        self._begin()

    def ask(self, line: str, body: bytes = b"") -> Reply:
        """The reply to a command. A refusal is raised."""
        return self.ask_all([(line, body)])[0]

    def ask_all(self, commands: Iterable[Tuple[str, bytes]]) -> List[Reply]:
        """The replies to many commands, sent without waiting for the replies to earlier ones.

        If some are refused, the first refusal is raised when all are answered.
        """
        self._begin()
        answers: List[Union[Reply, Refused]] = []
        for line, body in commands:
            while self._unanswered and (len(self._unanswered) >= MAX_UNDER_WAY or len(self._outgoing) > MAX_OUTGOING):
                answers.append(self._next_answer())
                if self.closed:
                    break
            if self.closed:
                break
            self._post(line, body)
        return self._granted(answers)

    def ask_text(self, line: str) -> Tuple[List[str], bytes]:
        """The words after `OK` in the reply to a command, and its further lines as received. A refusal is raised."""
        self._begin()
        self._post(line, b"")
        if whole := self._whole_reply():
            return whole
        taken = self._next_taken()
        if isinstance(taken, Refused):
            raise taken
        words, lines = taken
        return words, b"\n".join([*lines, b""])

    def ask_rows(self, lines: Sequence[str]) -> bytes:
        """The reply lines to many commands that are answered by one line each, for callers that read them all at once.

        They are only checked to begin with `OK`. If some are refused, the first refusal is raised when
        all are answered.
        """
        self._begin()
        if not lines:
            return b""
        self._put("\n".join(lines).encode() + b"\n", lines)
        if whole := self._whole_rows(len(lines)):
            return whole
        self._gather(len(lines))
        text = b"\n".join([*itertools.islice(self._lines, len(lines)), b""])
        if text[:3] != b"OK " or text.count(b"\nOK ") < len(lines) - 1:
            return "".join(" ".join(["OK", *reply.words]) + "\n" for reply in self._granted([])).encode()
        with contextlib.nullcontext() if self.listener is None else held():
            self._torn = True
            self._lines = deque(itertools.islice(self._lines, len(lines), None))
            self._unanswered.clear()
            self._torn = False
            if self.listener is not None:
                for line, row in zip(lines, text.split(b"\n")):
                    self.listener.answered(Answer(line.encode(), b"", row))
        return text

    def pass_over(self) -> None:
        """Waits for the replies that an interrupt has left unread."""
        while self._unanswered and not self._closed and not self._torn:
            self._next_answer()

    def close(self, why: str = "the connection was closed") -> None:
        """Closes the stream. Nothing is asked and nothing is awaited."""
        if not self._closed:
            self._closed = why
            if self.listener is not None:
                self.listener.unanswered(list(self._unanswered))
            self._unanswered.clear()
            self._bodies.clear()
            self._selector.close()
            self._transport.close()

    def _begin(self) -> None:
        if self._closed:
            raise Closed(self._closed)
        if self._torn:
            raise self._given_up(ConnectionLost("the connection was closed: an interrupt came while bytes were on their way"))
        while self._unanswered and not self._closed:
            self._next_answer()
        if self._closed:
            raise Closed(self._closed)

    def _post(self, line: str, body: bytes) -> None:
        """Adds a command to the outgoing bytes."""
        if "\n" in line:
            raise ValueError(f"a command must be one line, got {shown(line)!r}")
        if body and len(line.encode()) > MAX_COMMAND:
            why = "the server would read the body as commands"
            raise ValueError(f"a command with a body must have at most {MAX_COMMAND} bytes, got {len(line.encode())}: {why}")
        if self.listener is not None and body:
            self._bodies[self.asked] = body
        self._put(line.encode() + b"\n" + body, [line])

    def _put(self, data: bytes, lines: Sequence[str]) -> None:
        """Adds the bytes of some commands to the outgoing bytes."""
        self._torn = True
        self._outgoing += data
        self._unanswered.extend(lines)
        self.asked += len(lines)
        self._torn = False

    def _granted(self, answers: List[Union[Reply, Refused]]) -> List[Reply]:
        """These answers, and the answers to all unanswered commands. The first refusal is raised when all are there."""
        while self._unanswered and not self.closed:
            answers.append(self._next_answer())
        replies = []
        for answer in answers:
            if isinstance(answer, Refused):
                raise answer
            replies.append(answer)
        return replies

    def _next_answer(self) -> Union[Reply, Refused]:
        """The answer to the first unanswered command."""
        taken = self._next_taken()
        return taken if isinstance(taken, Refused) else Reply(taken[0], self._texts(taken[1]))

    def _next_taken(self) -> Union[Tuple[List[str], List[bytes]], Refused]:
        """The words of the first awaited reply, and its lines as received. The reply is taken whole, or not at all."""
        self._await_lines(1)
        words = self._words(self._lines[0])
        count = self._lines_after(words)
        self._await_lines(1 + count)
        with contextlib.nullcontext() if self.listener is None else held():
            body = self._bodies.pop(self.asked - len(self._unanswered), b"")
            self._torn = True
            first = self._lines.popleft()
            lines = [self._lines.popleft() for _ in range(count)]
            command = self._unanswered.popleft()
            self._torn = False
            if self.listener is not None:
                self.listener.answered(Answer(command.encode(), body, first, lines))
        if words[0] == "OK":
            return words[1:], lines
        refusal = refusal_of(words, command)
        if refusal.number in ENDS_THE_CONNECTION:
            self.close(f"the connection has ended with {refusal}")
        return refusal

    def _whole_reply(self) -> Optional[Tuple[List[str], bytes]]:
        """The words and the text of the only awaited reply, whose lines are not split, since that takes long.

        None if anything about it is unusual, such as a refusal. It is then read line by line."""
        if self._lines or self.listener is not None:
            return None
        self._keeps_whole = True
        try:
            self._gather(1)
            head = self._partial.partition(b"\n")[0] if self._unsplit else b""
            if not head.startswith(b"OK "):
                return None
            words = self._words(head)
            count = self._lines_after(words)
            self._gather(1 + count)
            if self._unsplit != 1 + count or not self._partial.endswith(b"\n"):
                return None
            self._torn = True
            text, self._partial, self._unsplit = self._partial[len(head) + 1 :], b"", 0
            self._unanswered.popleft()
            self._torn = False
            return words[1:], text
        finally:
            with held():
                self._keeps_whole = False
                self._split()

    def _whole_rows(self, count: int) -> Optional[bytes]:
        """The text of the awaited replies of one line each, as in `_whole_reply`."""
        if self._lines or self.listener is not None:
            return None
        self._keeps_whole = True
        try:
            self._gather(count)
            text = self._partial
            if self._unsplit != count or text[:3] != b"OK " or text[-1:] != b"\n" or text.count(b"\nOK ") < count - 1:
                return None
            self._torn = True
            self._partial, self._unsplit = b"", 0
            self._unanswered.clear()
            self._torn = False
            return text
        finally:
            with held():
                self._keeps_whole = False
                self._split()

    def _take(self, data: bytes) -> None:
        """Adds received bytes."""
        self._partial += data
        if self._keeps_whole:
            self._unsplit += count_of_lines(data)
        else:
            self._split()

    def _split(self) -> None:
        """Splits off the whole lines that were received."""
        *lines, self._partial = self._partial.split(b"\n")
        self._lines.extend(lines)
        self._unsplit = 0

    def _words(self, line: bytes) -> List[str]:
        """The words of a reply's first line, which must answer the first unanswered command."""
        words = line.decode("ascii").split(" ")
        asked = self._unanswered[0].split()[:1]
        if words[0] == "OK" and words[1:2] == asked:
            return words
        if words[0] == "ERR" and len(words) in (3, 5) and words[1].isdigit() and words[-1].isdigit() == (len(words) == 5):
            return words
        raise self._given_up(BadReply(f"{line[:80]!r} is not a reply to `{shown(self._unanswered[0])}`"))

    def _lines_after(self, words: List[str]) -> int:
        """How many lines a reply has after its first."""
        if words[0] == "ERR" or words[1] not in ("DUMP", "LIST"):
            return 0
        if words[-1].isdigit() and int(words[-1]) <= MAX_LINES:
            return int(words[-1])
        raise self._given_up(BadReply(f"{' '.join(words)[:80]!r} says no number of lines"))

    def _texts(self, lines: List[bytes]) -> List[str]:
        """The texts of some lines, which are decoded together."""
        return b"\n".join(lines).decode("ascii").split("\n") if lines else []

    def _await_lines(self, count: int) -> None:
        """Sends and receives until `count` lines are there."""
        self._gather(count)
        if len(self._lines) < count:
            raise self._given_up(not_answered(ConnectionLost, self._transport.last_words() or self._at_end, self._unanswered[0]))

    def _gather(self, count: int) -> None:
        """Sends and receives until `count` lines are there, or no more will come."""
        deadline = time.monotonic() + self.timeout
        while len(self._lines) + self._unsplit < count and not self._at_end:
            if self._move(deadline - time.monotonic()):
                deadline = time.monotonic() + self.timeout

    def _move(self, seconds: float) -> bool:
        """Sends and receives what is possible. Returns whether any byte was sent or any line was completed.

        It waits, for at most `seconds`, only if nothing was sent: sending restarts the time limit.
        """
        went = self._send()
        if not went:
            self._watch_sink(bool(self._outgoing))
            if not self._has_heard(seconds):
                raise self._given_up(not_answered(TimedOut, f"nothing was heard for {self.timeout:g} s", self._unanswered[0]))
        return self._receive() or went

    def _has_heard(self, seconds: float) -> bool:
        """Waits for at most `seconds` until bytes can be received or sent. Returns whether they can."""
        start = time.monotonic()
        end = start + seconds
        while (left := end - time.monotonic()) > 0:
            # Each wait is short, since an interrupt that comes just before it is seen only after it.
            if self._selector.select(min(left, TICK_SECONDS)):
                return True
            if self.on_wait:
                self.on_wait(self._unanswered[0], time.monotonic() - start)
        return bool(self._selector.select(0))

    def _watch_sink(self, wanted: bool) -> None:
        """Sets whether the next wait ends when bytes can be sent."""
        source, sink = self._transport.source(), self._transport.sink()
        if source == sink:
            events = selectors.EVENT_READ | (selectors.EVENT_WRITE if wanted else 0)
            if self._selector.get_key(source).events != events:
                self._selector.modify(source, events)
        elif wanted and sink not in self._selector.get_map():
            self._selector.register(sink, selectors.EVENT_WRITE)
        elif not wanted and sink in self._selector.get_map():
            self._selector.unregister(sink)

    def _send(self) -> bool:
        """Sends what there is room for. If nothing can be sent any more, there may still be replies to read."""
        if not self._outgoing:
            return False
        with held():
            self._torn = True
            try:
                sent = self._transport.write(bytes(self._outgoing[:PIECE]))
                del self._outgoing[:sent]
            except BlockingIOError:
                sent = 0
            except OSError:
                self._outgoing.clear()
                sent = 0
            self._torn = False
        return sent > 0

    def _receive(self) -> bool:
        """Receives the available bytes. Returns whether a line was completed.

        Readers of replies get only text, since any other byte ends the connection here: it could be meant for a terminal.
        """
        with held():
            self._torn = True
            try:
                data = self._transport.read(PIECE)
                self._at_end = "" if data else "the other side has ended the connection"
            except BlockingIOError:
                data = b""
            except OSError as error:
                data, self._at_end = b"", f"the connection is lost ({error.strerror or error})"
            self._torn = has_others(data, PLAIN)
            if not self._torn:
                self._take(data)
        if self._torn:
            raise self._given_up(BadReply(f"{first_line_of_others(self._partial + data)[:80]!r} is not text of the protocol"))
        rest = self._partial.rfind(b"\n") + 1
        if len(self._partial) - rest > MAX_LINE:
            raise self._given_up(BadReply(f"{self._partial[rest : rest + 40]!r}.. is not a line of the protocol"))
        return b"\n" in data

    def _given_up(self, error: ClientError) -> ClientError:
        """Returns the error, after closing the connection."""
        self.close(f"the connection was closed: {error}")
        return error
