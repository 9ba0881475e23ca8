"""The errors of the client: each is a `ClientError`, and each refusal of the server is a `Refused` (see `ljclient.refusals`)."""
from __future__ import annotations

from typing import Any, Dict, Optional, Sequence, Tuple, Type

from .renamed import Renamed


class ClientError(Exception):
    """Any error of the connection, of the program, or of a command.

    Attributes
    ----------
    unanswered : str or None
        The command line whose reply did not come, if there is one. It may be one of several commands of the call.
    more : str
        If a session was being changed, replaced or read: its state before, or where it is now.
    """

    unanswered: Optional[str] = None
    more: str = ""

    def __str__(self) -> str:
        return f"{super().__str__()}; {self.more}" if self.more else super().__str__()

    # In earlier versions a load with `replace=True` dropped a session before loading the new one.
    _rescued: Optional[str] = None
    rescued = Renamed[Optional[str]]("_rescued")


class CannotStart(ClientError):
    """The program could not be started, or what was started is not `ljserve`."""


class ConnectionLost(ClientError, ConnectionError):
    """No server could be reached, or the connection ended before all replies arrived."""


class Undecided(ConnectionLost):
    """A connection was lost and made again, and the client cannot find out whether a command was done.

    Only connections with `retry=` raise this error. The state at the server is not one that the commands lead to. The client has sent
    nothing more, and has closed the connection.

    Attributes
    ----------
    command : str
        The first command that had no reply.
    states : tuple of str
        For each session with an unexpected state: this state, and the states before and after the commands.
    is_gone : bool
        Whether sessions are gone: the server was restarted, or another connection has dropped them.
    """

    def __init__(self, command: str, states: Sequence[str], is_gone: bool = False):
        super().__init__(command, states, is_gone)
        self.unanswered = command
        self.command = command
        self.states = tuple(states)
        self.is_gone = is_gone

    def __str__(self) -> str:
        cause = (
            "the server was started again, or another connection has dropped it" if self.is_gone else "another connection has changed it"
        )
        advice = (
            "connect again, load it again, and go on from a saved file"
            if self.is_gone
            else "connect again, look at it, and go on from there"
        )
        told = "; ".join(self.states)
        text = f"the connection was lost, and whether `{self.command}` was done cannot be told: {told}. Perhaps {cause}: {advice}"
        return f"{text}; {self.more}" if self.more else text


class TimedOut(ClientError, TimeoutError):
    """Nothing arrived within the timeout. The connection is closed, since a late reply would be misread."""


class BadReply(ClientError):
    """The server sent something that is not a reply of the protocol. The connection is closed."""


class Missing(ClientError, ImportError):
    """A required package is not installed. The message explains how to install it."""


class Closed(ClientError):
    """The connection was closed before the call."""


class NotRecorded(ClientError):
    """The server has replied to a command, but the record could not be written. The session continues without a record."""


class Damaged(ClientError, ValueError):
    """A file of a saved session differs from what was written.

    Attributes
    ----------
    path : str
        The file.
    line : int
        The first line that is wrong, counted from 1.
    why : str
        What is wrong with it.
    """

    def __init__(self, path: str, line: int, why: str):
        super().__init__(path, line, why)
        self.path = path
        self.line = line

    def __str__(self) -> str:
        return "{}, line {}: {}".format(*self.args)


class Refused(ClientError):
    """The server refused a command. Nothing has changed there.

    Attributes
    ----------
    number : int
        The number of the refusal, such as 10.
    name : str
        Its name, such as "NO_SESSION".
    meaning : str
        What it means.
    line : int or None
        The line of the XYZ text that is wrong, counted from 1, if the refusal names one.
    command : str
        The command line that was refused; for a HELLO only the first word.
    """

    number: int = 0
    name: str = ""
    meaning: str = ""
    by_number: Dict[int, Type["Refused"]] = {}

    def __init__(
        self,
        command: str = "",
        line: Optional[int] = None,
        number: Optional[int] = None,
        name: Optional[str] = None,
        meaning: Optional[str] = None,
    ):
        if meaning is not None:
            self.meaning = meaning
        if number is not None:
            self.number = number
        if name is not None:
            self.name = name
        self.line = line
        self.command = command
        super().__init__(self._text())

    def __init_subclass__(cls, **words: object) -> None:
        super().__init_subclass__(**words)
        cls.__doc__ = cls.__doc__ or f"``ERR {cls.number:02} {cls.name}``: {cls.meaning}."
        Refused.by_number[cls.number] = cls

    def __reduce__(self) -> Tuple[Any, ...]:
        return type(self), (self.command, self.line, self.number, self.name, self.meaning)

    def _text(self) -> str:
        meaning = f": {self.meaning}" if self.meaning else ""
        asked = f" (asked: {shown(self.command)})" if self.command else ""
        return f"{reply_of(self)}{meaning}{asked}"


def reply_of(refusal: Refused) -> str:
    """The `ERR` line of a refusal."""
    where = "" if refusal.line is None else f" line {refusal.line}"
    return f"ERR {refusal.number:02} {refusal.name}{where}"


def printable(text: str) -> str:
    """A text for a terminal: unprintable characters, such as the start of a colour or a title, are escaped as in Python.

    Line ends and tabs stay as they are.
    """
    return text if text.isprintable() else "".join(mark if mark.isprintable() or mark in "\n\t" else ascii(mark)[1:-1] for mark in text)


def shown(command: str) -> str:
    """A command line as messages show it: cut if it is long, without the token of a HELLO, and printable."""
    text = printable(" ".join(command.split()[:2]) if command.startswith("HELLO") else command)
    return text if len(text) <= 60 else text[:57] + "..."


def not_answered(kind: Type[ClientError], why: str, command: str) -> ClientError:
    """The error that a command was not answered, and why."""
    error = kind(f"{why}; `{shown(command)}` was not answered")
    error.unanswered = shown(command)
    return error


def refusal_of(words: "list[str]", command: str) -> Refused:
    """The refusal for the words of an `ERR` line: a plain `Refused` if this client does not know its number."""
    number, name = int(words[1]), words[2]
    line = int(words[4]) if len(words) == 5 and words[3] == "line" else None
    kind = Refused.by_number.get(number, Refused)
    return kind("HELLO" if command.startswith("HELLO") else command, line, number, name)
