"""The text of a record: the commands of one session as they were sent, and the reply to each.

Each line below the head begins with a check: the first digits of the SHA-256 of all text from the head to the end of this
line, without the checks. So the first changed line is known, and the last SHA-256 covers the whole record.
"""
from __future__ import annotations

import enum
import re
from dataclasses import dataclass
from typing import TYPE_CHECKING, List, NamedTuple, Optional, Sequence, Tuple

from .later import Later

if TYPE_CHECKING:
    import hashlib
else:
    hashlib = Later("hashlib")

FORMAT = b"ljserve record "
# The heads that can be read. The last one is written.
HEADS = (FORMAT + b"1", FORMAT + b"2")
HEAD = HEADS[-1]
CHECK_DIGITS = 8
LOADS = (b"LOAD", b"LOADMIX")
# The commands that name a session.
OF_A_SESSION = frozenset(b"LOAD LOADMIX ADVANCE START REVERSE BRANCH RESTORE FORGET TUG MEASURE SHOW DUMP LIST DROP".split())
# Refusals with a cause other than the session's own commands: the connection, other sessions, or lack of memory.
FROM_OUTSIDE = (1, 4, 5, 8, 20, 21, 22, 90)
NO_SESSION = 10
# Refusals of lines that are not commands of a session: a first line that is no HELLO, and a line without an end.
OF_NO_COMMAND = (1, 5)
# Refusals for the form of a line, which do not show whether its session exists.
OF_FORM = (2, 3)
# Refusals of a load that do not show that no session has its name.
OF_ANY_LOAD = (*OF_NO_COMMAND, *OF_FORM, 4, 6, 8, 11)
QUOTA_NAMES = ("sessions", "atoms", "branches")
MAX_BODY = 1 << 20
MAX_COMMAND = 256
NUMBER = re.compile(rb"[0-9]{1,2}\Z")
COUNT = re.compile(rb"[0-9]{1,7}\Z")


class Mark(enum.Enum):
    """The first word of a line, which gives its kind."""

    CLIENT = b"client"
    PROGRAM = b"program"
    CONTINUES = b"continues"
    QUOTA = b"quota"
    SENT = b">"
    BODY = b":"
    REPLY = b"<"
    MORE = b"+"
    OUTSIDE = b"!"
    UNANSWERED = b"?"
    CONNECTION = b"connection"
    MOVED = b"moved"
    END = b"end"


class Answer(NamedTuple):
    """A command as it was sent, its body, and its reply: the first line and the lines after it, without line ends."""

    line: bytes
    body: bytes
    first: bytes
    rest: Sequence[bytes] = ()

    @property
    def refusal(self) -> Optional[int]:
        """The refusal number of the reply; None if it is no refusal."""
        return refusal_of(self.first)

    @property
    def is_from_outside(self) -> bool:
        """Whether it was refused for something other than the session's own commands."""
        return self.refusal in FROM_OUTSIDE


@dataclass(frozen=True)
class Entry:
    """A command of a record, or a note between commands.

    mark        REPLY, OUTSIDE or UNANSWERED for a command; CONNECTION or MOVED for a note
    number      the number of its first line in the file, counted from 1
    line, body  the command as it was sent
    first       the first line of its reply
    more        the SHA-256 of the lines after that, if there are any
    sum         the SHA-256 of the record up to here
    reply       the line number of its reply
    """

    mark: Mark
    number: int
    line: bytes = b""
    body: bytes = b""
    first: bytes = b""
    more: bytes = b""
    sum: str = ""
    reply: int = 0

    @property
    def refusal(self) -> Optional[int]:
        """The refusal number of the reply; None if it is no refusal."""
        return refusal_of(self.first)

    @property
    def is_granted(self) -> bool:
        return self.first.startswith(b"OK ")

    def is_granted_of(self, *verbs: bytes) -> bool:
        """Whether it is one of these commands and was granted."""
        return self.mark is Mark.REPLY and self.is_granted and words_of(self.line)[0] in verbs

    @property
    def atoms(self) -> int:
        """The number of atoms of a granted load, from its reply; else 0."""
        last = self.first.split(b" ")[-1]
        return int(last) if self.is_granted_of(*LOADS) and COUNT.match(last) else 0


@dataclass(frozen=True)
class Quota:
    """The quota that a user needs for the session."""

    sessions: int = 1
    atoms: int = 0
    branches: int = 0

    def with_these(self, atoms: int, branches: int) -> "Quota":
        """This quota with room for these numbers."""
        return Quota(self.sessions, max(self.atoms, atoms), max(self.branches, branches))

    def is_above(self, other: "Quota") -> bool:
        """Whether it is larger than the other, and smaller in no number."""
        return self != other and all(mine >= its for mine, its in zip(self.numbers, other.numbers))

    @property
    def numbers(self) -> Tuple[int, int, int]:
        return self.sessions, self.atoms, self.branches

    def __str__(self) -> str:
        return " ".join(f"{name} {number}" for name, number in zip(QUOTA_NAMES, self.numbers))


class Chain:
    """The SHA-256 of the text so far, updated line by line below the head."""

    def __init__(self, head: bytes = HEAD) -> None:
        self._sum = hashlib.sha256(head + b"\n")

    def check_of(self, text: bytes) -> bytes:
        """The check of the next line, which has this text."""
        self._sum.update(text + b"\n")
        return self._sum.hexdigest()[:CHECK_DIGITS].encode()

    def line_of(self, text: bytes) -> bytes:
        """The next line as the file has it."""
        return b"%b %b\n" % (self.check_of(text), text)

    @property
    def sum(self) -> str:
        """The SHA-256 of all lines so far, in hexadecimal digits."""
        return self._sum.hexdigest()


def words_of(line: bytes) -> List[bytes]:
    """The words of a command line, split as in the protocol."""
    words = (line[:-1] if line.endswith(b"\r") else line).replace(b"\t", b" ").split(b" ")
    return [word for word in words if word] if b"" in words else words


def refusal_of(first: bytes) -> Optional[int]:
    """The refusal number in the first line of a reply; None if it is no refusal."""
    words = first.split(b" ")
    return int(words[1]) if words[0] == b"ERR" and words[1:2] and NUMBER.match(words[1]) else None


def tells_that_it_is_gone(words: Sequence[bytes], refusal: Optional[int]) -> bool:
    """Whether a refusal of this command shows that the session does not exist: a load is refused for its name first."""
    return refusal == NO_SESSION or (words[0] in LOADS and refusal is not None and refusal not in OF_ANY_LOAD)


def session_of(words: Sequence[bytes]) -> str:
    """The session that the words of a command line name; empty if they name none."""
    return words[1].decode("latin-1") if len(words) > 1 and words[0] in OF_A_SESSION else ""


def count_of(line: bytes) -> Optional[int]:
    """The number of body bytes that a line announces. None for a load without a valid count."""
    words = words_of(line)
    if words[0] not in LOADS or len(line) > MAX_COMMAND:
        return 0
    return int(words[-1]) if COUNT.match(words[-1]) and int(words[-1]) <= MAX_BODY else None


def sum_of(lines: Sequence[bytes]) -> bytes:
    """The SHA-256 of the lines of a reply below its first, line ends included."""
    return hashlib.sha256(b"".join(line + b"\n" for line in lines)).hexdigest().encode()


def sent_lines(line: bytes, body: bytes) -> List[bytes]:
    """The record's lines for a command and its body."""
    if not body:
        return [b"> " + line]
    rows = body.split(b"\n")
    return [b"> " + line, *(b": " + row for row in (rows[:-1] if rows[-1] == b"" else rows))]


def reply_lines(answer: Answer) -> List[bytes]:
    """The record's lines for the reply to a command, of a session that exists according to its own commands."""
    if answer.first.startswith(b"OK ") and not answer.rest:
        return [b"< " + answer.first]
    mark = Mark.OUTSIDE if answer.is_from_outside or answer.refusal == NO_SESSION else Mark.REPLY
    first = mark.value + b" " + answer.first
    return [first, Mark.MORE.value + b" " + sum_of(answer.rest)] if answer.rest else [first]


def shown(text: bytes) -> str:
    """A text as messages show it: bytes other than printable ASCII are escaped."""
    return "".join(chr(byte) if 32 <= byte < 127 else f"\\x{byte:02x}" for byte in text)


def quota_line(quota: Quota) -> bytes:
    """The record's line for a quota."""
    return f"quota {quota}".encode()
