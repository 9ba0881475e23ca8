"""Reads records line by line, so that the first damaged line is known."""
from __future__ import annotations

import os
import re
import stat
from dataclasses import dataclass, field
from typing import BinaryIO, Dict, Iterator, List, Optional, Sequence, Tuple

from . import record
from .errors import Damaged
from .files import KINDS, Path
from .names import NAME
from .record import Chain, Entry, Mark, Quota
from .record_rules import Misplaced, Rules

MOST = (64, 65536, 256)
# The most bytes of a line: a whole body may be one line, after a check and a mark.
MAX_ROW = record.MAX_BODY + record.CHECK_DIGITS + len(b" : \n")
# The most bytes of a command: a longer line ends the connection.
MAX_LINE = 65_535
MARKS: Dict[bytes, Mark] = {mark.value: mark for mark in Mark}
# The lines above all others, in this order.
ABOVE = (Mark.CLIENT, Mark.PROGRAM, Mark.CONTINUES)
# The lines that are one word.
ALONE = (Mark.CONNECTION, Mark.MOVED, Mark.END)
SUM = re.compile(rb"[0-9a-f]{64}\Z")


@dataclass
class RecordFile:
    """A record. Its attributes are complete once its entries have been read.

    format     1 or 2; new records have 2
    session    the name of its session
    client     its client, as the file says
    programs   the version lines of the program, as the file says
    continues  the SHA-256 of the record that it continues, as the file says
    quota      the quota that a user needs for it
    is_ended   whether it has its last line, `end`
    cut        the number of the line where the file is cut short, if its writer was killed
    sum        the SHA-256 of all complete lines, without their checks
    """

    path: Path
    format: int = 0
    session: str = ""
    client: str = ""
    programs: List[str] = field(default_factory=list)
    continues: str = ""
    quota: Quota = Quota()
    is_ended: bool = False
    cut: Optional[int] = None
    _at: int = 0
    _chain: Chain = field(default_factory=Chain)
    _may_stand: Sequence[Mark] = ()
    _is_below_quota: bool = False

    @property
    def sum(self) -> str:
        return self._chain.sum

    def entries(self) -> Iterator[Entry]:
        """The entries in order, to be read once. Raises `Damaged`, with the line, at the first fault."""
        rules = Rules()
        check_regular(self.path)
        with open(self.path, "rb") as file:
            rows = self._rows(file)
            for mark, rest in rows:
                entry = self._entry(mark, rest, rows)
                if entry is not None:
                    self._follow(rules, entry)
                    yield entry
                elif mark is Mark.END and rules.is_moving:
                    raise self._damaged("`moved` must be followed by a LOAD or LOADMIX that was granted")

    def _rows(self, file: BinaryIO) -> Iterator[Tuple[Mark, bytes]]:
        """The mark and text of each line below the head, up to one that is cut short."""
        self._read_head(file.readline(MAX_ROW))
        for self._at, row in enumerate(iter(lambda: file.readline(MAX_ROW), b""), 2):
            if self.is_ended:
                raise self._damaged("a record must not go on below its end")
            if not row.endswith(b"\n"):
                if len(row) == MAX_ROW:
                    raise self._damaged(f"a line must have at most {MAX_ROW:,} bytes")
                self.cut = self._at
                return
            check, _, text = row[:-1].partition(b" ")
            if check != self._chain.check_of(text):
                raise self._damaged("the line was changed, or one above it is missing")
            word, blank, rest = text.partition(b" ")
            if word not in MARKS or (MARKS[word] in ALONE) == bool(blank):
                raise self._damaged("a line must be of one of the kinds of a record")
            yield MARKS[word], rest

    def _read_head(self, head: bytes) -> None:
        self._at, line = 1, head[:-1]
        if head.endswith(b"\n") and line in record.HEADS:
            self.format = record.HEADS.index(line) + 1
            self._chain = Chain(line)
            self._may_stand = ABOVE if line == record.HEAD else ABOVE[:2]
            return
        if head.endswith(b"\r\n") and line[:-1] in record.HEADS:
            raise self._damaged("each line of a record must end with LF alone, got CR LF: its line ends were changed")
        if head.startswith(record.FORMAT) and head.endswith(b"\n"):
            told = record.shown(line)[:40]
            raise self._damaged(f"a record must begin with `{record.HEAD.decode()}` or an older head, got `{told}`; use a newer client")
        raise self._damaged(f"a record must begin with `{record.HEAD.decode()}`")

    def _entry(self, mark: Mark, rest: bytes, rows: Iterator[Tuple[Mark, bytes]]) -> Optional[Entry]:
        """The entry that begins with this line; None if there is none or it is cut short."""
        if mark in ABOVE:
            self._take_above(mark, rest)
            return None
        self._may_stand = ()
        if self._is_below_quota and mark is not Mark.SENT:
            raise self._damaged("a quota must stand right above a command")
        self._is_below_quota = mark is Mark.QUOTA
        if mark in (Mark.QUOTA, Mark.END):
            self._take_in(mark, rest)
            return None
        if mark in (Mark.CONNECTION, Mark.MOVED):
            return Entry(mark, self._at, sum=self.sum)
        if mark not in (Mark.SENT, Mark.UNANSWERED):
            raise self._damaged("the line must stand below a command")
        number = self._at
        self._check_command(rest)
        if mark is Mark.UNANSWERED:
            return Entry(mark, number, rest, sum=self.sum)
        try:
            return self._command(number, rest, rows)
        except StopIteration:
            self.cut = self.cut or self._at
            return None

    def _take_above(self, mark: Mark, rest: bytes) -> None:
        """Stores a line above all others, which gives the origin of the record."""
        if mark not in self._may_stand:
            raise self._damaged("a line of this kind must stand above all others, once and in its order, if the format has it")
        if mark is Mark.CONTINUES and not SUM.match(rest):
            raise self._damaged("`continues` must be followed by a SHA-256 of 64 digits")
        self._may_stand = ABOVE[ABOVE.index(mark) + (mark is not Mark.PROGRAM) :]
        told = record.shown(rest)
        if mark is Mark.CLIENT:
            self.client = told
        elif mark is Mark.PROGRAM:
            self.programs.append(told)
        else:
            self.continues = told

    def _take_in(self, mark: Mark, rest: bytes) -> None:
        """Stores a line for the whole record."""
        if mark is Mark.END:
            self.is_ended = True
            return
        quota = self._quota(record.shown(rest))
        if not quota.is_above(self.quota):
            raise self._damaged("a quota must be larger than the one above it, and smaller in nothing")
        self.quota = quota

    def _quota(self, told: str) -> Quota:
        words = told.split(" ")
        numbers = [int(word) if word.isascii() and word.isdigit() and len(word) < 8 else -1 for word in words[1::2]]
        fit = len(words) == 6 and all(0 <= number <= most for number, most in zip(numbers, MOST))
        if not fit or str(Quota(*numbers)) != told:
            raise self._damaged("a quota must be sessions, atoms and branches, at most 64, 65536 and 256")
        return Quota(*numbers)

    def _check_command(self, line: bytes) -> None:
        """Raises `Damaged` unless this is a command of the same session as all others."""
        name = record.session_of(record.words_of(line)) if line.decode(errors="ignore").encode() == line else ""
        if not NAME.match(name) or (self.session and self.session != name) or len(line) > MAX_LINE:
            raise self._damaged("the line must be a command of " + (f"session {self.session}" if self.session else "a session"))
        self.session = name

    def _command(self, number: int, line: bytes, rows: Iterator[Tuple[Mark, bytes]]) -> Entry:
        """The command of this line with its reply. Raises StopIteration if the file ends first."""
        body = self._body(record.count_of(line) or 0, rows)
        mark, first = next(rows)
        if mark not in (Mark.REPLY, Mark.OUTSIDE):
            raise self._damaged("a reply must stand here")
        if mark is Mark.REPLY and record.count_of(line) is None:
            raise self._damaged("the load above must end with a count of bytes: without one the connection ends")
        reply, more = self._at, b""
        if mark is Mark.REPLY and _has_more(first):
            following, more = next(rows)
            if following is not Mark.MORE:
                raise self._damaged("the sum of the lines of a reply must stand here")
        return Entry(mark, number, line, body, first, more, self.sum, reply)

    def _body(self, count: int, rows: Iterator[Tuple[Mark, bytes]]) -> bytes:
        """A body of `count` bytes."""
        parts, size = [], 0
        while size < count:
            mark, row = next(rows)
            if mark is not Mark.BODY:
                raise self._damaged(f"the body must have {count} bytes, got {size}")
            parts.append(row + b"\n")
            size += len(row) + 1
        if size > count + 1:
            raise self._damaged(f"the body must have {count} bytes, got {size}")
        return b"".join(parts)[:count]

    def _follow(self, rules: Rules, entry: Entry) -> None:
        """Raises `Damaged` if an entry cannot follow the entries above it."""
        try:
            rules.follow(entry, self.quota)
        except Misplaced as fault:
            raise Damaged(os.fspath(self.path), entry.reply if fault.is_reply else entry.number, str(fault)) from None

    def _damaged(self, why: str) -> Damaged:
        return Damaged(os.fspath(self.path), self._at, why)


def check_regular(path: Path) -> None:
    """Raises ValueError unless this is a regular file, which can be read twice, or a folder, which `open` refuses."""
    kind = stat.S_IFMT(os.stat(path).st_mode)
    if kind not in (stat.S_IFREG, stat.S_IFDIR):
        what = KINDS.get(kind, "no regular file")
        raise ValueError(f"a record must be a regular file, since it is read twice, got {os.fspath(path)}, {what}; save it to a file first")


def sum_of_continued(path: Optional[Path], following: Optional[Path]) -> str:
    """The SHA-256 of a record that another file continues; of its complete lines if it is cut short. Empty without a path.

    Raises `Damaged` if it is not a record, and ValueError if there is no other file, or it is the same file, which would be replaced.
    """
    if path is None:
        return ""
    if following is None or os.path.realpath(path) == os.path.realpath(following):
        raise ValueError(f"continues must come with record=, a record in another file, got {os.fspath(path)!r}")
    file = RecordFile(path)
    for _ in file.entries():
        pass
    return file.sum


def _has_more(first: bytes) -> bool:
    """Whether a reply has lines after its first."""
    words = first.split(b" ")
    return words[0] == b"OK" and words[1:2] in ([b"DUMP"], [b"LIST"]) and words[-1] != b"0"
