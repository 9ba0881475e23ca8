"""LOAD and LOADMIX as they are typed: with a count and a body that follows, as in the protocol, or with a file."""
from __future__ import annotations

import os
import re
import shlex
from typing import List, NamedTuple, Optional

from ..wire import MAX_COMMAND
from ..xyz import MAX_BYTES
from .commands import MODES, forms_of
from .shapes import DECIMAL, is_count


class Fault(Exception):
    """Why a line is not sent."""


class FromFile(NamedTuple):
    """A command whose body is a file: its words without the count, and the path."""

    words: List[str]
    path: str


def words_of(line: str) -> List[str]:
    """The words of a line as the server reads them."""
    return [word for word in re.split(r"[ \t]+", line[:-1] if line.endswith("\r") else line) if word]


def is_load(line: str) -> bool:
    """Whether a line is a command that has a body."""
    return words_of(line)[:1] in (["LOAD"], ["LOADMIX"])


def is_whole(line: str) -> bool:
    """Whether a LOAD has as many words as in the protocol, and ends with a mode and a count."""
    words = words_of(line)
    return len(words) == count_of_words(words[0]) and words[-2] in MODES and is_count(words[-1])


def count_of_words(name: str) -> int:
    """How many words a command has."""
    return len(forms_of(name)[0].usage.split())


def size_of_body(line: str) -> int:
    """How many bytes the server reads after a line as its body: 0 if the line has no count, or is too long."""
    words = words_of(line)
    has_body = is_load(line) and len(words) > 1 and is_count(words[-1]) and len(line.encode()) <= MAX_COMMAND
    return int(words[-1]) if has_body else 0


def from_file(line: str) -> Optional[FromFile]:
    """The parts of a LOAD that has a file, after the session or in place of the count. None for any other line."""
    if not is_load(line) or is_whole(line):
        return None
    words = quoted_words(line)
    wanted, mode = count_of_words(words[0]), [] if words[-1] in MODES else ["rest"]
    if len(words) + len(mode) == wanted and not DECIMAL.match(words[2]):
        return FromFile([*words[:2], *words[3:], *mode], words[2])
    if len(words) == wanted and words[-2] in MODES and not (words[-1].isdecimal() or words[-1] in MODES):
        return FromFile(words[:-1], words[-1])
    return None


def quoted_words(line: str) -> List[str]:
    """The words of a line in which a file may be in quotes."""
    try:
        return shlex.split(line)
    except ValueError:
        return words_of(line)


def without_comment(line: str) -> str:
    """A line without its comment, from a `#` outside of quotes at the start of a word."""
    quote = ""
    for place, mark in enumerate(line):
        if mark == "#" and not quote and not line[:place][-1:].strip():
            return line[:place]
        if mark in ("'", '"') and quote in ("", mark):
            quote = "" if quote else mark
    return line


def read_body(path: str) -> bytes:
    """The bytes of an XYZ file. Raises Fault if it cannot be read, or has more than the server accepts."""
    try:
        with open(os.path.expanduser(path), "rb") as file:
            body = file.read(MAX_BYTES + 1)
    except OSError as error:
        raise Fault(f"cannot read {path}: {error.strerror or error}") from error
    if len(body) > MAX_BYTES:
        raise Fault(f"cannot load {path}: it has more than {MAX_BYTES} bytes, the most that the server takes")
    return body


def line_of(load: FromFile, body: bytes) -> str:
    """The command of the protocol for a load from a file."""
    return " ".join([*load.words, str(len(body))])
