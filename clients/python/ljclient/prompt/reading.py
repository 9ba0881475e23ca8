"""The sources of lines: a terminal, a file that is read at a terminal, or any other input."""
from __future__ import annotations

import contextlib
import io
import os
import select
import sys
from collections import deque
from typing import BinaryIO, Callable, ContextManager, Deque, List, Optional, Protocol

from ..errors import printable
from .loading import Fault

MAX_BYTES_OF_LINE = 65_536
MAX_FILES = 8
TICK_SECONDS = 0.25


class PipeInput:
    """Lines and bodies of a stream of bytes, as the server itself would read them. The last line needs no line end."""

    def __init__(self, stream: BinaryIO):
        self._stream = stream

    def line(self) -> Optional[str]:
        """The next line without its end. None at the end of the input."""
        line = self._stream.readline(MAX_BYTES_OF_LINE)
        if not line:
            return None
        try:
            return (line[:-1] if line.endswith(b"\n") else line).decode()
        except UnicodeDecodeError as error:
            raise Fault(f"a line must be UTF-8 text, got {line[:40]!r}") from error

    def body(self, size: int) -> bytes:
        """The bytes that follow the line."""
        body = self._stream.read(size)
        if len(body) < size:
            raise Fault(f"the text after a LOAD must have {size} bytes, got {len(body)} before the end of the input")
        return body


class Reader(Protocol):
    """A reader of lines typed at a terminal."""

    def begun(self) -> ContextManager[None]:
        """Sets the terminal up for the lines that are read within the block."""

    def command(self, prompt: str) -> str:
        """The next line, or several that were pasted. EOFError at the end, KeyboardInterrupt for an interrupt."""

    def text(self, prompt: str) -> str:
        """The next line of a text that follows a command."""

    def remember(self, line: str) -> None:
        """Adds a command to the history."""


class PlainReader:
    """Lines edited by the terminal itself: without hints, completion and history. `news` returns messages to show meanwhile."""

    def __init__(self, news: Callable[[], List[str]] = list):
        self._news = news

    def begun(self) -> ContextManager[None]:
        return contextlib.nullcontext()

    def command(self, prompt: str) -> str:
        return line_at_terminal(prompt, self._news)

    def text(self, prompt: str) -> str:
        return line_at_terminal(prompt, list)

    def remember(self, line: str) -> None:
        pass


def line_at_terminal(prompt: str, news: Callable[[], List[str]]) -> str:
    """The next line of a terminal. `input` alone would handle an interrupt just before its read only after the line."""
    print(prompt, end="", flush=True)
    while os.name == "posix" and not select.select([sys.stdin], [], [], TICK_SECONDS)[0]:
        if told := news():
            print("", *(f"  {printable(text)}" for text in told), prompt, sep="\n", end="", flush=True)
    return input()


class FileLines(PipeInput):
    """The lines of a file that is read at a prompt."""

    def __init__(self, path: str):
        try:
            with open(os.path.expanduser(path), "rb") as file:
                super().__init__(io.BytesIO(file.read()))
        except OSError as error:
            raise Fault(f"cannot read {path}: {error.strerror or error}") from error
        self.path = path
        self.number = 0

    def line(self) -> Optional[str]:
        self.number += 1
        return super().line()

    def body(self, size: int) -> bytes:
        body = super().body(size)
        self.number += body.count(b"\n")
        return body


class TerminalInput:
    """Lines typed at a terminal. Pasted lines, and the lines of a file that is read, are taken one after the other."""

    def __init__(self, prompt: str, reader: Reader, show: Callable[[str], None]):
        self._prompt = prompt
        self._reader = reader
        self._show = show
        self._pasted: Deque[str] = deque()
        self._files: List[FileLines] = []

    def line(self) -> Optional[str]:
        """The next line. None at the end of the input."""
        while self._files:
            line = self._files[-1].line()
            if line is not None:
                self._show(f"{self._prompt}{line}".rstrip("\r"))
                return line
            self._files.pop()
        try:
            line = self._next(self._reader.command, self._prompt)
        except EOFError:
            return None
        self._reader.remember(line)
        return line

    def body(self, size: int) -> bytes:
        """The bytes of the next lines. The rest of the last one becomes a line of its own."""
        if self._files:
            return self._files[-1].body(size)
        body = b""
        while len(body) < size:
            try:
                body += self._next(self._reader.text, f"{size - len(body)} bytes more> ").encode() + b"\n"
            except EOFError:
                raise Fault(f"the text after a LOAD must have {size} bytes, got {len(body)} before the end of the input") from None
        if rest := body[size:].decode(errors="replace").rstrip("\n"):
            self._pasted.appendleft(rest)
        return body[:size]

    @property
    def is_script(self) -> bool:
        """Whether the lines come from a file, so that nobody can be asked."""
        return bool(self._files)

    def asked(self, question: str) -> str:
        """The answer of the user at the terminal, stripped and in small letters; empty at the end of the input."""
        try:
            return self._reader.text(question).strip().lower()
        except EOFError:
            return ""

    def read_file(self, path: str) -> None:
        """Takes the next lines from a file. Raises Fault if it cannot be read, or if MAX_FILES files are being read."""
        if len(self._files) == MAX_FILES:
            raise Fault(
                f"cannot read {path}: it would be file {MAX_FILES + 1} of files that read one another, of which {MAX_FILES} are the most"
            )
        self._files.append(FileLines(path))

    def stop_files(self) -> List[str]:
        """Stops reading files. Returns a line that says where."""
        told = [f"{self._files[-1].path} is left at line {self._files[-1].number}"] if self._files else []
        self._files.clear()
        return told

    def forget(self) -> None:
        """Drops pasted lines that are not yet taken."""
        self._pasted.clear()

    def _next(self, read: Callable[[str], str], prompt: str) -> str:
        if not self._pasted:
            self._pasted.extend(read(prompt).split("\n"))
        return self._pasted.popleft()
