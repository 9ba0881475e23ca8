"""The history of typed lines, kept in a file, without lines that have a token."""
from __future__ import annotations

import os
import re
import stat
from typing import IO, List

MAX_LINES = 1000
MAX_BYTES = 1 << 20
# A token in one piece, or in groups as on a slip.
TOKEN = re.compile(r"[A-Za-z0-9]{32}|(?<![A-Za-z0-9])(?:[A-Za-z0-9]{4}[ \t]+){7}[A-Za-z0-9]{4}")


class Lines:
    """The lines that were typed, the oldest first. They are kept in a regular file; anything else of its name is left alone."""

    def __init__(self, path: str):
        self._path = path
        self.lines = read_lines(path)

    def add(self, line: str) -> None:
        """Adds a line, unless it is empty, repeats the last one, or may have a token."""
        if not line.strip() or has_token(line) or self.lines[-1:] == [line]:
            return
        self.lines.append(line)
        append_line(self._path, line)


def has_token(line: str) -> bool:
    """Whether a line may have a token: a HELLO, or 32 letters and digits."""
    return line.upper().split()[:1] == ["HELLO"] or TOKEN.search(line) is not None


def read_lines(path: str) -> List[str]:
    """The last lines of a file; none if it cannot be read. A file that is too long is rewritten with these lines only."""
    try:
        with open_regular(path, os.O_RDONLY) as file:
            text = file.read()
        lines = text.decode(errors="replace").splitlines()
        if len(text) > MAX_BYTES:
            with open_regular(path, os.O_WRONLY | os.O_TRUNC) as file:
                file.write("".join(line + "\n" for line in lines[-MAX_LINES:]).encode())
    except OSError:
        return []
    return [line for line in lines[-MAX_LINES:] if line]


def append_line(path: str, line: str) -> None:
    """Adds a line to a file, which only its owner can read. Does nothing if that fails."""
    try:
        with open_regular(path, os.O_WRONLY | os.O_APPEND | os.O_CREAT) as file:
            file.write(f"{line}\n".encode(errors="replace"))
    except OSError:
        pass


def open_regular(path: str, flags: int) -> IO[bytes]:
    """Opens a regular file without blocking. Raises OSError for a FIFO, a device and the like."""
    descriptor = os.open(path, flags | os.O_NONBLOCK, 0o600)
    if not stat.S_ISREG(os.fstat(descriptor).st_mode):
        os.close(descriptor)
        raise OSError("it is not a regular file")
    return open(descriptor, "rb" if flags & os.O_ACCMODE == os.O_RDONLY else "wb")


def history_path() -> str:
    """The file of the history: the one that LJCLIENT_HISTORY names, else one in the home folder."""
    return os.environ.get("LJCLIENT_HISTORY") or os.path.expanduser("~/.ljclient_history")
