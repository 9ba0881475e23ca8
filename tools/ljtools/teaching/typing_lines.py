"""The lines that are typed at the terminal of a class, while the lines above them are drawn again."""
import codecs
import contextlib
import os
import signal
import sys
import termios
import threading
from typing import Any, Callable, Iterator, List, Optional

STDIN = 0
PIECE = 1 << 12
MAX_LINE = 200
ENDS, ERASE, ERASE_ALL, ERASE_WORD, ESCAPE = "\r\n", "\b\x7f", "\x15", "\x17", "\x1b"


class Editor:
    """A line that is typed, key by key."""

    def __init__(self) -> None:
        self.line = ""
        self._is_escaped = False

    def take(self, key: str) -> Optional[str]:
        """Takes a key. Returns the line that it ends, if it ends one."""
        if self._is_escaped:
            # Keys such as arrows send a sequence, which ends with a letter or `~`.
            self._is_escaped = key in "[O;" or key.isdecimal()
        elif key in ENDS:
            line, self.line = self.line, ""
            return line
        elif key in ERASE:
            self.line = self.line[:-1]
        elif key == ERASE_ALL:
            self.line = ""
        elif key == ERASE_WORD:
            self.line = self.line.rstrip()[: len(self.line.rstrip()) - len(self.line.split()[-1])] if self.line.split() else ""
        elif key == ESCAPE:
            self._is_escaped = True
        elif key.isprintable() and len(self.line) < MAX_LINE:
            self.line += key
        return None


def has_terminal() -> bool:
    """Whether this process may read a terminal: it is not in the background."""
    try:
        return os.isatty(STDIN) and os.tcgetpgrp(STDIN) == os.getpgrp()
    except OSError:
        return False


def is_at_terminal() -> bool:
    """Whether lines are typed below what is drawn."""
    return has_terminal() and sys.stdout.isatty()


@contextlib.contextmanager
def keys_at_once() -> Iterator[None]:
    """Makes the terminal pass on keys one by one, and not show them. Ctrl-C and the like send signals as before."""
    if not is_at_terminal():
        yield
        return
    before = termios.tcgetattr(STDIN)

    def set_keys(*_: object) -> None:
        settings: List[Any] = termios.tcgetattr(STDIN)
        settings[3] &= ~(termios.ICANON | termios.ECHO)
        if has_terminal():
            termios.tcsetattr(STDIN, termios.TCSADRAIN, settings)

    set_keys()
    # A shell that has stopped this program resets the terminal.
    signal.signal(signal.SIGCONT, set_keys)
    try:
        yield
    finally:
        if has_terminal():
            termios.tcsetattr(STDIN, termios.TCSADRAIN, before)


def read_lines(take: Callable[[str], None], shows: Callable[[str], None]) -> None:
    """Passes on each line, from a thread of its own, until the input ends. The line being typed at the terminal is shown."""
    if os.isatty(STDIN) and not has_terminal():
        # A program in the background that reads the terminal would be stopped.
        return
    if is_at_terminal():
        shows("")
    threading.Thread(target=read_on, args=(take, shows if is_at_terminal() else None), daemon=True).start()


def read_on(take: Callable[[str], None], shows: Optional[Callable[[str], None]]) -> None:
    editor, decoder = Editor(), codecs.getincrementaldecoder("utf-8")("replace")
    with contextlib.suppress(OSError):
        while data := os.read(STDIN, PIECE):
            lines = [line for key in decoder.decode(data) if (line := editor.take(key)) is not None]
            if shows is not None:
                shows(editor.line)
            for line in lines:
                take(line)
