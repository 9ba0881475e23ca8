"""Line editing with prompt_toolkit: hints for the words to come, completion, and a history."""
from __future__ import annotations

import contextlib
import importlib
import importlib.util
import os
import shutil
import sys
import textwrap
from typing import Any, AsyncIterator, Callable, Iterator, List, Optional, Tuple

from ..errors import printable
from ..user import User
from ..wire import MAX_COMMAND
from . import hinting
from .completion import candidates
from .history import Lines

# Modules that may be missing are imported by name, so that types are the same whether they are installed or not.
completion: Any = importlib.import_module("prompt_toolkit.completion")
filters: Any = importlib.import_module("prompt_toolkit.filters")
history: Any = importlib.import_module("prompt_toolkit.history")
lexers: Any = importlib.import_module("prompt_toolkit.lexers")
processors: Any = importlib.import_module("prompt_toolkit.layout.processors")
shortcuts: Any = importlib.import_module("prompt_toolkit.shortcuts")
styles: Any = importlib.import_module("prompt_toolkit.styles")
termios: Any = importlib.import_module("termios") if importlib.util.find_spec("termios") else None

STYLE = {"hint": "ansibrightblack", "bottom-toolbar": "noreverse ansibrightblack", "wrong": "ansired underline"}
MAX_TOLD = 3
SECONDS_BETWEEN_LOOKS = 0.5


class History(history.History):  # type: ignore[misc]
    """The lines typed before. Only `Editor.remember` adds a line, so texts that follow a command are left out."""

    def __init__(self, lines: Lines):
        super().__init__()
        self._lines = lines

    async def load(self) -> AsyncIterator[str]:
        for line in reversed(self._lines.lines):
            yield line

    def get_strings(self) -> List[str]:
        return self._lines.lines

    def append_string(self, string: str) -> None:
        pass

    def load_history_strings(self) -> Iterator[str]:
        return reversed(self._lines.lines)

    def store_string(self, string: str) -> None:
        pass


class Completer(completion.Completer):  # type: ignore[misc]
    """Completes commands, sessions, their branches, and files."""

    def __init__(self, user: Callable[[], Optional[User]]):
        self._user = user

    def get_completions(self, document: Any, event: Any) -> Iterator[Any]:
        text = document.text_before_cursor
        before, _, word = text.rpartition(" ")
        for found in candidates(before.split(), word, self._user()):
            yield completion.Completion(found, -len(word), display=found.rstrip().rsplit("/", 1)[-1] or found)


class Lexer(lexers.Lexer):  # type: ignore[misc]
    """Marks the wrong word of a line."""

    def lex_document(self, document: Any) -> Callable[[int], List[Tuple[str, str]]]:
        wrong = hinting.wrong_of(document.text) if is_line(document.text) else None
        parts = marked(document.text, wrong.place) if wrong else None
        return lambda number: parts or [("", document.lines[number])]


def is_line(text: str) -> bool:
    """Whether a text may be a command."""
    return len(text) <= MAX_COMMAND and "\n" not in text


def marked(text: str, place: int) -> List[Tuple[str, str]]:
    """The parts of a line, with the word at this place marked."""
    start = end = 0
    for word in text.split()[: place + 1]:
        start = text.index(word, end)
        end = start + len(word)
    return [("", text[:start]), ("class:wrong", text[start:end]), ("", text[end:])]


class Editor:
    """Reads lines at a terminal. `line` returns a text of the teacher, to show below them."""

    def __init__(self, lines: Lines, user: Callable[[], Optional[User]], line: Optional[Callable[[], str]] = None):
        self._lines, self._line = lines, line
        hint = processors.AfterInput(lambda: [("class:hint", hinting.words_to_come(self._typed()))])
        at_end = filters.Condition(lambda: self._session.default_buffer.document.is_cursor_at_the_end)
        self._session: Any = shortcuts.PromptSession(
            history=History(lines),
            completer=Completer(user),
            complete_while_typing=False,
            complete_style=shortcuts.CompleteStyle.READLINE_LIKE,
            lexer=Lexer(),
            input_processors=[processors.ConditionalProcessor(hint, ~filters.is_done & at_end)],
            bottom_toolbar=self._below,
            refresh_interval=0 if line is None else SECONDS_BETWEEN_LOOKS,
            style=styles.Style.from_dict(STYLE),
            enable_suspend=True,
            reserve_space_for_menu=0,
        )
        self._texts: Any = shortcuts.PromptSession(history=history.DummyHistory())

    @contextlib.contextmanager
    def begun(self) -> Iterator[None]:
        """Makes the terminal keep a Ctrl-D that is typed ahead. Between two prompts it would become a NUL."""
        if termios is None:
            yield
            return
        terminal = sys.stdin.fileno()
        before, without_end = termios.tcgetattr(terminal), termios.tcgetattr(terminal)
        without_end[-1][termios.VEOF] = bytes([os.fpathconf(terminal, "PC_VDISABLE")])
        termios.tcsetattr(terminal, termios.TCSADRAIN, without_end)
        try:
            yield
        finally:
            termios.tcsetattr(terminal, termios.TCSADRAIN, before)

    def command(self, prompt: str) -> str:
        return str(self._session.prompt(prompt))

    def text(self, prompt: str) -> str:
        return str(self._texts.prompt(prompt))

    def remember(self, line: str) -> None:
        self._lines.add(line)

    def _below(self) -> str:
        """The text below the line."""
        line = "" if self._line is None else printable(self._line())
        return "\n".join(filter(None, [told(hinting.told(self._typed())), line and told(f"the teacher: {line}")]))

    def _typed(self) -> str:
        """The line typed so far; empty for pasted lines, or a text that is too long for a command."""
        text = str(self._session.default_buffer.document.text_before_cursor)
        return text if is_line(text) else ""


def told(text: str) -> str:
    """A text as lines at the bottom of the terminal."""
    columns = shutil.get_terminal_size().columns
    return "\n".join(textwrap.wrap(text, columns - 1, max_lines=MAX_TOLD, placeholder=" .."))
