"""What is shown while a run goes on: bars at a terminal and in a notebook, and elsewhere nothing."""
import contextlib
import fcntl
import importlib.util
import io
import os
import pty
import re
import struct
import subprocess
import sys
import termios
import types
from typing import Any, Dict, Iterator, List

import pytest

from ljclient import progress
from support import PROGRAM, SECONDS, dimer, present
from terminals import ARGON, PROMPT, Terminal, environment

NO_TQDM = "ljclient shows no progress bars, since tqdm is not installed"
with_tqdm = pytest.mark.skipif(importlib.util.find_spec("tqdm") is None, reason="tqdm is not installed")
LONG_NAME = "a-name-of-16-let"
ONE = """
import sys
from ljclient import run
with run(sys.argv[1]) as user:
    a = user.load("argon", "2\\n\\nAr 0 0 0\\nAr 1.5 0 0\\n", edge=256, sigma=1, h=131072)
    a.advance(40, progress=True, piece=10)
"""
SEVERAL = """
import sys
from ljclient import run
with run(sys.argv[1]) as user:
    names = ["a", "a-name-of-16-let", "c"]
    text, words = "2\\n\\nAr 0 0 0\\nAr 1.5 0 0\\n", {"edge": 256, "sigma": 1, "h": 131072}
    user.advance([user.load(name, text, **words) for name in names], [40, 20, 30], progress=True, piece=10)
"""


class Seen(io.StringIO):
    """A stream that says that somebody sees it."""

    def isatty(self) -> bool:
        return True


@pytest.fixture
def seen(monkeypatch: pytest.MonkeyPatch) -> Any:
    """A stream of 60 columns that somebody sees."""
    monkeypatch.setenv("COLUMNS", "61")
    monkeypatch.setenv("LINES", "41")
    return Seen()


@pytest.fixture
def no_tqdm(monkeypatch: pytest.MonkeyPatch) -> Iterator[Any]:
    """A Python without tqdm, which nobody has looked for yet."""
    monkeypatch.setitem(sys.modules, "tqdm.auto", None)  # type: ignore[misc]
    for cached in (progress._tqdm, progress._tell):
        cached.cache_clear()
    yield
    for cached in (progress._tqdm, progress._tell):
        cached.cache_clear()


def at_terminal(script: Any, columns: Any) -> Any:
    """What a script writes to its standard error, which is a terminal of so many columns."""
    ours, theirs = pty.openpty()
    fcntl.ioctl(theirs, termios.TIOCSWINSZ, struct.pack("HHHH", 40, columns, 0, 0))
    words = [sys.executable, "-c", script, PROGRAM]
    child = subprocess.Popen(words, stdin=subprocess.DEVNULL, stdout=subprocess.PIPE, stderr=theirs, env=environment())
    os.close(theirs)
    out, _ = child.communicate(timeout=SECONDS)
    shown = os.read(ours, 1 << 16).decode()
    os.close(ours)
    assert (child.returncode, out) == (0, b"")
    return shown


def screen(shown: Any, columns: Any) -> List[Any]:
    """The lines of a terminal to which this was written. What is longer than a line goes on in the next one."""
    lines: Dict[Any, Any] = {}
    row, column = 0, 0
    for part in re.findall(r"\x1b\[[AK]|[^\x1b]", shown):
        if part == "\x1b[A":
            row -= 1
        elif part == "\x1b[K":
            lines[row] = lines.get(row, "")[:column]
        elif part == "\r":
            column = 0
        elif part == "\n":
            row += 1
        else:
            if column == columns:
                row, column = row + 1, 0
            line = lines.get(row, "").ljust(column)
            lines[row] = line[:column] + part + line[column + 1 :]
            column += 1
    return [lines[row].rstrip() for row in sorted(lines)]


@with_tqdm
@pytest.mark.parametrize("columns", [50, 80])
def test_a_bar_is_one_line_of_the_terminal(columns: Any) -> None:
    (line,) = screen(at_terminal(ONE, columns), columns)
    assert re.match(r"argon: 100%\|.*\| 40/40 \[", line)


@with_tqdm
@pytest.mark.parametrize("columns", [50, 80])
def test_several_bars_are_a_line_each(columns: Any) -> None:
    lines = screen(at_terminal(SEVERAL, columns), columns)
    assert [line.split(":")[0] for line in lines] == ["a".ljust(16), LONG_NAME, "c".ljust(16)]
    assert [present(re.search(r"\| (\d+/\d+) \[", line))[1] for line in lines] == ["40/40", "20/20", "30/30"]


@with_tqdm
@pytest.mark.parametrize("columns", [50, 80])
def test_the_bar_of_the_prompt_is_one_line(columns: Any) -> None:
    terminal = Terminal(PROMPT, environment(), columns)
    try:
        terminal.until("ljserve> ")
        terminal.type(f"LOAD {LONG_NAME} {ARGON} 21.04 3.4 131072\r")
        terminal.until(f"OK LOAD {LONG_NAME} 0 256\n")
        begun = len(terminal.written)
        terminal.type(f"ADVANCE {LONG_NAME} 900000\r")
        for _ in range(3):
            terminal.until(r"\d+/900000 \[")
        written = terminal.written[begun:]
        terminal.interrupt()
        terminal.until(f"OK ADVANCE {LONG_NAME} ")
    finally:
        terminal.close()
    drawn = [part for part in re.split(r"[\r\n]", written) if "/900000 [" in part]
    assert len(drawn) >= 3
    assert max(len(re.sub(r"\x1b\[\??\d*[a-zA-Z]", "", part)) for part in drawn) <= columns


@with_tqdm
def test_a_bar_is_drawn_as_the_run_goes_on(user: Any, seen: Any) -> None:
    with contextlib.redirect_stderr(seen):
        assert dimer(user).advance(40, piece=10, progress=True) == 40
    drawn = seen.getvalue().split("\r")
    assert "a:   0%|" in drawn[1] and "| 0/40 [" in drawn[1]
    assert "a: 100%|" in drawn[-1] and "| 40/40 [" in drawn[-1]
    assert max(len(line.rstrip("\n")) for line in drawn) <= 60


@with_tqdm
def test_an_error_ends_the_line_of_the_bar(user: Any, seen: Any, monkeypatch: pytest.MonkeyPatch) -> None:
    a = dimer(user)
    ask, asked = user.ask_all, []

    def ask_twice(lines: Any) -> Any:
        asked.append(lines)
        return ask(lines) if len(asked) < 3 else 1 / 0

    monkeypatch.setattr(user, "ask_all", ask_twice)
    with pytest.raises(ZeroDivisionError), contextlib.redirect_stderr(seen):
        a.advance(40, piece=10, progress=True)
    assert re.search(r"\| 20/40 \[[^\r]*\]\n\Z", seen.getvalue())


@with_tqdm
def test_samples_have_one_bar(user: Any, seen: Any) -> None:
    with contextlib.redirect_stderr(seen):
        assert dimer(user).sample(every=10, frames=5, progress=True).steps == [0, 10, 20, 30, 40]
    assert "| 40/40 [" in seen.getvalue()
    assert seen.getvalue().count("\n") == 1


def test_nobody_looks(user: Any, seen: Any) -> None:
    with contextlib.redirect_stderr(seen):
        assert dimer(user).advance(40, piece=10) == 40
    for stream in (io.StringIO(), None):
        pair = [user.session("a"), dimer(user, "b", replace=True)]
        with contextlib.redirect_stderr(stream):
            assert user.advance(pair, [20, 20], piece=10, progress=True)[1] == 20
        assert stream is None or stream.getvalue() == ""
    assert seen.getvalue() == ""


def test_a_function_is_told(user: Any, seen: Any) -> None:
    told = []
    with contextlib.redirect_stderr(seen):
        dimer(user).advance(40, piece=10, progress=lambda *words: told.append(words))
    assert told == [(0, 40), (10, 40), (20, 40), (30, 40), (40, 40)]
    assert seen.getvalue() == ""


def test_a_function_is_told_of_two(user: Any, seen: Any) -> None:
    told = []
    pair = [dimer(user), dimer(user, "bcd")]
    with contextlib.redirect_stderr(seen):
        assert user.advance(pair, [40, 20], piece=10, progress=lambda *words: told.append(words)) == [40, 20]
    begun = [("a", 0, 40), ("bcd", 0, 20), ("a", 10, 40), ("bcd", 10, 20), ("a", 20, 40), ("bcd", 20, 20)]
    assert told == [*begun, ("a", 30, 40), ("a", 40, 40)]
    assert seen.getvalue() == ""


@with_tqdm
def test_a_notebook_has_bars_though_its_streams_are_no_terminal(user: Any, seen: Any, monkeypatch: pytest.MonkeyPatch) -> None:
    class ZMQInteractiveShell:
        config: Dict[Any, Any] = {}

    notebook: Any = types.ModuleType("IPython")
    notebook.get_ipython = ZMQInteractiveShell
    monkeypatch.setitem(sys.modules, "IPython", notebook)
    monkeypatch.setattr(seen, "isatty", lambda: False)
    with contextlib.redirect_stderr(seen):
        dimer(user).advance(40, piece=10, progress=True)
    assert "| 40/40 [" in seen.getvalue()


def test_without_tqdm_it_is_said_once_that_there_are_no_bars(user: Any, seen: Any, no_tqdm: Any) -> None:
    a, b = dimer(user), dimer(user, "b")
    with contextlib.redirect_stderr(seen):
        assert a.advance(40, progress=True) == 40
        assert user.advance([a, b], 10, progress=True) == [50, 10]
    assert seen.getvalue() == f"{NO_TQDM}: `pip install tqdm`, or Debian's python3-tqdm\n"
