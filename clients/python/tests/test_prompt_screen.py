"""The prompt in a real terminal of 50, 80 and 120 columns: hints, completion, history, what is pasted, and help that fits."""
import os
import pathlib
import re
import shlex
from typing import Any, Iterator

import pytest

from ljclient.prompt import commands
from screens import Screen, joined, needs_tmux
from support import EXAMPLES, TOKEN
from terminals import ARGON, PROMPT, environment, slow_program

pytest.importorskip("prompt_toolkit", reason="prompt_toolkit is not installed")
pytestmark = needs_tmux

DIMER = "2\ndimer\nAr 0 0 0\nAr 1.5 0 0\n"
EMPTY = r"^ljserve>$"


@pytest.fixture
def begin(tmp_path: pathlib.Path) -> Iterator[Any]:
    """Begins a prompt in a terminal, in a folder with the file of two atoms."""
    begun = []
    (tmp_path / "dimer.xyz").write_text(DIMER)

    def prompt(columns: int = 80, **env: Any) -> Any:
        begun.append(Screen(PROMPT, environment(**env), columns, 100, tmp_path))
        begun[-1].until(EMPTY)
        return begun[-1]

    yield prompt
    for screen in begun:
        screen.close()


@pytest.mark.parametrize("columns", [50, 80, 120])
def test_a_dialogue_with_hints(begin: Any, columns: Any) -> None:
    screen = begin(columns)
    screen.type("LOAD")
    screen.until(r"^ljserve> LOAD s FILE edge sigma h \[rest\|pair\]$")
    screen.type(" a dimer.xyz ")
    screen.until(r"^ljserve> LOAD a dimer.xyz edge sigma h \[rest\|pair\]$")
    assert joined(screen.until("^edge: ")).endswith("edge: the edge of the box in the unit of the file, from 0.001 to 1000000")
    screen.type("256 1 131072")
    screen.press("Enter")
    lines = screen.until(f"^OK LOAD a 0 2\n{EMPTY}")
    assert "ljserve> LOAD a dimer.xyz 256 1 131072" in lines
    screen.says("SHOW a 0..1", f"^OK SHOW a 0 0 0 0 0\nOK SHOW a 0 1 25165824 0 0\n{EMPTY}")
    assert max(map(len, screen.lines())) <= columns


@pytest.mark.parametrize("columns", [50, 80, 120])
@pytest.mark.parametrize("name", ["", "TUG", "LOADMIX", "save"])
def test_help_fits_the_terminal(begin: Any, columns: Any, name: Any) -> None:
    screen = begin(columns)
    shown = joined(screen.says(f"help {name}", f"^ljserve> help {name}".rstrip() + f"$.*{EMPTY}"))
    for text in texts_of(name):
        assert joined([text]) in shown


def texts_of(name: Any) -> Any:
    """What help tells of a command, if the screen has room for it."""
    if not name:
        return ["Ctrl-C ends a long ADVANCE after a piece."]
    forms = commands.forms_of(name)
    meanings = [meaning for form in forms for _, meaning in commands.words_of(form.usage)]
    return [form.does for form in forms] + [own.does for own in commands.own_of(name)] + meanings[-2:]


@pytest.mark.parametrize("columns", [50, 80, 120])
def test_a_wait_fits_the_terminal(begin: Any, tmp_path: pathlib.Path, columns: Any) -> None:
    pytest.importorskip("tqdm", reason="tqdm is not installed")
    screen = begin(columns, LJSERVE=slow_program(tmp_path))
    screen.says("START a 900000", f"^OK START a 900000\n{EMPTY}")
    lines = screen.says("SHOW a 0", r"^a, about: +\d+%\|.*\d+/899\d{3} \[.*$")
    told = "waiting for the reply to `SHOW a 0`, when a is at step 900000 (Ctrl-C ends the wait)"
    assert told in joined(lines) and lines[-1].startswith("a, about: ")
    screen.press("C-c")
    left = "`SHOW a 0` is still to be answered, when a is at step 900000"
    assert f"interrupted: {left}" in joined(screen.until(f"next\\s+waits\\s+for\\s+it\n{EMPTY}"))
    screen.says("LIST", "^ljserve> LIST$.*^a, about: ")
    screen.press("C-c")
    assert f"`LIST` was not sent: {left}" in joined(screen.until(f"^ljserve> LIST$.*{EMPTY}"))
    (tmp_path / "go").touch()
    screen.says("LIST", f"^OK LIST 1\na 900000 2 0\n{EMPTY}")


@pytest.mark.parametrize("columns", [50, 80, 120])
def test_the_bar_of_an_advance_is_one_line(begin: Any, columns: Any) -> None:
    pytest.importorskip("tqdm", reason="tqdm is not installed")
    screen = begin(columns)
    screen.says(f"LOAD a {ARGON} 21.04 3.4 3706", f"^OK LOAD a 0 256\n{EMPTY}")
    lines = screen.says("ADVANCE a 900000", r"^a: +\d+%\|.*\d+/900000 \[.*$")
    assert lines[-1].startswith("a: ") and len(lines[-1]) <= columns
    screen.press("C-c")
    screen.until(rf"interrupted: this is where it has come to\nOK ADVANCE a \d+\n{EMPTY}")


def test_the_wrong_word_is_told_and_marked(begin: Any) -> None:
    screen = begin()
    screen.type("ADVANCE a ten ")
    screen.until("^n must be the number of steps, from 0 to 1000000, got `ten`$")
    assert re.search(r"\x1b\[[0-9;]*31m\S*ten", screen.colours())
    screen.press("C-u")
    screen.type("ADVNCE a")
    screen.until("^there is no command `ADVNCE`: is ADVANCE meant?")


def test_completion(begin: Any) -> None:
    screen = begin()
    screen.type("LO")
    screen.press("Tab", "Tab")
    screen.until(r"^LOAD +LOADMIX")
    screen.type(" argon dim")
    screen.press("Tab")
    screen.type("256 1 131072")
    screen.press("Enter")
    screen.until(f"^OK LOAD argon 0 2\n{EMPTY}")
    for keys in (["MEA", "Tab", "arg", "Tab"], ["bran", "Tab", "arg", "Tab", "first"], ["REST", "Tab", "arg", "Tab", "fi", "Tab"]):
        screen.press(*keys, "Enter")
    screen.until(f"^OK MEASURE argon 0 2 .*^OK BRANCH argon first 0$.*^OK RESTORE argon first 0\n{EMPTY}")


def test_a_text_that_is_typed_and_one_that_is_pasted(begin: Any) -> None:
    screen = begin()
    screen.press(*"LOAD", "Space", "a", "Space")
    screen.says("256 1 131072 rest 27", "27 bytes more>")
    for line, left in zip(DIMER.splitlines(), ["25 bytes more>", "19 bytes more>", "10 bytes more>", "OK LOAD a 0 2"]):
        screen.says(line, left)
    screen.paste((EXAMPLES / "dimer.txt").read_text())
    screen.press("Enter")
    last = (EXAMPLES / "dimer.replies").read_text().splitlines()[-1]
    screen.until(f"^{re.escape(last)}$")


def test_history(begin: Any, tmp_path: pathlib.Path) -> None:
    path = tmp_path / "history"
    screen = begin(LJCLIENT_HISTORY=str(path))
    groups = " ".join(TOKEN[start : start + 4] for start in range(0, 32, 4))
    for line in (f"HELLO ann {TOKEN}", TOKEN, groups, f"# {TOKEN}"):
        screen.says(line, f"^ljserve> {line}$.*{EMPTY}")
    screen.says("LIST", f"^OK LIST 0\n{EMPTY}")
    typed_again(screen)
    screen.press("C-d")
    assert screen.ended() == 0
    assert path.read_text() == "LIST\n"
    assert os.stat(path).st_mode & 0o777 == 0o600
    screen = begin(LJCLIENT_HISTORY=str(path))
    screen.press("Up", "Enter")
    screen.until(f"^OK LIST 0\n{EMPTY}")


@pytest.mark.parametrize("kind", ["fifo", "folder", "gone"])
def test_a_history_that_is_no_file_keeps_nothing(begin: Any, tmp_path: pathlib.Path, kind: Any) -> None:
    path = tmp_path / "history"
    if kind == "fifo":
        os.mkfifo(path)
    elif kind == "folder":
        path.mkdir()
    else:
        path = path / "none"
    screen = begin(LJCLIENT_HISTORY=str(path))
    screen.says("LIST", f"^OK LIST 0\n{EMPTY}")
    typed_again(screen)


def typed_again(screen: Any) -> None:
    """Has the LIST that was typed last be typed again from the history, on an empty screen."""
    screen.press("C-l")
    screen.until(r"\Aljserve>$")
    screen.press("Up", "Enter")
    screen.until(rf"\Aljserve> LIST\nOK LIST 0\n{EMPTY}")


def test_the_end_may_be_typed_ahead(begin: Any, tmp_path: pathlib.Path) -> None:
    screen = begin(LJSERVE=slow_program(tmp_path))
    screen.says("SHOW a 0", r"Ctrl-C\s+ends\s+the\s+wait")
    screen.press("C-d")
    screen.until(r"\^D")
    (tmp_path / "go").touch()
    assert screen.ended() == 0


def test_the_terminal_is_left_as_it_was(tmp_path: pathlib.Path) -> None:
    screen = Screen(["sh", "-c", f"{shlex.join(PROMPT)}; stty -a"], environment(), cwd=tmp_path)
    try:
        screen.until(EMPTY)
        screen.press("C-d")
        screen.until("eof = \\^D;")
    finally:
        screen.close()


def test_interrupts_at_the_prompt_and_in_a_text(begin: Any) -> None:
    screen = begin()
    screen.type("LIS")
    screen.press("C-c")
    screen.until(f"^ljserve> LIS\n.*{EMPTY}")
    screen.says("LOAD a 256 1 131072 rest 28", "28 bytes more>")
    screen.press("C-c")
    screen.until(f"28 bytes more>.*{EMPTY}")
    screen.says("LIST", f"^OK LIST 0\n{EMPTY}")
