"""What the prompt tells while it waits: for what, how far that is, and what an interrupt leaves."""
import pathlib
import importlib.util
import re
from typing import Any, Iterator, List

import pytest

from support import DIMER
from terminals import PROMPT, Terminal, environment, slow_program

with_tqdm = pytest.mark.skipif(not importlib.util.find_spec("tqdm"), reason="tqdm is not installed")


@pytest.fixture
def begin(tmp_path: pathlib.Path) -> Iterator[Any]:
    """Begins a prompt over a slow program, which ends at the last of so many steps that are asked for."""
    begun = []

    def prompt(last: int = 0) -> Any:
        begun.append(Terminal(PROMPT, environment(LJSERVE=slow_program(tmp_path, last)), cwd=tmp_path))
        begun[-1].until("ljserve> ")
        return begun[-1]

    yield prompt
    for terminal in begun:
        terminal.close()


def says(terminal: Any, line: Any, wanted: str = "ljserve> ") -> Any:
    """Types a line, and returns what is shown up to what is wanted, without the line itself."""
    terminal.type(line + "\r")
    terminal.until(re.escape(line) + "\n")
    return terminal.until(wanted)


def replies(terminal: Any, line: Any) -> List[Any]:
    """The replies to a line, without what is told and drawn beside them if they take long."""
    return [each for each in says(terminal, line).splitlines() if re.match("OK |ERR ", each)]


def test_what_is_waited_for_is_told(begin: Any, tmp_path: pathlib.Path) -> None:
    terminal = begin()
    assert says(terminal, "START a 900000") == "OK START a 900000\nljserve> "
    told = "waiting for the reply to `SHOW a 0`, when a is at step 900000"
    says(terminal, "SHOW a 0", re.escape(told))
    terminal.interrupt()
    left = "`SHOW a 0` is still to be answered, when a is at step 900000"
    assert f"\n  interrupted: {left}. What is typed next waits for it\n" in terminal.until("ljserve> ")
    says(terminal, "LIST", re.escape(told))
    terminal.interrupt()
    assert f"\n  `LIST` was not sent: {left}\n" in terminal.until("ljserve> ")
    says(terminal, "LIST", re.escape(told))
    (tmp_path / "go").touch()
    assert terminal.until("ljserve> ").endswith("OK LIST 1\na 900000 2 0\nljserve> ")
    assert says(terminal, "SHOW a 0") == "OK SHOW a 900000 0 1 2 3\nljserve> "


@with_tqdm
def test_a_wait_has_a_bar(begin: Any, tmp_path: pathlib.Path) -> None:
    terminal = begin()
    says(terminal, "START a 900000")
    says(terminal, "SHOW a 0", r"a, about: +\d+%\|.*\| \d+/899\d{3} \[")
    (tmp_path / "go").touch()
    shown = terminal.until("OK SHOW a 900000 0 1 2 3\nljserve> ")
    assert re.search(r"a, about: 100%\|.*\| (899\d{3})/\1 \[", shown)


def test_a_wait_without_started_steps_is_told_too(begin: Any, tmp_path: pathlib.Path) -> None:
    terminal = begin()
    says(terminal, "SHOW a 0", re.escape("waiting for the reply to `SHOW a 0` (Ctrl-C ends the wait)"))
    (tmp_path / "go").touch()
    terminal.until("OK SHOW a 0 0 1 2 3\nljserve> ")


def test_the_command_is_named_as_it_was_typed(begin: Any) -> None:
    terminal = begin(last=2)
    told = " ".join(says(terminal, "ADVANCE a 1000000").split())
    assert "; `ADVANCE a 1000000` was not answered" in told
    assert told.count("`ADVANCE") == 1


def test_what_takes_several_commands_is_given_up(begin: Any, tmp_path: pathlib.Path) -> None:
    terminal = begin()
    says(terminal, "SHOW a 0..1", "waiting for the reply to `SHOW a 0..1`")
    terminal.interrupt()
    assert "  interrupted: `SHOW a 0..1` is given up. What it has asked for is waited for next\n" in terminal.until("ljserve> ")
    (tmp_path / "go").touch()
    assert says(terminal, "LIST").endswith("OK LIST 1\na 0 2 0\nljserve> ")


def test_a_start_by_many_steps_is_one_start(tmp_path: pathlib.Path) -> None:
    """Its first steps are waited for, which changes nothing: two atoms are where they are after as many steps in one go."""
    terminal = Terminal(PROMPT, environment(), cwd=tmp_path)
    terminal.until("ljserve> ")
    (tmp_path / "dimer.xyz").write_text(DIMER)
    for name, line, reply in (("a", "START a 1500", "OK START a 1500"), ("b", "ADVANCE b 1500", "OK ADVANCE b 1500")):
        says(terminal, f"LOAD {name} dimer.xyz 256 1 131072")
        assert replies(terminal, line) == [reply]
    assert replies(terminal, "START a 20") == ["OK START a 1520"]
    assert replies(terminal, "ADVANCE b 20") == ["OK ADVANCE b 1520"]
    shown = replies(terminal, "SHOW a 0..1")
    assert len(shown) == 2 and shown == [each.replace("SHOW b", "SHOW a") for each in replies(terminal, "SHOW b 0..1")]
    terminal.close()


def test_a_command_that_was_left_is_named_if_the_connection_ends(begin: Any, tmp_path: pathlib.Path) -> None:
    terminal = begin()
    says(terminal, "SHOW a 0", "waiting")
    terminal.interrupt()
    terminal.until("ljserve> ")
    says(terminal, "LIST", "waiting")
    (tmp_path / "end").touch()
    assert "; `SHOW a 0` was not answered" in " ".join(terminal.until("ljserve> ").split())
