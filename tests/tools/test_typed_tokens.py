"""Tokens that somebody types from a slip: in groups, with mistakes, and with more than one try."""
import pathlib
import re
import sys
from typing import Any, Dict, Iterator

import pytest

from ljclient import ClientError, connect, tokens
from support import TOKEN, TOP, Server, present
from terminals import PROMPT, Terminal, environment

sys.path.append(str(TOP / "tools"))
from ljtools.user_files import User, Way, slip_of  # noqa: E402

TYPED = "abcdefghijkmnpqrstuvwxyz23456789"
GROUPS = "abcd efgh ijkm npqr stuv wxyz 2345 6789"
LINES = f"abcd {TYPED} 8 16384 16\n"
DENIED = "the server has no user ann with this token: type it again, or press Ctrl-C if the name is another\n"


@pytest.fixture
def begin() -> Iterator[Any]:
    """Starts a prompt of ann at a terminal, and closes it at the end."""
    begun = []

    def prompt(port: Any) -> Any:
        begun.append(Terminal([*PROMPT, f"127.0.0.1:{port}", "ann"], environment()))
        return begun[-1]

    yield prompt
    for terminal in begun:
        terminal.close()


def types(terminal: Any, *typed: Any) -> str:
    """Types each word when a token is asked for. Returns what is shown in between."""
    shown = []
    for word in typed:
        shown.append(terminal.until("token of ann: "))
        terminal.type(word + "\r")
    return "".join(shown)


def test_a_token_is_typed_in_groups(begin: Any) -> None:
    with Server(lines=LINES.replace("abcd ", "ann ", 1)) as server:
        terminal = begin(server.port)
        types(terminal, f" {GROUPS}  ")
        assert "Connected to" in terminal.until("ann> ")


def test_a_mistyped_token_is_told_before_the_server_is_asked(begin: Any) -> None:
    with Server(connections=3) as server:
        terminal = begin(server.port)
        shown = types(terminal, TOKEN[1:], "", TOKEN + "a", TOKEN[1:] + "-", TOKEN)
        terminal.until("ann> ")
    told = re.findall("^(a token .*); type it again$", shown, re.M)
    length = "a token must be 32 letters and digits, got "
    assert told == [f"{length}31", f"{length}0", f"{length}33", "a token must be letters and digits only"]
    assert TOKEN[1:] not in terminal.written


def test_a_token_that_is_denied_is_asked_for_again(begin: Any) -> None:
    with Server() as server:
        terminal = begin(server.port)
        shown = types(terminal, "b" * 32, "c" * 31, "c" * 32, TOKEN)
        terminal.until("ann> ")
    assert shown.count(DENIED) == 2


def test_the_third_token_that_is_denied_ends_the_prompt(begin: Any) -> None:
    with Server() as server:
        terminal = begin(server.port)
        assert types(terminal, "b" * 32, "c" * 32, "d" * 32).count(DENIED) == 2
        status, shown = terminal.ended()
    assert status == 1 and "ERR 01 DENIED" in shown and "token of" not in shown


def test_nothing_is_typed(begin: Any) -> None:
    terminal = begin(1)
    types(terminal, "\x04")
    assert terminal.ended() == (1, "\nljclient: cannot connect: no token was typed\n")


def test_a_stored_token_that_is_denied_is_not_asked_for() -> None:
    with Server() as server:
        terminal = Terminal([*PROMPT, f"127.0.0.1:{server.port}", "ann"], environment(LJSERVE_TOKEN="b" * 32))
        try:
            status, shown = terminal.ended()
        finally:
            terminal.close()
    assert status == 1 and "ERR 01 DENIED" in shown and "token of" not in shown


@pytest.mark.parametrize("name", ["ann", "abcd"])
def test_a_token_in_groups_alone_in_a_file(tmp_path: pathlib.Path, name: Any) -> None:
    path = tmp_path / "token"
    path.write_text(f"# mine\n{GROUPS}\n")
    assert tokens.token_of(name, str(path), False) == TYPED


def test_a_file_of_users_is_read_as_before(tmp_path: pathlib.Path) -> None:
    path = tmp_path / "users"
    path.write_text(f"ann {TOKEN} 8 16384 16\n{LINES}")
    assert tokens.token_of("abcd", str(path), False) == TYPED
    assert tokens.token_of("ann", str(path), False) == TOKEN


def test_the_environment_has_a_token_in_groups(monkeypatch: pytest.MonkeyPatch) -> None:
    monkeypatch.setenv("LJSERVE_TOKEN", f" {GROUPS}\n")
    assert tokens.token_of("ann", None, False) == TYPED


@pytest.mark.parametrize("text, fault", [("b" * 31, "32 letters and digits, got 31"), (f"ann {'!' * 32} 8 1 1", "digits only")])
def test_a_stored_token_of_the_wrong_shape_is_told_with_its_file(tmp_path: pathlib.Path, text: Any, fault: Any) -> None:
    path = tmp_path / "users"
    path.write_text(text)
    with pytest.raises(ClientError, match=f"^{re.escape(str(path))}: .*{fault}$"):
        tokens.token_of("ann", str(path), False)


def test_connect_takes_the_groups_of_a_slip() -> None:
    with Server(lines=LINES) as server, connect("127.0.0.1", server.port, "abcd", GROUPS) as user:
        assert user.sessions() == []


def test_the_python_of_a_slip_runs(tmp_path: pathlib.Path) -> None:
    with Server(lines=LINES) as server:
        slip = slip_of(User("abcd", TYPED), Way(f"127.0.0.1:{server.port}"))
        names: Dict[Any, Any] = {}
        exec("\n".join(line.strip() for line in slip[slip.index("    from ljclient") :].splitlines()), names)
        with names["user"] as user:
            assert user.name == "abcd"
    assert f"    token   {GROUPS}\n" in slip


def test_a_slip_says_how_to_come_by_the_client() -> None:
    slip = slip_of(User("abcd", TYPED), Way("192.0.2.10:4000"))
    folder = present(re.search("^    pip install (.*)$", slip, re.M))[1]
    assert f"`export PYTHONPATH={folder}`" in slip and "the folder of ljserve" in slip
    assert (TOP / folder / "pyproject.toml").is_file() and (TOP / folder / "ljclient").is_dir()
    contents = present(re.search(r"^contents=\((.*)\)$", (TOP / "bin" / "release").read_text(), re.M))[1].split()
    assert any(folder == each or folder.startswith(f"{each}/") for each in contents)
