"""Tokens stand in files of their owner alone, and on no command line: `tools/users`, `examples/session` and the scripts."""
import os
import pathlib
import re
import stat
import subprocess
import sys
from typing import Any, Dict, Tuple

import pytest

from support import EXAMPLES, PROGRAM, SECONDS, TOKEN, TOP, Server, present

USERS = str(TOP / "tools" / "users")
GOOD = f"ann {TOKEN} 8 16384 16\n"
SESSION = ["session", "127.0.0.1:1", "ann", "x.xyz", "21.04", "3.4", "131072", "100"]
SCRIPT = ["energy.py", "--steps", "500", "--server", "127.0.0.1:1", "--user", "ann"]
SCRIPTS = ["butterfly.py", "energy.py", "temperatures.py", "there_and_back.py", "unmixing.py"]


def users(folder: Any, *words: Any, **options: Any) -> Tuple[Any, Any, Any]:
    done = subprocess.run([sys.executable, USERS, *words], cwd=folder, text=True, timeout=SECONDS, **options)
    return done.returncode, done.stdout, done.stderr


def made(folder: Any, *words: Any) -> Any:
    return users(folder, *words, capture_output=True)


def mode_of(path: Any) -> Any:
    return stat.S_IMODE(os.stat(path).st_mode)


def tokens_in(path: Any) -> Any:
    return re.findall(r"^\w+ (\w{32}) ", path.read_text(), re.M)


def example(words: Any, **env: Any) -> Tuple[Any, Any]:
    """The status of an example, and what it says on standard error, where the environment has no token but that of `env`."""
    environment = {name: value for name, value in os.environ.items() if name != "LJSERVE_TOKEN"}
    environment.update({"LJSERVE": PROGRAM, "PYTHONDONTWRITEBYTECODE": "1", **env})
    command = [sys.executable, str(EXAMPLES / words[0]), *words[1:]]
    streams: Dict[str, Any] = {"stdin": subprocess.DEVNULL, "capture_output": True, "text": True}
    done = subprocess.run(command, env=environment, timeout=2 * SECONDS, **streams)
    return done.returncode, done.stderr


def test_files_are_for_their_owner_alone_whatever_the_umask(tmp_path: pathlib.Path) -> None:
    before = os.umask(0)
    try:
        assert made(tmp_path, "2", "--out", "users", "--slips", "slips") == (0, "", "")
    finally:
        os.umask(before)
    assert sorted(os.listdir(tmp_path)) == ["slips", "users"]
    assert (mode_of(tmp_path / "users"), mode_of(tmp_path / "slips")) == (0o600, 0o600)
    shown = re.findall("token   (.*)", (tmp_path / "slips").read_text())
    assert [token.replace(" ", "") for token in shown] == tokens_in(tmp_path / "users")
    assert made(tmp_path, "--check", "users") == (0, "2 users\n", "")


def test_the_slips_follow_the_users_if_they_have_no_file(tmp_path: pathlib.Path) -> None:
    assert made(tmp_path, "ann", "--server", "räume:4000", "--out", "users") == (0, "", "")
    assert made(tmp_path, "--check", "users") == (0, "1 user\n", "")
    (token,) = tokens_in(tmp_path / "users")
    assert f"#     token   {' '.join(re.findall('....', token))}\n" in (tmp_path / "users").read_text()


@pytest.mark.parametrize("there", ["users", "slips"])
def test_a_file_that_is_there_stays(tmp_path: pathlib.Path, there: Any) -> None:
    (tmp_path / there).write_text("precious")
    status, out, err = made(tmp_path, "2", "--out", "users", "--slips", "slips")
    assert (status, out) == (1, "")
    assert err == f"users: cannot write {there}: it exists already; use another name, or --replace\n"
    assert os.listdir(tmp_path) == [there] and (tmp_path / there).read_text() == "precious"


def test_a_file_is_written_anew_if_that_is_asked_for(tmp_path: pathlib.Path) -> None:
    (tmp_path / "users").write_text(GOOD)
    (tmp_path / "users").chmod(0o644)
    assert made(tmp_path, "ann", "--out", "users", "--replace") == (0, "", "")
    assert mode_of(tmp_path / "users") == 0o600
    (token,) = tokens_in(tmp_path / "users")
    assert token != TOKEN


@pytest.mark.parametrize("words", [["--out", "no/users"], ["--out", "users", "--slips", "no/slips"]])
def test_what_cannot_be_written_leaves_nothing(tmp_path: pathlib.Path, words: Any) -> None:
    status, out, err = made(tmp_path, "2", *words)
    assert (status, out, err) == (1, "", f"users: cannot write {words[-1]}: No such file or directory\n")
    assert os.listdir(tmp_path) == []


@pytest.mark.parametrize(
    "words, why",
    [
        (["2", "--out", "x", "--slips", "./x"], "--out and --slips must be two files, got one"),
        (["2", "--replace"], "--replace must come with --out or --slips"),
        (["--check", "x", "--out", "y"], "--check must come without --out"),
    ],
)
def test_words_that_do_not_go_together(tmp_path: pathlib.Path, words: Any, why: Any) -> None:
    status, out, err = made(tmp_path, *words)
    assert (status, out) == (2, "") and why in err
    assert os.listdir(tmp_path) == []


@pytest.mark.parametrize("mode, word", [(0o644, "read"), (0o640, "read"), (0o620, "change"), (0o666, "read and change")])
def test_a_check_warns_of_a_file_that_is_open_to_others(tmp_path: pathlib.Path, mode: Any, word: Any) -> None:
    path = tmp_path / "my users"
    path.write_text(GOOD)
    path.chmod(mode)
    warning = f"my users: its mode lets others {word} it, with all tokens; use `chmod 600 'my users'` to leave it to its owner"
    assert made(tmp_path, "--check", "my users") == (0, f"1 user\n{warning}\n", "")
    subprocess.run(present(re.search("`(.*)`", warning))[1], shell=True, check=True, cwd=tmp_path)
    assert made(tmp_path, "--check", "my users") == (0, "1 user\n", "")


def test_a_check_tells_faults_and_warns(tmp_path: pathlib.Path) -> None:
    (tmp_path / "users").write_text("ann\n")
    (tmp_path / "users").chmod(0o644)
    status, out, _ = made(tmp_path, "--check", "users")
    assert (status, len(out.splitlines())) == (1, 2)


@pytest.mark.parametrize("mask, warns", [(0o022, True), (0o077, False)])
def test_printing_into_a_file_that_others_can_read_is_told(tmp_path: pathlib.Path, mask: Any, warns: Any) -> None:
    before = os.umask(mask)
    try:
        with open(tmp_path / "users", "w") as file:
            status, _, err = users(tmp_path, "2", stdout=file, stderr=subprocess.PIPE)
    finally:
        os.umask(before)
    wanted = "users: the mode of the file that these tokens were printed into lets others read it; use --out FILE\n"
    assert (status, err) == (0, wanted if warns else "")
    assert len(tokens_in(tmp_path / "users")) == 2


def test_what_is_printed_into_a_pipe_needs_no_warning(tmp_path: pathlib.Path) -> None:
    status, out, err = made(tmp_path, "1")
    assert (status, err) == (0, "") and "student01" in out


@pytest.mark.parametrize("name", SCRIPTS)
def test_no_script_takes_a_token_on_the_command_line(name: Any) -> None:
    status, told = example([name, "--server", "127.0.0.1:1", "--user", "ann", "--token", TOKEN])
    assert status == 2 and TOKEN not in told
    assert "a token must not be on the command line, where others can see it; use --token-file FILE or LJSERVE_TOKEN" in told


def test_the_session_takes_no_token_on_the_command_line() -> None:
    for words in ([*SESSION[:3], TOKEN, *SESSION[3:]], [*SESSION, "--token", TOKEN], [*SESSION, f"--token={TOKEN}"]):
        status, told = example(words)
        assert status == 2 and TOKEN not in told
        assert "use --token-file FILE or LJSERVE_TOKEN" in told


@pytest.mark.parametrize("words", [SESSION, SCRIPT], ids=["session", "script"])
def test_a_token_that_is_not_there_is_told(tmp_path: pathlib.Path, words: Any) -> None:
    name = words[0]
    assert example(words) == (1, f"{name}: cannot connect: there is no token; use --token-file FILE, or set LJSERVE_TOKEN\n")
    missing, other = str(tmp_path / "none"), tmp_path / "users"
    other.write_text(GOOD.replace("ann", "ben"))
    assert example([*words, "--token-file", missing]) == (1, f"{name}: cannot read {missing}: No such file or directory\n")
    assert example([*words, "--token-file", str(other)]) == (
        1,
        f"{name}: cannot find a token of ann in {other}; use a file with the token alone, or a file of users\n",
    )
    short = f"{name}: LJSERVE_TOKEN: a token must be 32 letters and digits, got 8\n"
    assert example(words, LJSERVE_TOKEN="two words") == (1, short)


@pytest.mark.parametrize("text", [TOKEN + "\n", "aaaa " * 8, "# users\n" + GOOD], ids=["alone", "in groups", "users"])
def test_the_examples_read_a_token_from_a_file(tmp_path: pathlib.Path, text: Any) -> None:
    (tmp_path / "token").write_text(text)
    where = ["--token-file", str(tmp_path / "token")]
    with Server() as server:
        address = f"127.0.0.1:{server.port}"
        status, told = example(["session", address, "ann", str(EXAMPLES / "argon_256.xyz"), "21.04", "3.4", "131072", "1", *where])
        assert status == 0 and told.startswith("step 1: atom 0 at ")
        script = ["there_and_back.py", "--steps", "40", "--server", address, "--user", "ann"]
        assert example([*script, *where], LJSERVE_TOKEN="w" * 32) == (0, "")
        assert example(script, LJSERVE_TOKEN=TOKEN) == (0, "")
