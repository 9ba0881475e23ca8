"""`tools/class` starts the server of a class, makes its users, and shows who is in until it is ended."""
import contextlib
import os
import pathlib
import re
import select
import signal
import socket
import stat
import sys
from importlib.machinery import SourceFileLoader
from importlib.util import module_from_spec, spec_from_loader
from typing import Any, Iterator, Tuple

import pytest

from lessons import CLASS, ENVIRONMENT, REACHED, Lesson, is_gone, told
from ljclient import Refused, connect
from support import SECONDS, TOKEN, TOP, dimer, present
from terminals import Terminal

HERE = ["--listen", "127.0.0.1:0", "--workers", "1", "--no-page"]
GOOD = f"ann {TOKEN} 8 16384 16\n"
OTHER_TOKEN = "b" * 32
ENDED = r"the class has ended, and everything is kept in class-kept: `tools/class [^\n]*` goes on with it\n\Z"


@pytest.fixture
def begin(tmp_path: pathlib.Path) -> Iterator[Any]:
    """Starts a class in a folder of its own, and ends it with the test."""
    begun = []

    def lesson(*words: Any) -> Any:
        begun.append(Lesson(tmp_path, *words))
        return begun[-1]

    yield lesson
    for each in begun:
        each.close()


def users_file(folder: Any, text: str = GOOD) -> Any:
    path = folder / "mine"
    path.touch(0o600)
    path.write_text(text)
    return path


@pytest.fixture
def terminal(tmp_path: pathlib.Path) -> Iterator[Any]:
    """A class at a terminal without TLS, of the user ann."""
    begun = Terminal([*CLASS, "--users", str(users_file(tmp_path)), "--plain", *HERE], ENVIRONMENT, cwd=tmp_path)
    yield begun
    if begun.child.poll() is None:
        begun.child.terminate()
        begun.child.wait(SECONDS)
    begun.close()


def port_of(terminal: Any) -> int:
    return int(present(re.search(REACHED, terminal.until(REACHED)))[1])


def test_a_student_comes_in_by_what_the_slip_says(begin: Any, tmp_path: pathlib.Path) -> None:
    lesson = begin("2")
    assert "2 users in class-kept, slips in slips.txt and slips.html are new: only you can read them\n" in lesson.shown
    modes = [stat.S_IMODE((tmp_path / name).stat().st_mode) for name in ("slips.txt", "slips.html", "class-kept")]
    assert modes == [0o600, 0o600, 0o700]
    slip = (tmp_path / "slips.txt").read_text()
    assert slip.count(f"at 127.0.0.1:{lesson.port}\n") == 2
    name, token = present(re.search(r"^(student02) at .*?^ +token   ([^\n]*)$", slip, re.M | re.S)).groups()
    (fingerprint,) = set(re.findall(r'fingerprint="([0-9a-f:]+)"\)$', slip, re.M))
    with connect("127.0.0.1", lesson.port, name, token, fingerprint=fingerprint, timeout=SECONDS) as user:
        assert dimer(user).advance(2) == 2
        lesson.until(rf" in +{name} ")
    lesson.until(rf" ended +{name} ")


@pytest.mark.parametrize("number", [signal.SIGTERM, signal.SIGHUP])
def test_a_signal_ends_it_with_its_server(begin: Any, number: Any) -> None:
    lesson = begin("ann")
    process = lesson.server()
    lesson.child.send_signal(number)
    status, shown = lesson.ended()
    assert status == 0 and re.search(ENDED, shown)
    assert is_gone(process)
    with pytest.raises(OSError):
        socket.create_connection(("127.0.0.1", lesson.port), SECONDS)


def test_ctrl_c_ends_it_where_nobody_is_in(terminal: Any) -> None:
    port = port_of(terminal)
    terminal.until(rf"127\.0\.0\.1:{port}  0 open\n> ")
    terminal.interrupt()
    status, shown = terminal.ended()
    assert status == 0 and re.search(ENDED, shown)


def test_ctrl_c_is_pressed_twice_where_users_are_in(terminal: Any) -> None:
    with connect("127.0.0.1", port_of(terminal), "ann", TOKEN) as user:
        terminal.until("1 open\nin +ann ")
        terminal.interrupt()
        terminal.until("1 user is in: Ctrl-C within 30 seconds ends the class, and everything is kept\n")
        assert dimer(user).advance(1) == 1
        terminal.interrupt()
        status, shown = terminal.ended()
    assert status == 0 and re.search(ENDED, shown)
    assert len(re.findall(r"  ended  ann  .*?  \d commands\n", shown)) == 1


def test_a_flood_of_one_student_shuts_nobody_out(tmp_path: pathlib.Path) -> None:
    """There are more connections than a server has places. Each one that waits has a place, and the others are closed."""
    users_file(tmp_path, GOOD + f"ben {OTHER_TOKEN} 8 16384 16\n")
    words = [*CLASS, "--users", "mine", "--plain", *HERE, "--of-an-address", "100"]
    with contextlib.closing(Terminal(words, ENVIRONMENT, cwd=tmp_path)) as begun, contextlib.ExitStack() as flood:
        port = port_of(begun)
        ann = flood.enter_context(connect("127.0.0.1", port, "ann", TOKEN))
        for _ in range(70):
            flood.enter_context(socket.create_connection(("127.0.0.1", port), SECONDS)).sendall(f"HELLO ann {TOKEN}\n".encode())
        assert "not in" not in begun.until(rf"\n> 127\.0\.0\.1:{port}  9 open\nann: 62 closed in \d+ s\nin +ann ")
        with connect("127.0.0.1", port, "ben", OTHER_TOKEN) as ben:
            assert (dimer(ben).advance(2), dimer(ann).advance(2)) == (2, 2)
            begun.until(rf"\n> 127\.0\.0\.1:{port}  10 open\n")
        begun.until(r"  ended +ben ")
        begun.interrupt()
        begun.until("1 user is in")
        begun.interrupt()
        status, shown = begun.ended()
    assert status == 0 and re.search(ENDED, shown)


def test_connections_of_an_address_that_are_not_in(begin: Any) -> None:
    """They count even before TLS. Other addresses come in, and so does this one when one of its connections has ended."""
    lesson = begin("ann", "ben", "--of-an-address", "3")
    with contextlib.ExitStack() as crowd:
        silent = [crowd.enter_context(socket.create_connection(("127.0.0.1", lesson.port), SECONDS)) for _ in range(3)]
        with socket.create_connection(("127.0.0.1", lesson.port), SECONDS) as fourth:
            assert fourth.recv(1) == b"" and select.select(silent, [], [], 0)[0] == []
        hello = f"HELLO ann {lesson.tokens()['ann']}\n".encode()
        with lesson.raw(hello, source="127.0.0.2") as other:
            assert other.recv(13) == b"OK HELLO ann\n"
        silent[0].close()
        lesson.until("not in - .*no TLS")
        with lesson.student("ben") as ben:
            assert ben.sessions() == []


def test_users_of_a_file(tmp_path: pathlib.Path, begin: Any) -> None:
    lesson = begin("--users", users_file(tmp_path))
    assert lesson.shown.startswith("1 user\n1 user in class-kept, ") and (tmp_path / "mine").read_text() == GOOD
    with lesson.student("ann", TOKEN) as user:
        assert user.sessions() == []


def test_a_quota(begin: Any) -> None:
    lesson = begin("ann", "--quota", "1", "2", "3")
    with lesson.student("ann") as user:
        dimer(user)
        with pytest.raises(Refused, match="SESSIONS"):
            dimer(user, "b")


def test_a_bad_file_of_users_begins_nothing(tmp_path: pathlib.Path) -> None:
    users_file(tmp_path, "ann\n")
    status, out, err = told(tmp_path, "--users", "mine", *HERE)
    assert status == 1 and "mine: line 1: a line must have 5 words (name, token, sessions, atoms, branches), got 1" in out
    assert err == "class: cannot begin: mine has wrong lines; correct those above\n"
    assert os.listdir(tmp_path) == ["mine"]


def test_a_token_of_two_users_begins_nothing(tmp_path: pathlib.Path) -> None:
    users_file(tmp_path, GOOD + GOOD.replace("ann", "ben"))
    status, out, err = told(tmp_path, "--users", "mine", *HERE)
    assert (status, out) == (1, "mine: line 2: each user must have a token of its own, got the one of line 1\n")
    assert err == "class: cannot begin: mine has wrong lines; correct those above\n"
    assert os.listdir(tmp_path) == ["mine"]


def test_a_port_that_is_taken_leaves_nothing(tmp_path: pathlib.Path) -> None:
    with socket.create_server(("127.0.0.1", 0)) as taken:
        address = f"127.0.0.1:{taken.getsockname()[1]}"
        assert told(tmp_path, "2", "--listen", address) == (1, "", f"class: cannot listen on {address}: Address already in use\n")
    assert os.listdir(tmp_path) == []


def test_a_program_that_is_not_there_leaves_nothing(tmp_path: pathlib.Path) -> None:
    missing = tmp_path / "none"
    wanted = f"class: cannot start {missing}: there is no such program; set LJSERVE to another\n"
    assert told(tmp_path, "2", *HERE, program=missing) == (1, "", wanted)
    assert os.listdir(tmp_path) == []


def test_a_program_that_ends_at_once_is_told(tmp_path: pathlib.Path) -> None:
    program = tmp_path / "program"
    program.write_text("#!/bin/sh\nexit 3\n")
    program.chmod(0o755)
    status, _, err = told(tmp_path, "2", *HERE, program=program)
    assert (status, err) == (1, f"class: cannot start the server: {program} does not do a trial run\n")


@pytest.mark.parametrize(
    "words, why",
    [
        ([], "the users must be given once; use COUNT, NAME.."),
        (["2", "--users", "x"], "the users must be given once; use COUNT, NAME.."),
        (["--users", "x", "--quota", "1", "1", "1"], "--quota must come with COUNT or NAME.."),
        (["1001"], "must be from 1 to 1000, got 1001"),
        (["ann", "ann"], "each name must come once, got ann twice"),
        (["2", "--slips", "x.html"], "--slips must be the file of text, such as slips.txt, got x.html: x.html is written beside it"),
        (["2", "--workers", "17"], "--workers must be from 1 to 16, got 17"),
        (["2", "--listen", "4000"], "an address must be HOST:PORT, got 4000"),
        (["2", "--address", "a b"], "--address must be a host without a port, got a b"),
        (["2", "--quota", "65", "1", "1"], "the sessions of a user must be from 0 to 64, got 65"),
        (["2", "--of-an-address", "0"], "--of-an-address must be a whole number from 1 on, got 0"),
        (["2", "--page", "4443"], "an address must be HOST:PORT, got 4443"),
        (["2", "--page", "127.0.0.1:0", "--plain"], "--page must come without --plain and --no-page, since pages need TLS"),
        (["2", "--page", "127.0.0.1:0", "--no-page"], "--page must come without --plain and --no-page, since pages need TLS"),
        (["2", "--lesson", "none.en"], "--lesson: [Errno 2] No such file or directory: 'none.steps'"),
    ],
)
def test_words_that_say_no_class(tmp_path: pathlib.Path, words: Any, why: Any) -> None:
    status, out, err = told(tmp_path, *words)
    assert (status, out) == (2, "") and err.startswith("class: ") and why in err
    assert os.listdir(tmp_path) == []


def test_help(tmp_path: pathlib.Path) -> None:
    status, out, err = told(tmp_path, "--help")
    assert (status, err) == (0, "") and "usage: class COUNT|NAME.." in out


def tool() -> Any:
    """The tool as a module."""
    sys.path.append(str(TOP / "tools"))
    loader = SourceFileLoader("class_tool", CLASS[1])
    module = module_from_spec(present(spec_from_loader("class_tool", loader)))
    loader.exec_module(module)
    return module


@pytest.mark.parametrize("processors, workers", [(1, 1), (6, 6), (40, 16)])
def test_as_many_workers_as_processors(monkeypatch: pytest.MonkeyPatch, processors: Any, workers: Any) -> None:
    module = tool()
    monkeypatch.setattr(os, "sched_getaffinity", lambda _: set(range(processors)))
    options = module.options_of(["22"])
    assert (options.workers, options.listen, len(options.names)) == (workers, "0.0.0.0:4000", 22)
    assert (str(options.keep), options.slips.text, options.quota) == ("class-kept", "slips.txt", [8, 16384, 16])
    assert str(module.options_of(["22", "--slips", "there/s.txt"]).keep) == "there/class-kept"


def test_the_address_that_students_reach(monkeypatch: pytest.MonkeyPatch) -> None:
    """If the class listens on any address, it is the one of the route to others. Without a route there is a fault."""
    module = tool()
    with socket.create_server(("127.0.0.1", 0)) as one:
        assert module.host_of(one) == "127.0.0.1"

    class Anywhere:
        family = socket.AF_INET

        def getsockname(self) -> Tuple[str, int]:
            return ("0.0.0.0", 4000)

    monkeypatch.setitem(module.SOMEWHERE, socket.AF_INET, "127.0.0.9")
    assert module.host_of(Anywhere()) == "127.0.0.1"
    monkeypatch.setitem(module.SOMEWHERE, socket.AF_INET, "255.255.255.255")
    with pytest.raises(module.Fault, match="use --address HOST, the one that students reach"):
        module.host_of(Anywhere())
