"""Lines that are typed while a class runs: they add students, give them new tokens, and end their connections."""
import contextlib
import pathlib
import re
import sys
import termios
from typing import Any, Iterator

import pytest

from lessons import CLASS, ENVIRONMENT, Lesson, lines_from
from ljclient.refusals import Denied
from support import TOP, dimer
from terminals import Terminal
from test_class_kept import secrets_in

sys.path.append(str(TOP / "tools"))
from ljtools.teaching.typing_lines import Editor  # noqa: E402

DENIED = b"ERR 01 DENIED\n"


@pytest.fixture
def lesson(tmp_path: pathlib.Path) -> Iterator[Any]:
    begun = Lesson(tmp_path, "ann", "ben")
    yield begun
    begun.close()


def test_a_student_who_is_added_comes_in_and_the_others_stay(lesson: Any) -> None:
    tokens = lesson.tokens()
    with lesson.student("ann") as ann:
        assert dimer(ann).advance(1) == 1
        lesson.types("a cleo")
        lesson.until("cleo may come in: the slip is in slips.txt and slips.html\n")
        with lesson.student("cleo") as cleo:
            assert cleo.sessions() == []
        assert ann.session("a", edge=256, sigma=1, h=131072).advance(1) == 2
    assert {name: token for name, token in lesson.tokens().items() if name != "cleo"} == tokens
    assert "<h2>cleo</h2>" in (lesson.folder / "slips.html").read_text()
    # The output is in a pipe, which may be a log.
    assert secrets_in(lesson.shown, lesson.tokens()) == []


def test_a_new_token_ends_the_connections_of_the_old_one(lesson: Any) -> None:
    old = lesson.tokens()
    with lesson.raw(f"HELLO ann {old['ann']}\n".encode()) as ann, lesson.student("ben") as ben:
        assert lines_from(ann, 1) == [b"OK HELLO ann\n"]
        lesson.types("r ann")
        lesson.until("ann has a new token, and the old one is denied: the slip is in slips.txt and slips.html\n")
        assert ended(ann) and ben.sessions() == []
    with pytest.raises(Denied):
        lesson.student("ann", old["ann"])
    with lesson.student("ann") as user:
        assert user.sessions() == []
    assert lesson.tokens()["ben"] == old["ben"] and secrets_in(lesson.shown, {**old, "new": lesson.tokens()["ann"]}) == []


def ended(stream: Any) -> bool:
    """Whether a connection has ended."""
    with contextlib.suppress(OSError):
        return bool(stream.recv(1) == b"")
    return True


def test_a_student_whose_connections_are_ended_may_come_again(lesson: Any) -> None:
    hello = f"HELLO ann {lesson.tokens()['ann']}\n".encode()
    with contextlib.ExitStack() as stack:
        first = stack.enter_context(lesson.raw(hello))
        assert lines_from(first, 1) == [b"OK HELLO ann\n"]
        second, ben = stack.enter_context(lesson.raw(hello)), stack.enter_context(lesson.student("ben"))
        lesson.until("in +ann ")
        lesson.types("k ann")
        lesson.until("ann: all connections are ended\n")
        assert ended(first) and ended(second) and ben.sessions() == []
    with lesson.student("ann") as user:
        assert user.sessions() == []


WRONG = {
    "no letter of a line": ("x", "a line must be a NAME, r NAME, k NAME, m TEXT, q or help, got 'x'"),
    "a name alone": ("cleo", "a line must be a NAME, r NAME, k NAME, m TEXT, q or help, got 'cleo'"),
    "no name": ("a", "a line must be a NAME, r NAME, k NAME, m TEXT, q or help, got 'a'"),
    "two names": ("a cleo dora", "a line must be a NAME, r NAME, k NAME, m TEXT, q or help, got 'a cleo dora'"),
    "a name behind q": ("q ann", "a line must be a NAME, r NAME, k NAME, m TEXT, q or help, got 'q ann'"),
    "a name with a mark": ("a b!", "a name must be 1 to 16 of A-Z a-z 0-9 _ -, as in `a bob`, got 'b!'"),
    "a long name": ("r abcdefghijklmnopq", "a name must be 1 to 16 of A-Z a-z 0-9 _ -, as in `r bob`, got 'abcdefghijklmnopq'"),
    "a name that is there": ("a ann", "cannot add ann: there is this user already; use `r ann` for a new token, or another name"),
    "a name that is not there": ("r zed", "there is no user zed; use `a zed` to add one"),
    "who is not there": ("k zed", "there is no user zed; use `a zed` to add one"),
    "who has no connection": ("k ann", "cannot end the connections of ann: there are none"),
    "a token": ("b" * 32, "a line must be a NAME, r NAME, k NAME, m TEXT, q or help, got '..'"),
    "a long line": ("z" * 31 + " " + "y" * 31, "got 'zzzzzzzzzzzzzzzzzzzzzzzzzzzzzzz yyyyy..'"),
}


def test_wrong_lines_change_nothing_and_say_what_to_do(lesson: Any) -> None:
    slips = lesson.slips()
    for line, why in WRONG.values():
        lesson.types(line)
        lesson.until(re.escape(why))
    lesson.types("")
    lesson.types("help")
    lesson.until("a NAME +adds a student, .*r NAME .*k NAME .*m TEXT .*q +ends the class.*help +shows these lines\n")
    assert lesson.slips() == slips and lesson.child.poll() is None


def test_q_ends_the_class(lesson: Any) -> None:
    lesson.types(" q ")
    status, shown = lesson.ended()
    assert status == 0 and "everything is kept in class-kept: `tools/class ann ben --listen" in shown


def test_an_input_that_ends_ends_nothing(lesson: Any) -> None:
    lesson.child.stdin.close()
    with lesson.student("ann") as user:
        assert user.sessions() == []


def test_what_is_typed_stays_below_what_is_drawn(tmp_path: pathlib.Path) -> None:
    """At a terminal a line is typed key by key, with corrections, while the lines above it are redrawn. The slip is shown too."""
    words, shown = [*CLASS, "ann", "--listen", "127.0.0.1:0", "--workers", "1", "--no-page"], termios.ICANON | termios.ECHO
    with contextlib.closing(Terminal(words, ENVIRONMENT, cwd=tmp_path)) as terminal:
        terminal.until("students reach you at ")
        assert not termios.tcgetattr(terminal.ours)[3] & shown
        terminal.type("a bx")
        terminal.until(r"\n> a bx\Z")
        terminal.until(r"0 open\n> a bx\Z")
        terminal.type("\x7f\x1b[Do")
        terminal.until(r"0 open\n> a bo\Z")
        terminal.type("b\r")
        told = terminal.until(r"bob may come in: the slip is in slips.txt and slips.html\n\n-+\nbob at .*fingerprint=\"[0-9a-f:]{39}\"\)\n")
        (token,) = re.findall(r"\n    token   ([^\n]*)\n", told)
        assert (tmp_path / "slips.txt").read_text().count(token) == 2
        terminal.until(r"0 open\n> \Z")
        terminal.type("q\r")
        assert terminal.ended()[0] == 0
        assert termios.tcgetattr(terminal.ours)[3] & shown == shown


KEYS = {
    "a\n": (["a"], ""),
    "a b\rc": (["a b"], "c"),
    "abc\x7f\x08x\r": (["ax"], ""),
    "\x7f\r": ([""], ""),
    "a bob\x15q\r": (["q"], ""),
    "a bob  \x17ben\r": (["a ben"], ""),
    "\x17\r": ([""], ""),
    "a\x1b[D\x1b[3~\x1bOAb\r": (["ab"], ""),
    "\x00\x04a\t\r": (["a"], ""),
    "a" * 300 + "\r": (["a" * 200], ""),
}


@pytest.mark.parametrize("keys", KEYS, ids=ascii)
def test_keys(keys: str) -> None:
    editor = Editor()
    lines = [line for key in keys if (line := editor.take(key)) is not None]
    assert (lines, editor.line) == KEYS[keys]
