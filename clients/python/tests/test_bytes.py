"""Bytes of a server, of a program and of a file that a terminal would heed: they never reach it, and are no reply."""
import contextlib
import os
import pathlib
import subprocess
import sys
from typing import Any, Callable, Dict, Iterator, Tuple

import pytest

from ljclient import BadReply, CannotStart, Closed, ConnectionLost, Refused, run
from ljclient.errors import printable, shown
from support import DIMER, SECONDS, TOKEN, TOP, joined, peer, read_line, says, stays
from terminals import PROMPT, Terminal, environment

sys.path.append(str(TOP / "tools"))
from ljtools.keeping import sessions  # noqa: E402

# What sets the title of a terminal; what it answers by keys that are typed by nobody begins alike.
TITLE = b"\x1b]0;owned\x07"
FRAME = b"OK DUMP a 0 4\n2\nstep 0\nAr 0.000000 0.000000 0.000000\nAr 1.500000 0.000000 0.000000\n"
SHOWN = b"OK SHOW a 0 0 0 0 0\n"

# A command of the client that waits for a reply, and this reply.
Asked = Tuple[Callable[[Any], object], bytes]
REPLIES: Dict[str, Asked] = {
    "first line": (lambda user: user.ask("MEASURE a"), b"OK MEASURE a 0@\n"),
    "row of a list": (lambda user: user.sessions(), b"OK LIST 1\na@ 0 2 0\n"),
    "atom": (lambda user: user.ask("SHOW a 0"), SHOWN.replace(b" 0\n", b" 0@\n")),
    "rows of atoms": (lambda user: user._ask_rows(["SHOW a 0"] * 3), SHOWN * 2 + SHOWN.replace(b" 0\n", b" 0@\n")),
    "frame": (lambda user: user.ask("DUMP a"), FRAME.replace(b"Ar 1", b"A@ 1")),
    "text of a frame": (lambda user: user._ask_text("DUMP a"), FRAME.replace(b"Ar 1", b"A@ 1")),
    "refusal": (lambda user: user.ask("SHOW a 0"), b"ERR 10 NO@SESSION\n"),
}
OTHERS = [b"\x1b[31m", b"\x07", b"\x00", b"\t", b"\r", b"\x7f", b"\x9b31m", "é".encode()]


@pytest.mark.parametrize("other", OTHERS, ids=repr)
@pytest.mark.parametrize("what", REPLIES)
def test_a_reply_with_other_bytes_is_none(what: str, other: bytes) -> None:
    ask, reply = REPLIES[what]
    with peer(says(reply.replace(b"@", other), then=stays)) as port, joined(port) as user:
        with pytest.raises(BadReply, match="is not text of the protocol") as caught:
            ask(user)
        assert str(caught.value).isprintable() and repr(other)[2:-1] in str(caught.value)
        with pytest.raises(Closed) as closed:
            user.ask("LIST")
        assert str(closed.value).isprintable()


@pytest.mark.parametrize("what", REPLIES)
def test_replies_of_printing_characters_are_taken(what: str) -> None:
    ask, reply = REPLIES[what]
    with peer(says(reply.replace(b"@", b"~"))) as port, joined(port) as user:
        with contextlib.suppress(Refused):
            ask(user)
        user._wire.close()


def greets(connection: Any, stop: Any) -> None:
    connection.recv(1 << 10)
    connection.sendall(b"OK HELLO " + TITLE + b"\n")
    stays(connection, stop)


def test_a_greeting_with_other_bytes() -> None:
    with peer(greets) as port, pytest.raises(BadReply, match="another kind of server") as caught:
        joined(port)
    assert str(caught.value).isprintable() and TOKEN not in str(caught.value)


def test_other_bytes_in_pieces() -> None:
    def slowly(connection: Any, stop: Any) -> None:
        read_line(connection)
        for piece in (b"OK LI", b"ST 1\na ", b"\x1b", b"]0;owned"):
            connection.sendall(piece)
        stays(connection, stop)

    with peer(says(then=slowly)) as port, joined(port) as user:
        with pytest.raises(BadReply, match="not text of the protocol"):
            user.sessions()


@contextlib.contextmanager
def prompt_of(talk: Any) -> Iterator[Terminal]:
    """A prompt at a terminal, of a server that talks so."""
    with peer(talk) as port:
        words = [*PROMPT, f"127.0.0.1:{port}", "ann"]
        with contextlib.closing(Terminal(words, environment(LJSERVE_TOKEN=TOKEN))) as terminal:
            yield terminal


@pytest.mark.parametrize("talk", [greets, says(b"OK LIST 1\n" + TITLE + b" 0 2 0\n", then=stays)], ids=["greeting", "first list"])
def test_a_prompt_that_is_not_let_in_shows_what_it_got(talk: Any) -> None:
    with prompt_of(talk) as terminal:
        status, _ = terminal.ended()
        assert status == 1 and r"\x1b]0;owned\x07" in terminal.written and TITLE.decode() not in terminal.written


TYPED = {
    "LIST": b"OK LIST 1\n" + TITLE + b" 0 2 0\n",
    "LIST a": b"OK LIST a 1\n" + TITLE + b" 0\n",
    "SHOW a 0": b"OK SHOW a 0 0 0 0 " + TITLE + b"\n",
    "DUMP a": FRAME.replace(b"Ar 1", TITLE + b" 1"),
    "MEASURE a": b"ERR 10 " + TITLE + b"\n",
    "NONE": b"ERR 06 COMMAND" + TITLE + b"\n",
}


@pytest.mark.parametrize("typed", TYPED)
def test_a_prompt_prints_no_byte_that_a_terminal_heeds(typed: str) -> None:
    with prompt_of(says(b"OK LIST 0\n", TYPED[typed], then=stays)) as terminal:
        terminal.until("ann> ")
        terminal.type(typed + "\r")
        told = terminal.until("ann> ")
        assert "not text of the protocol" in " ".join(told.split()) and r"\x1b" in told
        assert TITLE.decode() not in terminal.written and "\x07" not in terminal.written


def program_that(folder: pathlib.Path, text: str) -> str:
    """A program of a folder that does this."""
    path = folder / "ljserve"
    path.write_text(f"#!{sys.executable}\nimport sys\n{text}\n")
    path.chmod(0o755)
    return str(path)


def test_the_last_words_of_a_program_are_shown(tmp_path: pathlib.Path) -> None:
    program = program_that(tmp_path, r"sys.stderr.write('\x1b]0;owned\x07 out of luck'); sys.exit(3)")
    with pytest.raises(CannotStart, match=r"status 3 \(\\x1b\]0;owned\\x07 out of luck\)"):
        run(program)


def test_those_of_one_that_has_answered_too(tmp_path: pathlib.Path) -> None:
    program = program_that(tmp_path, r"sys.stdin.readline(); print('OK LIST 0', flush=True); sys.exit('first\n\x1b[31msecond')")
    with run(program) as user, pytest.raises(ConnectionLost, match=r"\(first\n\\x1b\[31msecond\)"):
        user.ask("LIST")


def at_prompt(folder: pathlib.Path, line: str) -> str:
    """What a terminal gets for a line that is typed at a prompt in a folder."""
    with contextlib.closing(Terminal(PROMPT, environment(), cwd=folder)) as terminal:
        terminal.until("ljserve> ")
        terminal.type(line + "\r")
        terminal.until("ljserve> .*ljserve> " if line.startswith(".read") else "ljserve> ")
        return terminal.written


def test_a_file_that_is_read_is_shown(tmp_path: pathlib.Path) -> None:
    (tmp_path / "lesson").write_bytes(b"LIST " + TITLE + b"\n")
    written = at_prompt(tmp_path, ".read lesson")
    assert r"ljserve> LIST \x1b]0;owned\x07" in written and TITLE.decode() not in written


def test_a_faulty_line_of_a_file_is_shown(tmp_path: pathlib.Path) -> None:
    (tmp_path / "bad.xyz").write_bytes(DIMER.encode().replace(b"1.5", TITLE))
    written = at_prompt(tmp_path, "LOAD a bad.xyz 256 1 131072")
    assert r"line 4: Ar \x1b]0;owned\x07 0 0" in written and TITLE.decode() not in written


def test_a_lattice_of_a_file_is_shown(tmp_path: pathlib.Path) -> None:
    (tmp_path / "bad.xyz").write_bytes(b'1\nLattice="' + TITLE + b'"\nAr 0 0 0\n')
    written = at_prompt(tmp_path, "LOAD a bad.xyz dt=2fs argon")
    assert r"\x1b]0;owned\x07" in written and TITLE.decode() not in written


TEXTS = {
    r"\x1b[31m": "\x1b[31m",
    r"a\rb": "a\rb",
    r"\x9b31m\x7f": "\x9b31m\x7f",
    r"file\u202etxt.exe": "file\u202etxt.exe",
    r"\udcff": os.fsdecode(b"\xff"),
    "plain text, é and 原子\nof two lines\tand a tab": "plain text, é and 原子\nof two lines\tand a tab",
}


@pytest.mark.parametrize("wanted", TEXTS)
def test_printable(wanted: str) -> None:
    assert printable(TEXTS[wanted]) == wanted


def test_commands_of_messages_are_printable() -> None:
    assert shown("SHOW \x1b[31m 0") == r"SHOW \x1b[31m 0"


def test_a_reply_that_a_kept_server_cannot_give_is_shown() -> None:
    assert sessions.shown(b"OK " + TITLE + b"\x9b31m\r\nmore\n") == r"OK \x1b]0;owned\x07\x9b31m\x0d"


def test_the_small_client_prints_no_such_bytes(tmp_path: pathlib.Path) -> None:
    (tmp_path / "dimer.xyz").write_text(DIMER)
    numbers = ["256", "1", "131072", "2"]

    def advances(connection: Any, stop: Any) -> None:
        while not read_line(connection).startswith(b"ADVANCE "):
            pass
        connection.sendall(b"OK ADVANCE " + TITLE + b"\n")
        stays(connection, stop)

    with peer(says(b"OK LOAD run 0 0\n", then=advances)) as port:
        words = ["node", str(TOP / "examples" / "small_client.mjs"), f"127.0.0.1:{port}", "ann", "dimer.xyz", *numbers]
        try:
            done = subprocess.run(words, cwd=tmp_path, capture_output=True, env=environment(LJSERVE_TOKEN=TOKEN), timeout=SECONDS)
        except FileNotFoundError:
            pytest.skip("node is not installed")
    assert (done.returncode, done.stdout, done.stderr) == (1, b"", b"small_client: a reply is no text of the protocol\n")
