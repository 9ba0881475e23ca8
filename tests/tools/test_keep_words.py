"""How `tools/keep` answers wrong words: those of its command line, and the lines of connections."""
import pathlib
import socket
from typing import Any, Iterator

import pytest

from keepers import HELLO, TOKEN, Keeper, ended, first_line
from support import PROGRAM, SECONDS

DENIED = b"ERR 01 DENIED\n"


ENDS = {
    "BYE": (b"LIST\nBYE\nLIST\n", b"OK LIST 0\nOK BYE\n"),
    "BODY": (b"LOAD a\nLIST\n", b"ERR 04 BODY\n"),
    "LONG": (b"x" * 65536 + b"LIST\n", b"ERR 05 LONG\n"),
    "no line feed": (b"LIST\nLIST", b"OK LIST 0\n"),
    "a body that is cut short": (b"LOAD a 256 1 1 rest 12\n1\n", b""),
    "another HELLO": (f"HELLO ann {TOKEN}\n".encode(), b"ERR 06 COMMAND\n"),
}


@pytest.fixture(scope="module")
def kept(tmp_path_factory: pytest.TempPathFactory) -> Iterator[Any]:
    with Keeper(tmp_path_factory.mktemp("kept")) as keeper:
        yield keeper


@pytest.mark.parametrize("sent, told", ENDS.values(), ids=ENDS)
def test_how_a_connection_ends(kept: Any, sent: Any, told: Any) -> None:
    assert kept.told(sent, "ann") == HELLO + told


FIRST_LINES = {
    "no HELLO": b"LIST\n",
    "a long line": f"HELLO ann {TOKEN}{' ' * 257}\n".encode(),
    "another name": f"HELLO ben {TOKEN}\n".encode(),
    "more words": f"HELLO ann {TOKEN} x\n".encode(),
    "an empty line": b"\n",
    "no end of it": b"x" * 300,
}


@pytest.mark.parametrize("line", FIRST_LINES.values(), ids=FIRST_LINES)
def test_who_is_denied(kept: Any, line: Any) -> None:
    with socket.create_connection(("127.0.0.1", kept.port), SECONDS) as stream:
        stream.sendall(line)
        assert (first_line(stream), stream.recv(1)) == (DENIED, b"")


def test_a_first_line_with_tabs_and_in_pieces(kept: Any) -> None:
    with socket.create_connection(("127.0.0.1", kept.port), SECONDS) as stream:
        for byte in f"\tHELLO \tann {TOKEN}\r\nLI".encode():
            stream.sendall(bytes([byte]))
        stream.sendall(b"ST\n")
        assert (first_line(stream), first_line(stream)) == (HELLO, b"OK LIST 0\n")


WORDS = {
    "nothing": [],
    "no store": ["127.0.0.1:0", "--", PROGRAM, "serve", "--users", "x"],
    "a store that is no folder": ["127.0.0.1:0", "postgresql://x", "--", PROGRAM, "serve", "--users", "x"],
    "two commands": ["kept", "--repair", "ann", "--export", "ann"],
    "no store of a command": ["--export", "ann"],
    "no server": ["127.0.0.1:0", "kept"],
    "no address": ["x", "kept", "--", PROGRAM, "serve", "--users", "x"],
    "no users": ["127.0.0.1:0", "kept", "--", PROGRAM, "serve"],
    "--listen": ["127.0.0.1:0", "kept", "--", PROGRAM, "serve", "--users", "x", "--listen", "127.0.0.1:4001"],
    "no program": ["127.0.0.1:0", "kept", "--", "./none", "serve", "--users", "x"],
    "no steps a day": ["--steps-a-day", "0", "127.0.0.1:0", "kept", "--", PROGRAM, "serve", "--users", "x"],
    "another --sync": ["--sync", "never", "127.0.0.1:0", "kept", "--", PROGRAM, "serve", "--users", "x"],
}


@pytest.mark.parametrize("words", WORDS.values(), ids=WORDS)
def test_words_that_are_none(tmp_path: pathlib.Path, words: Any) -> None:
    status, err = ended(tmp_path, words)
    assert status == 2 and err.startswith("keep: ") and not list(tmp_path.iterdir())


def test_what_cannot_be_begun(tmp_path: pathlib.Path, kept: Any) -> None:
    server = ["--", PROGRAM, "serve", "--users", str(kept.users)]
    status, err = ended(tmp_path, ["127.0.0.1:0", str(kept.folder), *server])
    assert (status, err) == (1, f"keep: cannot use {kept.folder}: it is in use\n")
    status, err = ended(tmp_path, [f"127.0.0.1:{kept.port}", "kept", *server])
    assert (status, err) == (1, f"keep: cannot listen on 127.0.0.1:{kept.port}: Address already in use\n")
    (tmp_path / "open").mkdir(mode=0o755)
    status, err = ended(tmp_path, ["127.0.0.1:0", "open", *server])
    assert (status, err) == (1, "keep: cannot use open: its mode lets others in; use `chmod 700` to leave it to its owner\n")
    status, err = ended(tmp_path, ["127.0.0.1:0", "kept", *server[:-1], "none"])
    assert (status, err) == (2, "keep: cannot read none: No such file or directory\n")
    (tmp_path / "bad").write_text(f"ann {TOKEN} 8 16384\n")
    status, err = ended(tmp_path, ["127.0.0.1:0", "kept", *server[:-1], "bad"])
    assert (status, err) == (2, "keep: bad: line 1: a line must have 5 words (name, token, sessions, atoms, branches), got 4\n")
    status, err = ended(tmp_path, ["--status", "none"])
    assert (status, err) == (1, "keep: cannot read none: No such file or directory\n")


def test_words_of_the_server_that_are_none(tmp_path: pathlib.Path, kept: Any) -> None:
    words = ["127.0.0.1:0", "kept", "--", PROGRAM, "serve", "--users", str(kept.users), "--workers", "99"]
    status, err = ended(tmp_path, words)
    assert status == 2 and "--workers" in err
    assert "cannot start the server: it ended with status 2" in (tmp_path / "kept" / "status.json").read_text()
