"""Frames whose text is taken as it came, from peers that send it in pieces, break it off, or send something else."""
import threading
import time
from typing import Any

import pytest

from ljclient import BadReply, ConnectionLost, refusals
from ljclient.arrays import LONG_TEXT, count_of_lines
from support import SECONDS, interrupted_when, joined, peer, read_line, says, stays

ATOMS = 700
ROWS = [f"Ar {atom}.000001 2.500000 {atom % 7}.250000" for atom in range(ATOMS)]
TEXT = "\n".join([str(ATOMS), "step 7", *ROWS, ""]).encode()
REPLY = f"OK DUMP a 7 {ATOMS + 2}\n".encode() + TEXT
NOTHING = b"OK LIST 0\n"


def in_pieces(size: Any) -> Any:
    def talk(connection: Any, stop: Any) -> None:
        read_line(connection)
        for at in range(0, len(REPLY), size):
            connection.sendall(REPLY[at : at + size])
            time.sleep(0.0005)
        read_line(connection)
        connection.sendall(NOTHING)
        stays(connection, stop)

    return talk


@pytest.mark.parametrize("size", [97, 1000, 4096, len(REPLY)])
def test_a_frame_may_come_in_pieces(size: Any) -> None:
    with peer(says(then=in_pieces(size))) as port, joined(port) as user:
        assert user._ask_text("DUMP a") == (["DUMP", "a", "7", str(ATOMS + 2)], TEXT)
        assert user.sessions() == []
        user._wire.close()


def test_a_refusal_is_raised_and_the_next_reply_is_read() -> None:
    with peer(says(b"ERR 10 NO_SESSION\n", NOTHING)) as port, joined(port) as user:
        with pytest.raises(refusals.NoSession):
            user._ask_text("DUMP a")
        assert user.sessions() == []
        user._wire.close()


@pytest.mark.parametrize("cut", [3, len(REPLY) // 2, len(REPLY) - 1])
def test_a_frame_that_is_broken_off(cut: Any) -> None:
    with peer(says(REPLY[:cut])) as port, joined(port) as user:
        with pytest.raises(ConnectionLost, match="`DUMP a` was not answered"):
            user._ask_text("DUMP a")


@pytest.mark.parametrize(
    "reply", [b"HTTP/1.1 400\n", b"OK LIST 1\n", b"OK DUMP a 7 x\n", b"OK DUMP a 7 99999\n", b"OK DUMP a 7 3\n1\n" + b"x" * 5000]
)
def test_what_is_no_frame(reply: Any) -> None:
    with peer(says(reply)) as port, joined(port) as user:
        with pytest.raises(BadReply):
            user._ask_text("DUMP a")


def test_a_line_too_much_is_left_for_the_next_reply() -> None:
    with peer(says(REPLY + b"OK SHOW a\n")) as port, joined(port) as user:
        assert user._ask_text("DUMP a")[1] == TEXT
        with pytest.raises(BadReply, match="is not a reply to `LIST`"):
            user.ask("LIST")


def test_a_frame_that_nobody_came_for_is_passed_over() -> None:
    caught = threading.Event()

    def slowly(connection: Any, stop: Any) -> None:
        read_line(connection)
        connection.sendall(REPLY[:5000])
        caught.wait(SECONDS)
        connection.sendall(REPLY[5000:])
        read_line(connection)
        connection.sendall(NOTHING)
        stays(connection, stop)

    with peer(says(then=slowly)) as port, joined(port) as user:
        with interrupted_when(lambda: len(user._wire._partial) == 5000):
            user._ask_text("DUMP a")
        caught.set()
        assert user.sessions() == []
        user._wire.close()


def test_line_ends_are_counted_in_texts_of_any_length() -> None:
    for count in (0, 1, LONG_TEXT // 2, LONG_TEXT):
        assert count_of_lines(b"a\n" * count + b"b") == count
