"""Runs and replays of which each read or each write fails in turn."""
import socket
from contextlib import contextmanager
from typing import Iterator, List, Optional, Sequence

import pytest
from one_dialogue import ITEMS, QUOTA, REPLIES, cut, replies_in
from shared import shims
from shared.loads import LOAD
from shared.program import READ_FAULT, WRITE_FAULT, Ended, Program, file_of
from shared.schedules import GREETING, USER

WORDS = ["run", "--branches", str(QUOTA[2])]

# The replay of this schedule has one reply.
LISTS = USER + GREETING + b"arrive 1 LIST\nnext 1\n"
LISTED = b"A 1 OK LIST 0\n"

TWO_LISTS = [b"LIST\n"] * 2

of_pieces = pytest.mark.parametrize("most", [None, 7, 1], ids=["whole", "7", "1"])
# A write fails, or takes nothing; and the same once alone.
EACH, ALONE = {"w": "fails", "e": "takes nothing"}, {"W": "fails", "E": "takes nothing"}


@contextmanager
def in_records(pieces: Sequence[bytes]) -> Iterator[socket.socket]:
    """A stream of which each read gives one piece."""
    ours, theirs = socket.socketpair(socket.AF_UNIX, socket.SOCK_SEQPACKET)
    with theirs:
        with ours:
            for piece in pieces:
                ours.send(piece)
        yield theirs


class Failing:
    """Runs of a program whose streams fail."""

    def __init__(self, program: Program, library: str) -> None:
        self.program, self.library = program, library

    def told(self, pieces: Sequence[bytes], **words: object) -> Ended:
        """How a run ends each of whose reads gives a piece at most."""
        with in_records(pieces) as stream:
            return self.program.run(WORDS, stdin=stream, env=shims.variables(self.library, **words))

    def writes_in_turn(self, kind: str, most: Optional[int], pieces: List[bytes]) -> None:
        """Each write fails in turn, and at last none does. It takes at most so many bytes."""
        parts = cut(REPLIES, most)
        for number in range(1, len(parts) + 2):
            told = b"".join(parts[: number - 1])
            wanted = (1, told, WRITE_FAULT) if number <= len(parts) else (0, told, b"")
            assert self.told(pieces, FAILING=f"{kind}{number}", MOST_WRITTEN=most) == wanted, f"write {number}"


@pytest.fixture
def failing(program: Program, fail_streams: str) -> Failing:
    return Failing(program, fail_streams)


@of_pieces
def test_each_read_fails_in_turn(failing: Failing, most: Optional[int]) -> None:
    """And at last none does. The items come in pieces of at most so many bytes."""
    pieces = cut(ITEMS, most)
    for number in range(1, len(pieces) + 3):
        given = b"".join(pieces[: number - 1])
        wanted = (1, replies_in(given), READ_FAULT) if number <= len(pieces) + 1 else (0, b"".join(REPLIES), b"")
        assert failing.told(pieces, FAILING=f"r{number}") == wanted, f"read {number}"


@of_pieces
@pytest.mark.parametrize("kind", EACH, ids=EACH.get)
def test_each_write_fails_in_turn(failing: Failing, kind: str, most: Optional[int]) -> None:
    failing.writes_in_turn(kind, most, ITEMS)


def test_each_write_of_few_bytes_fails_in_turn(failing: Failing) -> None:
    """The items come in pieces, too."""
    failing.writes_in_turn("w", 5, cut(ITEMS, 7))


@of_pieces
@pytest.mark.parametrize("kind", EACH, ids=EACH.get)
def test_each_write_of_a_replay_fails_in_turn(program: Program, fail_streams: str, kind: str, most: Optional[int]) -> None:
    """And at last none does."""
    with file_of(LISTS) as path:
        number, told = 1, b""
        while told != LISTED:
            env = shims.variables(fail_streams, FAILING=f"{kind}{number}", MOST_WRITTEN=most)
            told = LISTED[: (number - 1) * (most or len(LISTED))]
            wanted = (0, told, b"") if told == LISTED else (1, told, WRITE_FAULT)
            assert program.run(["replay", path], env=env) == wanted, f"write {number}"
            number += 1


@pytest.mark.parametrize("most", [1, 3])
def test_a_writer_that_takes_few_bytes_is_given_the_rest(failing: Failing, most: int) -> None:
    assert failing.told(ITEMS, FAILING="w1000000", MOST_WRITTEN=most) == (0, b"".join(REPLIES), b"")


@pytest.mark.parametrize("most, number", [(None, 2), (1, 9)])
def test_a_read_fails_within_a_line(failing: Failing, most: Optional[int], number: int) -> None:
    assert failing.told(cut([b"LIST\nLIS"], most), FAILING=f"r{number}") == (1, b"OK LIST 0\n", READ_FAULT)


@pytest.mark.parametrize("kind", EACH, ids=EACH.get)
def test_a_write_fails_within_a_reply(failing: Failing, kind: str) -> None:
    assert failing.told(TWO_LISTS, FAILING=f"{kind}2", MOST_WRITTEN=5) == (1, b"OK LI", WRITE_FAULT)


def test_a_write_takes_nothing(failing: Failing) -> None:
    assert failing.told(cut([LOAD], 7), FAILING="e1") == (1, b"", WRITE_FAULT)


def test_nothing_is_written_for_no_input(failing: Failing) -> None:
    assert failing.told([], FAILING="w1") == (0, b"", b"")


@pytest.mark.parametrize("number", [1, 2, 3])
def test_a_read_that_fails_is_not_tried_again(failing: Failing, number: int) -> None:
    """It would succeed."""
    assert failing.told(TWO_LISTS, FAILING=f"R{number}") == (1, b"OK LIST 0\n" * (number - 1), READ_FAULT)


@pytest.mark.parametrize("number, told", [(1, b""), (2, b"OK LI")])
@pytest.mark.parametrize("kind", ALONE, ids=ALONE.get)
def test_a_write_that_fails_is_not_tried_again(failing: Failing, kind: str, number: int, told: bytes) -> None:
    assert failing.told(TWO_LISTS, FAILING=f"{kind}{number}", MOST_WRITTEN=5) == (1, told, WRITE_FAULT)
