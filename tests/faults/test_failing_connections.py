"""Connections to a server of which each read or each write fails in turn.

Each is followed by one of the same user that does not fail, and looks at what was left behind.
"""
from typing import Iterator, List, Optional, Tuple

import pytest
from one_dialogue import DIALOGUE, ITEMS, LOOK, QUOTA, REPLIES, begun_anew_after, cut, replies_in, tiles_after, whole_in
from shared import shims
from shared.program import Program
from shared.served import Client, Server, Servers
from shared.texts import must_be

HELLO = b"HELLO A " + b"a" * 32 + b"\n"
WELCOME = b"OK HELLO A\n"
USERS = b"A " + b"a" * 32 + b" %d %d %d\n" % QUOTA

# What fails first, as tests/fail_streams.c has it; what is told before that, and how many items are answered.
Break = Tuple[str, bytes, int]

of_pieces = pytest.mark.parametrize("most", [None, 7, 1], ids=["whole", "7", "1"])


def breaks_of_reads(most: Optional[int]) -> Iterator[Break]:
    """Each read fails in turn, and at last none does, where one gives so many bytes at most."""
    pieces = cut([HELLO, *ITEMS], most)
    for number in range(1, len(pieces) + 3):
        given = b"".join(pieces[: number - 1])
        said, items = given[: len(HELLO)], given[len(HELLO) :]
        told = WELCOME + replies_in(items) if said == HELLO else b""
        yield f"r{number}", told, whole_in(ITEMS, len(items))


def breaks_of_writes(kind: str, most: Optional[int]) -> Iterator[Break]:
    """Each write fails (w) or takes nothing (e) in turn, and at last none does. It takes so many bytes at most."""
    parts = cut([WELCOME, *REPLIES], most)
    for number in range(1, len(parts) + 2):
        told = b"".join(parts[: number - 1])
        left = len(told) - len(WELCOME)
        # The item whose reply is not written was answered.
        yield f"{kind}{number}", told, min(whole_in(REPLIES, left) + 1, len(ITEMS)) if left >= 0 else 0


def told_to(client: Client) -> bytes:
    """Says the dialogue, each item once the one before is answered, as far as it goes. Answers what is told."""
    told = b""
    try:
        for said, reply in [(HELLO, WELCOME), *((item, reply) for item, reply, _ in DIALOGUE)]:
            client.send(said)
            told += client.lines(reply.count(b"\n"))
            if client.end:
                return told
        client.half_close()
    except OSError:
        pass
    return told + client.rest()


class Breaking:
    """Servers of which connections fail, and what a look tells after the first items of the dialogue, for each count of these."""

    def __init__(self, serve: Servers, library: str, left_behind: List[bytes]) -> None:
        self.serve, self.library, self.left_behind = serve, library, left_behind

    def play(self, breaks: List[Break], **most: object) -> None:
        """Breaks a connection after the other on one server, and looks after each."""
        words = " - ".join(word for word, _, _ in breaks)
        environment = shims.variables(self.library, FAILING_CONNECTIONS=words, **most)
        server = self.serve(USERS, 2 * len(breaks), env=environment)
        for word, wanted, count in breaks:
            broken = server.connect()
            told = told_to(broken)
            broken.close()
            must_be(told, wanted, word)
            self.look(server, word, self.left_behind[count])
        counts = [count for _, _, count in breaks]
        server.finish(sum(map(tiles_after, counts)), more=sum(map(begun_anew_after, counts)))

    def look(self, server: Server, word: str, wanted: bytes) -> None:
        """Looks at what is left behind, and takes the session away."""
        client = server.connect()
        client.send(HELLO + LOOK + b"DROP a\nBYE\n")
        gone = b"OK DROP a\n" if wanted.startswith(b"OK LIST 1\n") else b"ERR 10 NO_SESSION\n"
        must_be(client.rest(), WELCOME + wanted + gone + b"OK BYE\n", f"what is left after {word}")
        client.close()


@pytest.fixture(scope="session")
def left_behind(program: Program) -> List[bytes]:
    """What a look tells after the first items."""
    found = []
    for count in range(len(ITEMS) + 1):
        told, replies = program.replies_alone(b"".join(ITEMS[:count]) + LOOK, QUOTA), b"".join(REPLIES[:count])
        assert told.startswith(replies)
        found.append(told[len(replies) :])
    return found


@pytest.fixture
def breaking(serve: Servers, fail_streams: str, left_behind: List[bytes]) -> Breaking:
    return Breaking(serve, fail_streams, left_behind)


@of_pieces
def test_each_read_of_a_connection_fails_in_turn(breaking: Breaking, most: Optional[int]) -> None:
    breaking.play([*breaks_of_reads(most)], MOST_READ=most)


@of_pieces
@pytest.mark.parametrize("kind", ["w", "e"], ids=["fails", "takes nothing"])
def test_each_write_of_a_connection_fails_in_turn(breaking: Breaking, kind: str, most: Optional[int]) -> None:
    breaking.play([*breaks_of_writes(kind, most)], MOST_WRITTEN=most)


@pytest.mark.parametrize("most", [1, 3])
def test_a_writer_of_a_connection_that_takes_few_bytes_is_given_the_rest(breaking: Breaking, most: int) -> None:
    breaking.play([("w1000000", WELCOME + b"".join(REPLIES), len(ITEMS))], MOST_WRITTEN=most)
