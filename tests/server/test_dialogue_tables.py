"""The tables of dialogues over `ljserve serve`, with a user for each dialogue, and the state that they leave.

The dialogues of a batch are played on one server at the same time, and each is a case of its own.
"""
import re
from concurrent.futures import ThreadPoolExecutor
from dataclasses import dataclass
from typing import Dict, Iterator, List, Optional, Sequence, Tuple

import pytest
from dialogue_tables import TABLES
from dialogue_tables.dialogues import Dialogue, Ending
from shared.exchange import Exchange
from shared.program import Ended, Program, end_of
from shared.serving import POOLS, begun, options_of, user_line
from shared.sockets import connected
from shared.texts import must_be

TOKEN = "t" * 32
MOST_USERS = 64
AT_ONCE = 4
# The most bytes of a piece that is sent. None is for a whole stream.
SIZES = (None, 1, 7)
SERVED = re.compile(rb"served (\d+) connections, \d+ tiles\n")


@dataclass(frozen=True)
class Visited:
    """The replies to a connection, whether it ended well, and whether by itself while its input was open."""

    told: bytes
    ended_well: bool
    ended_itself: bool


@dataclass(frozen=True)
class Batch:
    """Dialogues of a table from number `first` on, sent in pieces of `size` to a server with a pool, or with the default one."""

    table: str
    first: int
    size: Optional[int]
    pool: Optional[str]

    def __str__(self) -> str:
        words = [self.table, f"{self.pool} pool" if self.pool else "", f"{self.size or 'whole'}"]
        return ", ".join(filter(None, words))

    def dialogues(self) -> Sequence[Dialogue]:
        return TABLES[self.table][self.first : self.first + MOST_USERS]

    def users(self) -> bytes:
        """The file of users: u0 plays the first of these dialogues, with its quota, and so on."""
        return b"".join(user_line(f"u{number}", TOKEN, each.quota) for number, each in enumerate(self.dialogues()))


@dataclass(frozen=True)
class Played:
    """The replies to each user of a batch, to a dialogue and to LIST on a second connection, and how the server ended."""

    visits: List[Tuple[Visited, Visited]]
    ended: Ended


def visited(port: int, pieces: Iterator[bytes], replies: int, ends_itself: bool) -> Visited:
    """Sends these pieces on a connection of its own."""
    with connected(port) as connection:
        exchange = Exchange(connection, connection.fileno(), pieces)
        is_over = exchange.is_over(replies, ends_itself)
        return Visited(bytes(exchange.told), is_over and not exchange.is_reset, exchange.is_open)


def greeted(number: int, pieces: Iterator[bytes]) -> Iterator[bytes]:
    yield f"HELLO u{number} {TOKEN}\n".encode()
    yield from pieces


def play(port: int, number: int, dialogue: Dialogue, size: Optional[int]) -> Tuple[Visited, Visited]:
    """The replies to the user of this number, to a dialogue and to LIST on a second connection."""
    name, ends_itself = f"OK HELLO u{number}\n", dialogue.ending is not Ending.INPUT
    first = visited(port, greeted(number, dialogue.pieces(size)), len(name + dialogue.replies), ends_itself)
    return first, visited(port, greeted(number, iter([b"LIST\nBYE\n"])), 0, True)


def played(program: Program, batch: Batch) -> Played:
    """Plays the dialogues of a batch on one server."""
    dialogues = batch.dialogues()
    child, port = begun(program.path, batch.users(), options_of(2, 2 * len(dialogues), batch.pool))
    with ThreadPoolExecutor(AT_ONCE) as threads:
        visits = [threads.submit(play, port, number, each, batch.size) for number, each in enumerate(dialogues)]
    return Played([visit.result() for visit in visits], end_of(child))


@pytest.fixture(scope="session")
def kept() -> Dict[Batch, Played]:
    """The batch that was played last."""
    return {}


@pytest.fixture
def batch_played(program: Program, kept: Dict[Batch, Played], batch: Batch) -> Played:
    """A batch, which is played once for all its cases, since these run one after the other."""
    if batch not in kept:
        kept.clear()
        kept[batch] = played(program, batch)
    return kept[batch]


def batches() -> Iterator[Batch]:
    """All tables with the default pool, and `sessions side by side` with each pool."""
    for size in SIZES:
        for table, dialogues in TABLES.items():
            pools = [None, *POOLS] if table == "sessions side by side" else [None]
            yield from (Batch(table, first, size, pool) for pool in pools for first in range(0, len(dialogues), MOST_USERS))


def cases() -> Iterator[object]:
    """Each dialogue of each batch. All cases of a batch run in one process."""
    for batch in batches():
        group = pytest.mark.xdist_group(f"{batch}, {batch.first}")
        for number, each in enumerate(batch.dialogues()):
            yield pytest.param(batch, number, each, id=f"{batch}, {each.name[:80]!r}", marks=group)
        yield pytest.param(batch, None, None, id=f"{batch}, the end from {batch.first}", marks=group)


@pytest.mark.parametrize("batch, number, dialogue", cases())
def test_a_dialogue_and_its_state(batch_played: Played, batch: Batch, number: Optional[int], dialogue: Optional[Dialogue]) -> None:
    """A dialogue gets its replies, and leaves its state. At the end the server has served all connections."""
    if number is None or dialogue is None:
        status, out, err = batch_played.ended
        served = SERVED.fullmatch(out)
        assert (status, served and int(served[1]), err) == (0, 2 * len(batch.dialogues()), b"")
        return
    first, second = batch_played.visits[number]
    welcome = f"OK HELLO u{number}\n"
    must_be(first.told, (welcome + dialogue.replies).encode())
    assert (first.ended_well, first.ended_itself) == (True, dialogue.ending is not Ending.INPUT)
    must_be(second.told, (welcome + dialogue.state + "OK BYE\n").encode(), "the state")
    assert (second.ended_well, second.ended_itself) == (True, True)
