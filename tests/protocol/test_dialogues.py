"""The tables of dialogues over `ljserve run`, whatever pieces their streams come in."""
import socket
import subprocess
from dataclasses import dataclass
from typing import List, Optional

import pytest
from dialogue_tables import NOT_READ_ON, TABLES
from dialogue_tables.dialogues import Dialogue, Ending
from shared.exchange import CHUNK, Exchange
from shared.program import SECONDS, Ended, Program, run_words
from shared.texts import must_be


@dataclass(frozen=True)
class Played:
    """How a program ended: whether by itself, while its input was open; and how many bytes of its input it has read."""

    ended: Ended
    ended_itself: bool
    taken: int


def play(program: Program, dialogue: Dialogue, size: Optional[int]) -> Played:
    """Plays a dialogue of which each read gives a piece of at most so many bytes, or as much as there is room for."""
    kind = socket.SOCK_STREAM if size is None else socket.SOCK_SEQPACKET
    ours, theirs = socket.socketpair(socket.AF_UNIX, kind)
    words = [program.path, *run_words(dialogue.quota)]
    with ours, theirs, subprocess.Popen(words, stdin=theirs.fileno(), stdout=subprocess.PIPE, stderr=subprocess.PIPE) as child:
        assert child.stdout and child.stderr
        exchange = Exchange(ours, child.stdout.fileno(), dialogue.pieces(size))
        is_over = exchange.is_over(len(dialogue.replies), dialogue.ending is not Ending.INPUT)
        if not is_over:
            child.kill()
        fault, status = child.stderr.read(), child.wait(SECONDS)
        taken = exchange.sent - left_in(theirs)
    return Played((status if is_over else "no end", bytes(exchange.told), fault), exchange.is_open, taken)


def left_in(stream: socket.socket) -> int:
    """How many bytes nobody has read."""
    stream.setblocking(False)
    count = 0
    try:
        while data := stream.recv(CHUNK):
            count += len(data)
    except BlockingIOError:
        pass
    return count


def cases() -> List[object]:
    """Each dialogue in pieces of each of its sizes."""
    tables = [*TABLES.items(), ("not read on", NOT_READ_ON)]
    return [
        pytest.param(dialogue, size, id=f"{table}, {dialogue.name[:80]!r}, {size or 'whole'}")
        for table, dialogues in tables
        for dialogue in dialogues
        for size in dialogue.sizes
    ]


@pytest.mark.parametrize("dialogue, size", cases())
def test_a_dialogue_in_pieces(program: Program, dialogue: Dialogue, size: Optional[int]) -> None:
    """It is to be answered and to end as it says."""
    seen = play(program, dialogue, size)
    status, told, fault = seen.ended
    must_be(told, dialogue.replies.encode())
    assert (status, fault, seen.ended_itself) == (0, b"", dialogue.ending is not Ending.INPUT)
    assert dialogue.taken in (None, seen.taken)
