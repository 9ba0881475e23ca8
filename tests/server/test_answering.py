"""Dialogues over a connection, and how soon each of their commands is answered."""
import time

import pytest
from shared.argon import TILES, load_argon, paced_steps
from shared.frames import over_blocks
from shared.loads import IN_PARTS, LOAD, LOADED
from shared.program import contents
from shared.served import Servers
from shared.serving import POOLS
from shared.tiles import tiles_of
from shared.words import hello, token, user, welcome


# One step, and its energies, which take another tile.
STEPPED = [*IN_PARTS[:3], (b"MEASURE a\n", b"OK MEASURE a 1 2 0 0 0 693842 -5399727\n")]

DIALOGUE = [
    (hello("A"), welcome("A")),
    *STEPPED,
    (b"HELLO A " + token("A").encode() + b"\n", b"ERR 06 COMMAND\n"),
    (b"LIST\n", b"OK LIST 1\na 1 2 0\n"),
    (b"BYE\n", b"OK BYE\n"),
]


def test_each_command_after_the_reply_to_the_one_before(serve: Servers) -> None:
    server = serve(user("A"), 1, workers=1)
    client = server.connect()
    for data, reply in DIALOGUE:
        client.says(data, reply)
    client.is_told_last(b"")
    server.finish(tiles=2)


@pytest.mark.parametrize("size", [1 << 16, 1], ids=["all at once", "byte by byte"])
def test_commands_in_pieces(serve: Servers, size: int) -> None:
    data = b"".join(data for data, _ in DIALOGUE)
    server = serve(user("A"), 1, workers=1)
    client = server.connect()
    for at in range(0, len(data), size):
        client.send(data[at : at + size])
    client.is_told_last(b"".join(reply for _, reply in DIALOGUE))
    server.finish(tiles=2)


@pytest.mark.parametrize("pool", [*POOLS, None], ids=[*POOLS, "no pool named"])
def test_the_shortest_dialogue_is_counted(serve: Servers) -> None:
    server = serve(user("A"), 1, workers=1)
    client = server.enter("A")
    client.says(LOAD, LOADED)
    client.says(b"ADVANCE a 1\n", b"OK ADVANCE a 1\n")
    client.leaves()
    server.finish(tiles=1)


@pytest.mark.parametrize("name", ["every_command", "two_species"])
def test_the_stored_examples_are_answered(serve: Servers, name: str) -> None:
    is_told_to_one(serve, contents("examples", f"{name}.txt"), contents("examples", f"{name}.replies"))


def test_a_mixture_of_more_than_a_block_is_answered(serve: Servers) -> None:
    """The replies are the reference's."""
    talk = over_blocks()
    is_told_to_one(serve, talk.stream(), talk.replies())


def is_told_to_one(serve: Servers, data: bytes, replies: bytes) -> None:
    """The only connection of a server sends these bytes and gets these replies."""
    server = serve(user("A"), 1, workers=3)
    client = server.connect()
    client.send(hello("A") + data)
    client.half_close()
    client.is_told_last(welcome("A") + replies)
    server.finish(tiles_of(data, replies))


def test_replies_come_before_more_is_asked_for(serve: Servers) -> None:
    server = serve(user("A"), 1)
    client = server.connect()
    client.send(hello("A")[:-1])
    assert client.is_quiet()
    for item, reply in [(b"\n", welcome("A")), *IN_PARTS]:
        client.says(item, reply)
    client.leaves()
    server.finish(tiles=1)


def test_other_users_are_answered_while_one_advances(serve: Servers) -> None:
    server = serve(user("A") + user("B"), 2, workers=1)
    first, second = server.enter("A"), server.enter("B")
    first.says(load_argon("a"), b"OK LOAD a 0 256\n")
    paced, steps = paced_steps(first, seconds=1.5)
    first.send(f"ADVANCE a {steps}\n".encode())
    start = time.monotonic()
    for item, reply in STEPPED:
        second.says(item, reply)
    second.leaves()
    assert first.is_quiet(0), f"the ADVANCE ended before the others, which took {time.monotonic() - start} s"
    first.is_told(f"OK ADVANCE a {paced + steps}\n".encode(), b"ADVANCE")
    first.leaves()
    server.finish(TILES * (paced + steps) + 2)
