"""Clients that go away while their connections wait, and clients that take long to send HELLO."""
import time

from shared.loads import LOAD, LOADED, liquid, tiles_of_step
from shared.served import Servers
from shared.serving import MAX_OPEN
from shared.words import hello, measured, user, welcome


# How many seconds a client has for its first line, and how many a connection is silent here after it.
FIRST_LINE = 30
SILENCE = 40
# Within how many seconds a connection that waits has checked whether its client is there.
LOOKED = 5


def test_clients_that_are_gone_give_up_their_places(serve: Servers) -> None:
    """One user connects 63 times and gives up each time, while its first connection is in. Another user gets a place."""
    server = serve(user("A") + user("B"), MAX_OPEN + 100)
    first = server.enter("A")
    first.says(LOAD, LOADED)
    for _ in range(MAX_OPEN - 1):
        client = server.connect()
        client.send(hello("A"))
        client.close()
    other = server.let_in("B")
    other.says(LOAD, LOADED)
    other.leaves()
    first.says(b"TUG a 0 5 0 0\n", b"OK TUG a 0 0\n")
    first.leaves()
    last = server.let_in("A")
    last.says(b"LIST\nMEASURE a\n", b"OK LIST 1\na 0 2 0\n" + measured(5))
    last.leaves()
    server.finish(tiles=1)


def test_each_way_to_go_gives_up_the_place(serve: Servers) -> None:
    server = serve(user("A"), 6)
    first = server.enter("A")
    half_closed, reset, here = [server.connect() for _ in range(3)]
    for client in (half_closed, reset, here):
        client.send(hello("A"))
        assert client.is_quiet(0.1)
    half_closed.half_close()
    reset.reset()
    start = time.monotonic()
    half_closed.is_told_last(b"")
    spent = time.monotonic() - start
    assert spent < LOOKED
    assert here.is_quiet(0)
    first.leaves()
    here.is_told(welcome("A"))
    here.says(b"LIST\n", b"OK LIST 0\n")
    here.leaves()
    server.finish(tiles=0)


def test_a_client_that_waited_may_be_silent(serve: Servers) -> None:
    """It waits until the server has checked whether it is there. The short time of such a check is no limit once it is let in."""
    server = serve(user("A"), 2)
    first = server.enter("A")
    waiting = server.connect()
    waiting.send(hello("A"))
    assert waiting.is_quiet(LOOKED / 2)
    first.leaves()
    waiting.is_told(welcome("A"))
    assert waiting.is_quiet()
    waiting.says(b"LIST\n", b"OK LIST 0\n")
    waiting.leaves()
    server.finish(tiles=0)


def test_commands_sent_with_hello_are_done(serve: Servers) -> None:
    server = serve(user("A"), 4)
    first = server.enter("A")
    gone = server.connect()
    gone.send(hello("A") + LOAD)
    assert gone.is_quiet(0.1)
    gone.close()
    time.sleep(LOOKED / 2)
    first.says(b"LIST\n", b"OK LIST 0\n")
    first.leaves()
    last = server.enter("A")
    last.says(b"LIST\n", b"OK LIST 1\na 0 2 0\n")
    last.leaves()
    server.finish(tiles=0)


def test_a_first_line_comes_in_time_or_not_at_all(serve: Servers) -> None:
    """A client that says nothing and one that sends a byte a second are closed after half a minute without a reply. One that was
    let in may stay silent for longer, and so may one that waits."""
    server = serve(user("A"), 5)
    first = server.enter("A")
    waiting = server.connect()
    waiting.send(hello("A"))
    silent, slow = server.connect(), server.connect()
    start = time.monotonic()
    for byte in b"HELLO " + b"x" * FIRST_LINE:
        if time.monotonic() - start > FIRST_LINE + LOOKED or not slow.is_quiet(1):
            break
        slow.send(bytes([byte]))
    for client in (silent, slow):
        client.is_told_last(b"")
    spent = time.monotonic() - start
    assert FIRST_LINE - 1 < spent < FIRST_LINE + LOOKED
    time.sleep(max(0.0, SILENCE - spent))
    assert waiting.is_quiet(0)
    first.says(b"LIST\n", b"OK LIST 0\n")
    first.leaves()
    waiting.is_told(welcome("A"))
    waiting.leaves()
    server.finish(tiles=0)


def test_what_is_left_when_a_connection_ends_is_dropped(serve: Servers) -> None:
    """Each of many connections begins a step and leaves at once. A worker that is woken finds nothing of it to compute, unless
    it comes before the connection has ended. Other work on the machine makes that frequent, so only a worker that computes
    all of them is at fault."""
    rounds = 60
    server = serve(user("A"), rounds + 1, workers=1)
    first = server.enter("A")
    first.says(liquid(256), b"OK LOAD a 0 256\n")
    first.leaves()
    for number in range(1, rounds + 1):
        client = server.connect()
        client.send(hello("A") + b"START a 1\nBYE\n")
        client.is_told_last(welcome("A") + f"OK START a {number}\nOK BYE\n".encode())
        time.sleep(0.1)
    status, out, err = server.ended()
    tiles = int(out.split()[-2])
    assert (status, err) == (0, b"")
    assert tiles < rounds * tiles_of_step(256)
