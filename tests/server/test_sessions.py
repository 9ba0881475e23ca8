"""Several sessions of a user that advance side by side, and steps pending when a connection ends."""
import re
from concurrent.futures import ThreadPoolExecutor

import pytest
from shared.argon import TILES, load_argon, paced_steps
from shared.loads import CHAIN, LOAD, LOADED, liquid, load
from shared.served import Client, Servers
from shared.texts import must_be
from shared.tiles import tiles_of
from shared.words import user


@pytest.mark.parametrize("workers", [1, 2, 4])
def test_eight_sessions_of_a_user_are_told_what_each_is_alone(serve: Servers, workers: int) -> None:
    """Eight sessions of several sizes. Each advances by its own number of steps."""
    chain = load("a", CHAIN)
    alone = b"LOAD a 256 1 1 rest 12\n1\nc\nX 1 2 3\n"
    loads = [load_argon("a"), LOAD, chain, liquid(512), alone, load_argon("a"), chain, LOAD]
    steps = [20, 500, 90, 9, 700, 33, 0, 3]
    tugs = b"TUG a 0 -5 6 0\n"
    asked = b"MEASURE a\nSHOW a 0\nDUMP a\nREVERSE a\nMEASURE a\n"
    begin = [loaded + tugs for loaded in loads]
    whole = [first + f"ADVANCE a {count}\n".encode() + asked for first, count in zip(begin, steps)]
    wanted = [serve.program.replies_alone(data).replace(b"OK ADVANCE", b"OK START", 1).split(b"\n", 3) for data in whole]
    server = serve(user("A"), 1, workers)
    client = server.enter("A")
    for number, (first, (loaded, tugged, _, _)) in enumerate(zip(begin, wanted)):
        client.says(renamed(first, number), renamed(loaded + b"\n" + tugged + b"\n", number))
    for number, count in enumerate(steps):
        client.says(renamed(f"START a {count}\n".encode(), number), renamed(wanted[number][2] + b"\n", number))
    for number in [3, 0, 7, 5, 1, 6, 2, 4]:
        client.says(renamed(asked, number), renamed(wanted[number][3], number))
    client.leaves()
    server.finish(sum(tiles_of(data, serve.program.replies_alone(data)) for data in whole))


def renamed(text: bytes, number: int) -> bytes:
    """Commands or replies of the session `a`, with another name for it."""
    return re.sub(rb"^(OK )?([A-Z]+) a\b", rb"\1\2 s%d" % number, text, flags=re.M)


def test_one_session_is_shown_while_another_goes_on(serve: Servers) -> None:
    """The large session is loaded first, so that its tasks come first."""
    server = serve(user("A"), 1, workers=2)
    client = server.enter("A")
    client.says(load_argon("a"), b"OK LOAD a 0 256\n")
    client.says(LOAD.replace(b" a ", b" b "), b"OK LOAD b 0 2\n")
    paced, steps = paced_steps(client, seconds=2)
    client.says(f"START a {steps}\n".encode(), f"OK START a {paced + steps}\n".encode())
    client.says(b"START b 2\nSHOW b 0\n", b"OK START b 2\nOK SHOW b 2 0 1774 0 0\n")
    client.says(b"LIST\n", f"OK LIST 2\na {paced + steps} 256 0\nb 2 2 0\n".encode())
    client.send(b"ADVANCE a 0\n")
    assert client.is_quiet(0.05)
    client.is_told(f"OK ADVANCE a {paced + steps}\n".encode(), b"ADVANCE")
    client.leaves()
    server.finish(TILES * (paced + steps) + 2)


def test_pending_steps_are_done_for_the_next_connection(serve: Servers) -> None:
    """Two steps are pending when a connection ends in any way. A step that was begun for it is begun again for the next one."""
    ways = [
        ("by BYE", b"BYE\n", b"OK BYE\n", Client.close),
        ("at the end of its input", b"", b"", Client.half_close),
        ("in the middle of a line", b"DROP a", b"", Client.half_close),
        ("without a count", b"LOAD b\nDROP a\n", b"ERR 04 BODY\n", Client.half_close),
        ("while idle", b"", None, Client.close),
        ("with a reset", b"", None, Client.reset),
        ("with a reset in a line", b"DROP a", None, Client.reset),
    ]
    names = [f"way{number}" for number in range(len(ways))]
    server = serve(b"".join(map(user, names)), 2 * len(ways))
    for name, (way, data, told, end) in zip(names, ways):
        client = server.enter(name)
        client.says(LOAD + b"START a 2\n", LOADED + b"OK START a 2\n")
        client.send(data)
        if end is Client.half_close:
            client.half_close()
        if told is not None:
            client.is_told_last(told)
        if end is not Client.half_close:
            end(client)
        after = server.enter(name)
        after.says(b"LIST\n", b"OK LIST 1\na 2 2 0\n")
        after.says(b"SHOW a 0\nMEASURE a\n", b"OK SHOW a 2 0 1774 0 0\nOK MEASURE a 2 2 0 0 0 2808450 -5399727\n")
        after.leaves()
    server.finish(tiles=3 * len(ways), more=len(ways))


def test_connections_come_and_go_while_a_session_goes_on(serve: Servers) -> None:
    """Each connection starts steps and waits for nothing, or is reset while it waits for them."""
    rounds, steps = 12, 40
    server = serve(user("A"), rounds + 1)
    client = server.enter("A")
    client.says(load_argon("a"), b"OK LOAD a 0 256\n")
    for number in range(1, rounds + 1):
        client.says(f"START a {steps}\n".encode(), f"OK START a {number * steps}\n".encode())
        if number % 3 == 0:
            client.send(b"MEASURE a\nDROP a")
        client.reset() if number % 2 else client.close()
        client = server.enter("A")
    shows = b"LIST\nSHOW a 0\nSHOW a 255\nMEASURE a\n"
    whole = serve.program.replies_alone(load_argon("a") + f"ADVANCE a {rounds * steps}\n".encode() + shows)
    client.says(shows, b"".join(whole.splitlines(True)[2:]))
    client.leaves()
    # Tasks that a connection had posted are posted again for the next one, at most a step. Some of the MEASUREs are answered.
    server.finish(TILES * (rounds * steps + 1), more=TILES * (rounds + rounds // 3))


def test_targets_reach_the_last_step(serve: Servers) -> None:
    """A million starts of a million steps each, over two connections."""
    half = 500_000
    server = serve(user("A"), 3)
    client = server.enter("A")
    client.says(LOAD, LOADED)
    for first in (1, half + 1):
        wanted = b"".join(b"OK START a %d\n" % (number * 10**6) for number in range(first, first + half))
        with ThreadPoolExecutor(1) as sender:
            sent = sender.submit(client.send, b"START a 1000000\n" * half)
            seen = client.lines(half)
            sent.result()
        must_be(seen, wanted)
        client.leaves()
        client = server.enter("A")
    client.says(b"START a 1\nSTART a 0\n", b"ERR 23 STEP_RANGE\nOK START a 1000000000000\n")
    client.says(b"LIST\n", b"OK LIST 1\na 1000000000000 2 0\n")
    client.leaves()
    status, _, err = server.ended()
    assert (status, err) == (0, b"")
