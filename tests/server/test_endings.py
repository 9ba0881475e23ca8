"""The ways a connection ends: anywhere, denied, and with a last reply."""
import time

import pytest
from shared.argon import TILES, load_argon, long_advance
from shared.loads import LOAD, LOADED
from shared.program import wait_until
from shared.served import Client, Server, Servers
from shared.serving import DENIED
from shared.words import AT_ONCE, hello, measured, token, user, welcome


def test_a_connection_may_end_anywhere(serve: Servers) -> None:
    ways = [
        ("in the middle of a line", b"TUG a 0 7 0", Client.close),
        ("in the middle of a line, read on", b"TUG a 0 7 0", Client.half_close),
        ("in the middle of a body", b"LOAD b 256 1 131072 rest 28\n2\ndim", Client.close),
        ("between a line and its body", b"LOAD b 256 1 131072 rest 28\n", Client.half_close),
        ("with a reset in a line", b"DROP a", Client.reset),
        ("with a reset in a body", b"LOAD b 256 1 131072 rest 28\n2\ndim", Client.reset),
        ("with a reset while idle", b"", Client.reset),
        ("while idle", b"", Client.close),
        ("without a count", b"LOAD b\nDROP a\n", Client.half_close),
    ]
    names = [f"way{number}" for number in range(len(ways))]
    server = serve(b"".join(map(user, names)), 2 * len(ways))
    for name, (way, data, end) in zip(names, ways):
        client = server.enter(name)
        client.says(LOAD, LOADED)
        client.says(b"TUG a 0 5 0 0\n", b"OK TUG a 0 0\n")
        client.send(data)
        end(client)
        if end is Client.half_close:
            client.is_told_last(b"ERR 04 BODY\n" if way == "without a count" else b"")
        after = server.enter(name)
        after.says(b"LIST\n", b"OK LIST 1\na 0 2 0\n")
        after.says(b"MEASURE a\n", measured(5))
        after.leaves()
    server.finish(tiles=len(ways))


def test_a_reset_while_a_command_runs_is_no_loss(serve: Servers) -> None:
    server = serve(user("A"), 2, workers=2)
    client = server.enter("A")
    client.says(load_argon("a"), b"OK LOAD a 0 256\n")
    paced, steps = long_advance(client)
    client.reset()
    after = server.enter("A")
    shows = b"LIST\nSHOW a 0\nSHOW a 255\nMEASURE a\n"
    whole = serve.program.replies_alone(load_argon("a") + f"ADVANCE a {paced}\nADVANCE a {steps}\n".encode() + shows)
    after.says(shows, b"".join(whole.splitlines(True)[3:]))
    after.leaves()
    server.finish(TILES * (paced + steps + 1))


def test_a_client_that_does_not_read_may_go_away(serve: Servers) -> None:
    server = serve(user("A"), 4)
    for number, end in enumerate([Client.reset, Client.close]):
        session = "ab"[number]
        client = server.enter("A")
        client.says(load_argon(session), f"OK LOAD {session} 0 256\n".encode())
        client.send(f"DUMP {session}\n".encode() * 1000)
        time.sleep(0.5)
        end(client)
        after = server.enter("A")
        after.says(f"SHOW {session} 0\n".encode(), f"OK SHOW {session} 0 0 166801 1897891 4293085602\n".encode())
        after.leaves()
    server.finish(tiles=0)


def test_tasks_that_are_left_take_no_room(serve: Servers) -> None:
    """Each visit ends while up to 10 tasks of its user are in the pool. The book of 1,024 would be full if they stayed."""
    visits = 160
    server = serve(user("A") + user("B"), visits + 2)
    first = server.enter("A")
    first.says(load_argon("a"), b"OK LOAD a 0 256\n")
    first.leaves()
    for visit in range(1, visits + 1):
        client = server.enter("A")
        client.says(b"START a 1000\nBYE\n", f"OK START a {1000 * visit}\nOK BYE\n".encode())
        client.is_told_last(b"")
        client.close()
    other = server.enter("B")
    other.says(load_argon("a") + b"ADVANCE a 1\n", b"OK LOAD a 0 256\nOK ADVANCE a 1\n")
    other.leaves()
    status, _, err = server.wait()
    assert (status, err) == (0, b"")


def test_first_lines_are_denied(serve: Servers) -> None:
    known = token("A").encode()
    lines = [
        b"\n",
        b"LIST\n",
        b"BYE\n",
        LOAD,
        b"\xff\0\n",
        b"x" * 300 + b"\n",
        b"x" * 70000,
        b"x" * 70000 + b"\n",
        b"HELLO\n",
        b"HELLO A\n",
        b"hello A " + known + b"\n",
        b"OK HELLO A " + known + b"\n",
        b"HELLO " + known + b" A\n",
        b"HELLO a " + known + b"\n",
        b"HELLO A " + known + b" 1\n",
        hello("B"),
        b"HELLO A " + known[:-1] + b"\n",
        b"HELLO A " + known + b"0\n",
        b"HELLO A " + known[:-1] + b"B\n",
        b"HELLO A " + b"-" * 32 + b"\n",
        b"HELLO A " + known + b" " * 300 + b"\n",
    ]
    server = serve(user("A"), len(lines) + 7)
    for line in lines:
        client = server.connect()
        client.send(line)
        client.is_told_last(DENIED)
        client.close()
    for line in [b"", b"HELLO A", hello("A")[:-1], b"x" * 65535]:
        client = server.connect()
        client.send(line)
        client.half_close()
        client.is_told_last(b"")
        client.close()
    for line in [hello("A"), b" \tHELLO  A\t" + known + b" \r\n", hello("A")[:-1] + b"\r\n"]:
        client = server.connect()
        client.says(line, welcome("A"))
        client.says(b"LIST\n", b"OK LIST 0\n")
        client.leaves()
    server.finish(tiles=0)


def test_wrong_tokens_and_unknown_names_are_denied(serve: Servers) -> None:
    first, second = "0" * 32, "0" * 31 + "1"
    denied = [
        ("u00", second),
        ("u01", "0" * 30 + "11"),
        ("u01", "1" + "0" * 30 + "1"),
        ("u01", "0" * 31),
        ("u01", ""),
        ("u02", second),
        ("u0", second),
        ("", ""),
    ]
    server = serve(f"u00 {first} 1 1 1\nu01 {second} 1 1 1\n".encode(), len(denied) + 1)
    for name, shown_token in denied:
        client = server.connect()
        client.send(f"HELLO {name} {shown_token}\n".encode())
        client.is_told_last(DENIED)
        client.close()
    client = server.connect()
    client.says(f"HELLO u01 {second}\n".encode(), b"OK HELLO u01\n")
    client.leaves()
    server.finish(tiles=0)


GOOD_TOKEN = "0123456789abcdefghijKLMNOPQRSTUV"


def test_tokens_are_32_letters_or_digits(serve: Servers) -> None:
    """No reply has a token."""
    good = GOOD_TOKEN
    server = serve(f"A {good} 1 1 1\n".encode(), 2)
    client = server.connect()
    client.send(f"HELLO A {good[:-1]}v\n".encode())
    client.is_told_last(DENIED)
    client = server.connect()
    client.says(f"HELLO A {good}\n".encode(), b"OK HELLO A\n")
    client.leaves()
    server.finish(tiles=0)


@pytest.mark.parametrize("word", ["", GOOD_TOKEN[:-1], GOOD_TOKEN + "W", GOOD_TOKEN.replace("K", "-")])
def test_other_tokens_are_refused(serve: Servers, word: str) -> None:
    assert serve.ended_on(f"A {word} 1 1 1\n".encode(), "127.0.0.1:0") == (2, b"", b"ljserve: users line 1\n")


def test_last_replies_are_not_lost(serve: Servers) -> None:
    more = b"LIST\n" * 50000
    server = serve(user("A"), 5)
    for data, reply in [
        (hello("B") + more, DENIED),
        (b"x" * 250000, DENIED),
        (hello("A") + b"BYE\n" + more, welcome("A") + b"OK BYE\n"),
        (hello("A") + LOAD + b"LOAD\n" + more, welcome("A") + LOADED + b"ERR 04 BODY\n"),
        (hello("A") + b"DROP a\n" + b"x" * 250000, welcome("A") + b"OK DROP a\nERR 05 LONG\n"),
    ]:
        client = server.connect()
        for at in range(0, len(data), 90000):
            client.send(data[at : at + 90000])
            time.sleep(0.1)
        client.is_told_last(reply)
        client.close()
    server.finish(tiles=0)


@pytest.mark.parametrize("data", [b"", b"x"], ids=["idle", "sends on"])
def test_a_connection_is_closed_a_second_after_its_end(serve: Servers, data: bytes) -> None:
    server = serve(user("A"), 1)
    client = server.enter("A")
    client.says(b"BYE\n", b"OK BYE\n")
    client.is_told_last(b"")
    start = time.monotonic()
    wait_until(lambda: is_over_after_more(server, client, data), AT_ONCE)
    assert time.monotonic() - start < 3
    server.finish(tiles=0)


def is_over_after_more(server: Server, client: Client, data: bytes) -> bool:
    """Sends these bytes, waits for a moment, and returns whether the server has ended."""
    try:
        client.send(data)
    except OSError:
        pass
    time.sleep(0.2)
    return server.child.poll() is not None
