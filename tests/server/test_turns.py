"""The order in which the connections of a user are served, and clients that hold back only their user."""
import time

import pytest
from shared.argon import load_argon
from shared.loads import LOAD, LOADED
from shared.program import wait_until
from shared.served import Servers
from shared.serving import DENIED
from shared.texts import must_be
from shared.words import AT_ONCE, hello, measured, token, user, welcome


def test_connections_of_a_user_are_served_in_turn(serve: Servers) -> None:
    server = serve(user("A"), 4)
    first = server.enter("A")
    first.says(LOAD, LOADED)
    first.says(b"TUG a 0 5 0 0\n", b"OK TUG a 0 0\n")
    second = server.connect()
    second.send(hello("A") + b"MEASURE a\n")
    assert second.is_quiet()
    first.says(b"LIST\n", b"OK LIST 1\na 0 2 0\n")
    assert second.is_quiet(0)
    first.leaves()
    second.is_told(welcome("A") + measured(5), b"MEASURE a")
    for line in [b"HELLO A " + token("B").encode() + b"\n", hello("B")]:
        denied = server.connect()
        denied.send(line)
        denied.is_told_last(DENIED)
        denied.close()
    second.leaves()
    server.finish(tiles=1)


def test_eight_connections_at_once_are_served_one_after_the_other(serve: Servers) -> None:
    server = serve(user("A"), 9, workers=4)
    first = server.enter("A")
    first.says(LOAD, LOADED)
    first.leaves()
    clients = [server.connect() for _ in range(8)]
    for client in clients:
        client.send(hello("A") + b"TUG a 0 1 0 0\nMEASURE a\nBYE\n")
    front, end = welcome("A") + b"OK TUG a 0 0\n", b"OK BYE\n"
    wanted = [front + measured(number) + end for number in range(1, 9)]
    seen = [client.rest() for client in clients]
    assert sorted(seen) == sorted(wanted)
    server.finish(tiles=8)


def test_tickets_are_in_the_order_of_hello(serve: Servers) -> None:
    server = serve(user("A"), 6)
    first = server.enter("A")
    first.says(LOAD, LOADED)
    opened = [server.connect() for _ in range(5)]
    order = [3, 1, 4, 0, 2]
    for number in order:
        opened[number].send(hello("A") + b"TUG a 0 1 0 0\nMEASURE a\nBYE\n")
        assert opened[number].is_quiet(0.1)
    first.leaves()
    for place, number in enumerate(order):
        opened[number].is_told_last(welcome("A") + b"OK TUG a 0 0\n" + measured(place + 1) + b"OK BYE\n")
    server.finish(tiles=5)


def test_a_connection_that_waits_may_go_away(serve: Servers) -> None:
    server = serve(user("A"), 5)
    first = server.enter("A")
    waiting = [server.connect() for _ in range(4)]
    for client in waiting:
        client.send(hello("A") + b"LIST\nBYE\n")
        assert client.is_quiet(0.05)
    waiting[0].close()
    waiting[1].reset()
    waiting[2].half_close()
    first.says(LOAD, LOADED)
    first.leaves()
    for client in waiting[2:]:
        client.is_told_last(welcome("A") + b"OK LIST 1\na 0 2 0\nOK BYE\n")
    server.finish(tiles=0)


def test_an_unfinished_line_holds_back_only_its_user(serve: Servers) -> None:
    server = serve(user("A") + user("B"), 3)
    first = server.enter("A")
    first.says(LOAD + b"TUG a 0", LOADED)
    second = server.connect()
    second.send(hello("A") + b"MEASURE a\n")
    other = server.enter("B")
    other.says(LOAD, LOADED)
    other.says(b"ADVANCE a 1\n", b"OK ADVANCE a 1\n")
    other.leaves()
    assert second.is_quiet()
    first.says(b" 3 0 0\n", b"OK TUG a 0 0\n")
    first.leaves()
    second.is_told(welcome("A") + measured(3), b"MEASURE a")
    second.leaves()
    server.finish(tiles=2)


def test_a_client_that_does_not_read_holds_back_only_its_user(serve: Servers) -> None:
    load, asked = load_argon("a"), b"DUMP a\n" * 1000
    server = serve(user("A") + user("B"), 3)
    first = server.enter("A", room=1 << 18)
    first.says(load, b"OK LOAD a 0 256\n")
    first.send(asked)
    time.sleep(0.5)
    second = server.connect()
    second.send(hello("A") + b"LIST\n")
    start = time.monotonic()
    other = server.enter("B")
    other.says(LOAD, LOADED)
    other.says(b"MEASURE a\n", b"OK MEASURE a 0 2 0 0 0 0 -5349132\n")
    other.leaves()
    spent = time.monotonic() - start
    assert spent < AT_ONCE
    assert second.is_quiet(0.05)
    first.half_close()
    seen, wanted = b"OK LOAD a 0 256\n" + first.rest(), serve.program.replies_alone(load + asked)
    must_be(seen, wanted)
    second.is_told(welcome("A") + b"OK LIST 1\na 0 256 0\n", b"LIST")
    second.leaves()
    server.finish(tiles=1)


@pytest.mark.parametrize("count, rounds", [(28, 16), (2, 64)])
def test_users_come_in_turn_round_after_round(serve: Servers, count: int, rounds: int) -> None:
    """Each user's next connection waits while all users are in. They leave from the last to the first. Every other user has
    a session of its own name. A connection counts as open until its thread has ended."""
    names = [f"u{number:02}" for number in range(count)]
    lists = {name: f"OK LIST 1\n{name} 0 2 0\n".encode() for name in names[::2]}
    lists.update((name, b"OK LIST 0\n") for name in names[1::2])
    server = serve(b"".join(map(user, names)), count * (rounds + 1), workers=1)
    inside = {name: server.enter(name) for name in names}
    for name in names[::2]:
        inside[name].says(LOAD.replace(b" a ", f" {name} ".encode()), f"OK LOAD {name} 0 2\n".encode())
    for _ in range(rounds):
        have_ended = wait_until(lambda: server.threads() == 2 + count, AT_ONCE)
        assert have_ended, f"{server.threads()} threads for {count} connections"
        waiting = {name: server.connect() for name in names}
        for name in names:
            waiting[name].send(hello(name) + b"LIST\n")
        for number in reversed(range(count)):
            name = names[number]
            are_waiting = all(waiting[other].is_quiet(0) for other in names[: number + 1])
            assert are_waiting, f"of the users up to {name}"
            inside[name].leaves()
            waiting[name].is_told(welcome(name) + lists[name], name)
        inside = waiting
    for client in inside.values():
        client.leaves()
    server.finish(tiles=0)
