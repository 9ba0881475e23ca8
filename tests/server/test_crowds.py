"""Users with more connections than may wait: who is turned away, and who gets a place despite that."""
import select
import time
from typing import List

import pytest
from shared.loads import LOAD, LOADED
from shared.program import wait_until
from shared.served import Client, Server, Servers
from shared.serving import DENIED, MAX_OPEN
from shared.words import AT_ONCE, hello, user, welcome


# How many connections of a user wait while another one is in. One more is turned away.
MAX_WAITING = 8


def asks(server: Server, name: str, more: bytes = b"") -> Client:
    """A connection that has sent HELLO, and has read no reply."""
    client = server.connect()
    client.send(hello(name) + more)
    return client


def waits(server: Server, name: str) -> Client:
    client = asks(server, name)
    assert client.is_quiet(), "one of the first connections does not wait"
    return client


def test_eight_connections_of_a_user_wait(serve: Servers) -> None:
    """The next ones are closed without a byte, whatever they sent after HELLO. A wrong token is denied as usual."""
    server = serve(user("A"), 40)
    first = server.enter("A")
    waiting = [waits(server, "A") for _ in range(MAX_WAITING)]
    for _ in range(3):
        asks(server, "A").is_told_last(b"")
    asks(server, "A", LOAD).is_told_last(b"")
    stranger = server.connect()
    stranger.send(b"HELLO A " + b"0" * 32 + b"\n")
    stranger.is_told_last(DENIED)
    first.says(b"LIST\n", b"OK LIST 0\n")
    first.leaves()
    for client in waiting:
        client.is_told(welcome("A"))
        client.says(LOAD + b"DROP a\n", LOADED + b"OK DROP a\n")
        client.leaves()
    server.finish(tiles=0)


def test_one_more_waits_once_one_has_left(serve: Servers) -> None:
    server = serve(user("A"), 40)
    first = server.enter("A")
    second, *waiting = [waits(server, "A") for _ in range(MAX_WAITING)]
    asks(server, "A").is_told_last(b"")
    first.leaves()
    second.is_told(welcome("A"))
    waiting.append(waits(server, "A"))
    asks(server, "A").is_told_last(b"")
    second.leaves()
    for client in waiting:
        client.is_told(welcome("A"))
        client.leaves()
    server.finish(tiles=0)


def test_others_are_let_in_beside_sixty_four_connections_of_one_user(serve: Servers) -> None:
    """All connections that do not wait are closed and free their places at once, though their clients keep them open."""
    server = serve(user("A") + user("B"), 200)
    first = server.enter("A")
    crowd = [asks(server, "A") for _ in range(MAX_OPEN - 1)]
    assert len(ended(crowd)) == MAX_OPEN - 1 - MAX_WAITING
    other = server.enter("B")
    other.says(LOAD + b"ADVANCE a 2\n", LOADED + b"OK ADVANCE a 2\n")
    other.leaves()
    first.leaves()
    server.finish(tiles=2)


def ended(clients: List[Client]) -> List[Client]:
    """The clients whose connections the server has ended, once it has ended all but eight."""
    end = time.monotonic() + AT_ONCE
    gone: List[Client] = []
    while len(gone) < len(clients) - MAX_WAITING and time.monotonic() < end:
        open_sockets = {client.socket: client for client in clients if client not in gone}
        for ready in select.select(list(open_sockets), [], [], 0.1)[0]:
            client = open_sockets[ready]
            client.is_told_last(b"")
            gone.append(client)
    return gone


def test_those_turned_away_leave_nothing_behind(serve: Servers, pytestconfig: pytest.Config) -> None:
    """Many are turned away while eight wait. No memory, no descriptor and no thread stays."""
    turned = int(pytestconfig.getoption("--connections"))
    server = serve(user("A"), turned + 40)
    first = server.enter("A")
    waiting = [waits(server, "A") for _ in range(MAX_WAITING)]
    idle = server.held()
    for _ in range(turned // 4):
        turn_away(server)
    memory = server.status("VmRSS")
    for _ in range(turned - turned // 4):
        turn_away(server)
    assert wait_until(lambda: server.held() == idle, AT_ONCE), f"descriptors and threads: {server.held()} in place of {idle}"
    assert abs(server.status("VmRSS") - memory) <= 1024, "kilobytes of memory"
    first.leaves()
    for client in waiting:
        client.is_told(welcome("A"))
        client.leaves()
    server.finish(tiles=0)


def turn_away(server: Server) -> None:
    client = asks(server, "A")
    client.is_told_last(b"")
    client.close()
    server.clients.remove(client)
