"""How many connections, users and tasks there may be, quotas, and what connections leave behind."""
import pytest
from shared.loads import CHAIN, LOAD, LOADED, liquid, load, tiles_of_step
from shared.program import wait_until
from shared.served import Server, Servers
from shared.serving import DENIED, MAX_OPEN
from shared.words import AT_ONCE, hello, user, welcome


def test_sixty_four_connections_are_open_at_once(serve: Servers) -> None:
    names = [f"u{number}" for number in range(MAX_OPEN)]
    server = serve(b"".join(map(user, names)), MAX_OPEN + 120, workers=3)
    clients = [server.enter(name) for name in names]
    for client in clients:
        client.says(b"LIST\n", b"OK LIST 0\n")
    for _ in range(3):
        server.connect().is_told_last(b"")
    for client in clients:
        client.says(LOAD + b"ADVANCE a 2\n", LOADED + b"OK ADVANCE a 2\n")
    clients[7].leaves()
    again = server.let_in("u7")
    again.says(b"LIST\n", b"OK LIST 1\na 2 2 0\n")
    for client in clients[:7] + [again] + clients[8:]:
        client.leaves()
    server.finish(tiles=2 * MAX_OPEN)


@pytest.mark.parametrize("workers", [1, 16])
def test_more_tasks_than_there_is_room_for_are_computed(serve: Servers, workers: int) -> None:
    names = [f"u{number}" for number in range(MAX_OPEN)]
    asked = liquid(512) + b"ADVANCE a 1\nMEASURE a\nSHOW a 511\nBYE\n"
    wanted = serve.program.replies_alone(asked)
    server = serve(b"".join(map(user, names)), MAX_OPEN, workers)
    clients = [server.enter(name) for name in names]
    for client in clients:
        client.send(asked)
    for client in clients:
        client.is_told_last(wanted)
    server.finish(MAX_OPEN * 2 * tiles_of_step(512))


WALK = b"ADVANCE c 125\nREVERSE c\nADVANCE c 125\nREVERSE c\nMEASURE c\n"
WALKED = b"OK ADVANCE c 125\nOK REVERSE c 124\nOK ADVANCE c -1\nOK REVERSE c 0\nOK MEASURE c 0 65 0 0 0 0 -342344448\n"
ONE_STEP = b"OK ADVANCE c 1\nOK MEASURE c 1 65 0 0 0 693842 -342445638\n"


@pytest.mark.parametrize("asked, told, tiles", [(b"ADVANCE c 1\nMEASURE c\n", ONE_STEP, 4), (WALK, WALKED, 502)], ids=["step", "walk"])
def test_tasks_are_computed_beside_two_workers(serve: Servers, asked: bytes, told: bytes, tiles: int) -> None:
    """65 atoms in a row: each step has one task for the full block, and one for it and the atom beside it."""
    server = serve(user("u0"), 1, workers=2)
    client = server.enter("u0")
    client.says(load("c", CHAIN) + asked, b"OK LOAD c 0 65\n" + told)
    client.leaves()
    server.finish(tiles)


def test_sixty_four_users_ask_at_once(serve: Servers) -> None:
    """Each has one task for the energy, and one for the step."""
    names = [f"u{number}" for number in range(MAX_OPEN)]
    server = serve(b"".join(map(user, names)), MAX_OPEN, workers=2)
    clients = [server.enter(name) for name in names]
    for client in clients:
        client.send(LOAD + b"MEASURE a\nADVANCE a 1\nBYE\n")
    for client in clients:
        client.is_told_last(LOADED + b"OK MEASURE a 0 2 0 0 0 0 -5349132\nOK ADVANCE a 1\nOK BYE\n")
    server.finish(2 * MAX_OPEN)


def test_quotas_are_those_of_the_file(serve: Servers) -> None:
    lines = [
        user("none", (0, 0, 0)),
        b"\n# a comment\n#another one\n \t\n",
        user("atom", (1, 1, 0)),
        b"\t two\t" + user("two", (1, 2, 0))[4:],
        user("most_-0123456789", (64, 65536, 256)),
        user("last", (1, 2, 1)).replace(b" 1 2 1\n", b" 01 0000002 1"),
    ]
    server = serve(b"".join(lines), 5)
    branch = b"BRANCH a k\n"
    for name, reply in [
        ("none", b"ERR 20 QUOTA_SESSIONS\nERR 10 NO_SESSION\n"),
        ("atom", b"ERR 21 QUOTA_ATOMS\nERR 10 NO_SESSION\n"),
        ("two", LOADED + b"ERR 22 QUOTA_BRANCHES\n"),
        ("most_-0123456789", LOADED + b"OK BRANCH a k 0\n"),
        ("last", LOADED + b"OK BRANCH a k 0\n"),
    ]:
        client = server.enter(name)
        client.says(LOAD + branch, reply)
        client.leaves()
    server.finish(tiles=0)


def test_short_connections_leave_nothing_behind(serve: Servers, pytestconfig: pytest.Config) -> None:
    connections = int(pytestconfig.getoption("--connections"))
    first = min(200, connections)
    server = serve(user("A"), connections, workers=2)
    begun = wait_until(lambda: server.threads() == 3, AT_ONCE)
    assert begun, f"descriptors and threads: {server.held()}"
    idle = server.held()
    for _ in range(first):
        visit_shortly(server)

    def is_idle() -> bool:
        return server.held() == idle

    assert wait_until(is_idle, AT_ONCE), f"descriptors and threads: {server.held()} in place of {idle}"
    memory = server.status("VmRSS")
    for _ in range(server.left - 1):
        visit_shortly(server)
    assert wait_until(is_idle, AT_ONCE), f"descriptors and threads: {server.held()} in place of {idle}"
    grown = server.status("VmRSS") - memory
    assert abs(grown) <= 1024, "kilobytes of memory"
    server.finish(tiles=0)


def visit_shortly(server: Server) -> None:
    """A connection that says HELLO and BYE, is denied, goes away or is reset, in turns."""
    client, way = server.connect(), server.left % 5
    if way == 0:
        client.send(hello("B"))
        wanted = DENIED
    elif way == 1:
        client.half_close()
        wanted = b""
    else:
        client.send(hello("A") + b"LIST\nBYE\n" * (way - 2))
        wanted = welcome("A") + [b"", b"OK LIST 0\nOK BYE\n", b"OK LIST 0\nOK BYE\n"][way - 2]
    seen = client.lines(1) if way == 2 else client.rest()
    assert seen == wanted, f"short connection {server.connections - server.left} ends by {client.end}"
    client.reset() if way == 2 else client.close()
