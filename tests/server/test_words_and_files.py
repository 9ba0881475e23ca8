"""Arguments, files and addresses with which no server starts, and outputs that fail."""
import os
import socket
from typing import Any, Iterator, List, Tuple

import pytest
from shared.loads import LOAD, LOADED
from shared.program import TOP, WRITE_FAULT, Ended, Program, end_of
from shared.served import Servers
from shared.serving import CANNOT_LISTEN, POOLS, USUAL_POOL, launched, options_of
from shared.sockets import connected
from shared.texts import shown
from shared.words import token, user

GOOD = {"--listen": "127.0.0.1:1", "--users": "/none/such", "--workers": "1", "--connections": "1"}
WHOLE = [word for option in GOOD.items() for word in option]
BAD = {
    "--workers": ["0", "17", "x", "", "-1", "1.5", "18446744073709551617"],
    "--connections": ["0", "1000001", "x", "", "-1", "1e3"],
    "--pool": ["x", "", "Lock", "QUEUE", "locks", "1"],
}


@pytest.fixture
def serve_unnamed(program: Program) -> Servers:
    """Servers for which no kind of pool is named."""
    return Servers(program, None)


def usage_faults() -> Iterator[List[str]]:
    for option, value in [(option, value) for option, values in BAD.items() for value in values]:
        yield [word for pair in {**GOOD, option: value}.items() for word in pair]
    for missing in GOOD:
        yield [word for pair in GOOD.items() if pair[0] != missing for word in pair]
    yield from ([*WHOLE, "more"], [*WHOLE, "--workers", "2"], [*WHOLE, "--sessions", "2"], [*WHOLE[:-1]])
    yield from ([*WHOLE, "--pool"], [*WHOLE, "--pool", "lock", "--pool", "queue"])
    yield []


@pytest.mark.parametrize("words", usage_faults(), ids=" ".join)
def test_usage_faults(program: Program, words: List[str]) -> None:
    status, out, err = program.run(["serve", *words])
    assert (status, out) == (2, b"") and err.startswith(b"error: "), (status, out, err)


@pytest.mark.parametrize("word", [*GOOD, "--pool", f"[default: {USUAL_POOL}]", *POOLS])
def test_help_names_the_options(program: Program, word: str) -> None:
    status, out, err = program.run(["serve", "--help"])
    assert (status, err) == (0, b"") and word.encode() in out


USER, KEY = user("A"), token("B").encode()
FAULTS_OF_USERS: List[Tuple[bytes, int]] = [
    (b"", 1),
    (b"\n", 2),
    (b"# one\n# two\n", 3),
    (b"# one\n# two", 3),
    (USER + b"B! " + KEY + b" 1 1 1\n", 2),
    (USER + b"B2345678901234567 " + KEY + b" 1 1 1\n", 2),
    (USER + b"B " + KEY[:-1] + b" 1 1 1\n", 2),
    (USER + b"B " + KEY + b"0 1 1 1\n", 2),
    (USER + b"B " + KEY[:-1] + b"- 1 1 1\n", 2),
    (b"# one\n\n" + b"B " + KEY + b" 65 1 1\n", 3),
    (b"B " + KEY + b" 1 65537 1\n" + USER, 1),
    (b"B " + KEY + b" 1 1 257\n" + USER, 1),
    (b"B " + KEY + b" 1 1 -1\n", 1),
    (b"B " + KEY + b" 1 1 18446744073709551616\n", 1),
    (b"B " + KEY + b" 1 1\n", 1),
    (b"B " + KEY + b" 1 1 1 1\n", 1),
    (b"B " + KEY + b" 1 1 x", 1),
    (b" # no comment\n" + USER, 1),
    (USER + b"\n" + USER, 3),
    (USER + user("B") + user("A", (1, 1, 1)), 3),
    (b"".join(user(f"u{number}") for number in range(65)), 65),
    (USER.replace(b"\n", b"\r\n"), 1),
    (USER + b"\r\n", 2),
]


@pytest.mark.parametrize("users, line", [pytest.param(*each, id=shown(each[0], 100)) for each in FAULTS_OF_USERS])
def test_faults_of_users(serve_unnamed: Servers, users: bytes, line: int) -> None:
    assert serve_unnamed.ended_on(users, "127.0.0.1:0") == (2, b"", b"ljserve: users line %d\n" % line)


def test_the_users_are_read_before_the_address_is_tried(serve_unnamed: Servers) -> None:
    assert serve_unnamed.ended_on(USER + USER, "nowhere") == (2, b"", b"ljserve: users line 2\n")


@pytest.mark.parametrize("address", ["127.0.0.1:0", "nowhere"])
@pytest.mark.parametrize("name", ["/none/such", TOP, ""])
def test_files_that_cannot_be_read(serve_unnamed: Servers, name: str, address: str) -> None:
    assert serve_unnamed.ended_with(name, address) == (2, b"", f"ljserve: cannot read {name}\n".encode())


@pytest.mark.parametrize("address", ["nowhere", "127.0.0.1", "127.0.0.1:65536", "127.0.0.1:x", "127.0.0.1:", "192.0.2.1:0", ":", ""])
def test_addresses_that_cannot_be_listened_on(serve_unnamed: Servers, address: str) -> None:
    assert serve_unnamed.ended_on(USER, address) == (1, b"", CANNOT_LISTEN)


def test_an_address_that_is_taken(serve_unnamed: Servers) -> None:
    with socket.create_server(("127.0.0.1", 0)) as taken:
        assert serve_unnamed.ended_on(USER, f"127.0.0.1:{taken.getsockname()[1]}") == (1, b"", CANNOT_LISTEN)


def must_end_by_a_write_fault(serve: Servers, **streams: Any) -> None:
    server = serve(USER, 2, **streams)
    client = server.enter("A")
    client.says(LOAD, LOADED)
    client.leaves()
    status, _, err = server.ended()
    assert (status, err) == (1, WRITE_FAULT)


def test_a_full_output(serve: Servers) -> None:
    with open("/dev/full", "wb") as full:
        must_end_by_a_write_fault(serve, stdout=full)


def test_a_closed_output(serve: Servers) -> None:
    must_end_by_a_write_fault(serve, stdout=None, preexec_fn=lambda: os.close(1))


def close_streams() -> None:
    for number in range(3):
        os.close(number)


def test_closed_streams_are_no_sockets(serve: Servers) -> None:
    """No file and no socket of a server has the number of a stream that was closed at its start."""
    server = serve(USER, 1, stdin=None, stdout=None, stderr=None, preexec_fn=close_streams)
    client = server.enter("A")
    folder = f"/proc/{server.child.pid}/fd"
    assert [os.readlink(os.path.join(folder, name)) for name in os.listdir(folder) if int(name) < 3] == [os.devnull] * 3
    client.leaves()
    status, _, _ = server.ended()
    assert status == 1


def test_an_address_is_free_after_the_end(serve: Servers) -> None:
    server = serve(USER, 1)
    server.enter("A").leaves()
    server.finish(tiles=0)
    assert run_on(serve, server.port) == (0, b"served 1 connections, 0 tiles\n", b"")


def run_on(serve: Servers, port: int) -> Ended:
    """The status and outputs of a server on this port, after a connection without a line."""
    child = launched(serve.program.path, USER, port, options_of(2, 1, serve.pool))
    if child.poll() is None:
        connected(port).close()
    return end_of(child)
