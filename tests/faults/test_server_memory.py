"""Servers of which each allocation is refused in turn."""
from concurrent.futures import ThreadPoolExecutor
from typing import Dict, Set, Tuple

from shared import shims
from shared.loads import LOAD, LOADED
from shared.program import NO_MEMORY, Ended
from shared.served import Servers
from shared.serving import NotBegun
from shared.texts import shown
from shared.words import hello, user, welcome

# Allocations of a server over each kind of pool, from the first to one after those until a user has had its commands answered.
# The lock has 2,177 boxes and the queue 6,274, of which some are refused.
ALLOCATIONS = {
    "lock": [*range(1, 80), *range(80, 2_160, 40), *range(2_160, 2_360)],
    "queue": [*range(1, 80), *range(80, 6_260, 90), *range(6_260, 6_860)],
}

# How many servers are tried side by side.
AT_ONCE = 4

# What a connection is told, and what the server ends with.
Told = Tuple[bytes, Ended]

# What a user says to a server that is refused memory once, and what it may be told with how many tiles computed.
SPARING = LOAD + b"BRANCH a k\nADVANCE a 1\nBYE\n"
SPARED = {
    b"": 0,
    welcome("A") + LOADED + b"OK BRANCH a k 0\nOK ADVANCE a 1\nOK BYE\n": 1,
    welcome("A") + LOADED + b"ERR 90 MEMORY\nOK ADVANCE a 1\nOK BYE\n": 1,
    welcome("A") + b"ERR 90 MEMORY\n" + b"ERR 10 NO_SESSION\n" * 2 + b"OK BYE\n": 0,
}


def test_each_allocation_of_a_server_is_refused(serve: Servers, pool: str, refuse_memory: str) -> None:
    """To the server, to a connection and to its commands."""
    wanted: Set[Told] = {(told, (0, b"served 1 connections, %d tiles\n" % tiles, b"")) for told, tiles in SPARED.items()}
    wanted.add((b"", NO_MEMORY))

    def told_without(number: int) -> Told:
        return told_without_memory(serve, shims.variables(refuse_memory, REFUSED=number))

    with ThreadPoolExecutor(AT_ONCE) as threads:
        seen = dict(zip(ALLOCATIONS[pool], threads.map(told_without, ALLOCATIONS[pool])))
    assert {number: shown(told) for number, told in seen.items() if told not in wanted} == {}
    assert {*seen.values()} == wanted


def told_without_memory(serve: Servers, variables: Dict[str, str]) -> Told:
    """What a connection is told, and what the server ends with. It may end before it listens, and after it."""
    told = b""
    try:
        server = serve(user("A"), 1, env=variables)
        client = server.connect()
        client.send(hello("A") + SPARING)
        told = client.rest()
        client.close()
    except NotBegun as ended:
        status, out, err = ended.args
        return told, (status, out, err)
    except OSError:
        pass
    return told, server.wait()
