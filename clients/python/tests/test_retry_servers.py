"""A script over links of a server that are cut at any time, or whose front is killed: it tells what it tells over a link that holds."""
import contextlib
import random
import threading
from typing import Any, Iterator, List

import pytest

from keepers import TOKEN as KEPT_TOKEN, Keeper
from ljclient import Undecided, connect
from relays import Relay
from support import SECONDS, TOKEN, Server, free_port, listed

pytestmark = pytest.mark.usefixtures("state")
ROWS = [("Ar", x, y, z) for x in (1.0, 2.2) for y in (1.0, 2.2) for z in (1.0, 2.2)]


def told(user: Any) -> List[Any]:
    """What a script is told: of steps one by one, of looks, of changes of all atoms, of what is saved and of two sessions at once."""
    for row in user.sessions():
        user.session(row.name).drop()
    one = user.load("one", ROWS, edge=8.0, sigma=1.0, h=4096, watch=False)
    two = user.load("two", ROWS, edge=8.0, sigma=1.0, h=1024, watch=False)
    found: List[Any] = [one.heat(0.7, seed=1)]
    for number in range(6):
        found += [one.advance(5, piece=1), user.advance([one, two], [2, 3]), listed(one.places()), one.measure(), two.reverse()]
        found += [one.branch(f"k{number}"), one.tug(number % 8, (number, 0, -1)), str(one.velocities()), two.start(3), two.get_step()]
        if number % 3 == 2:
            found += [one.restore(f"k{number - 1}"), one.saved(), one.copy("three", replace=True).get_step()]
    return [*found, user.sessions()]


@contextlib.contextmanager
def cut_again_and_again(relay: Relay, seed: int) -> Iterator[List[int]]:
    """All links of a relay are cut within, each time after a part of a second. Gives how often."""
    stop, count, chance = threading.Event(), [0], random.Random(seed)

    def cut() -> None:
        while not stop.wait(chance.uniform(0.05, 0.4)):
            relay.cut()
            count[0] += 1

    thread = threading.Thread(target=cut, daemon=True)
    thread.start()
    try:
        yield count
    finally:
        stop.set()
        thread.join(SECONDS)


@pytest.mark.parametrize("is_encrypted", [False, True])
@pytest.mark.parametrize("seed", range(3))
def test_a_script_over_links_that_are_cut(server: Any, good: Any, seed: int, is_encrypted: bool) -> None:
    with connect("127.0.0.1", server.port, "ann", TOKEN, timeout=SECONDS) as user:
        wanted = told(user)
    with Relay(server.port, good if is_encrypted else None) as relay:
        words = {"tls": True, "ca": good[0]} if is_encrypted else {}
        with connect("127.0.0.1", relay.port, "ann", TOKEN, timeout=SECONDS, retry=SECONDS, **words) as user:
            with cut_again_and_again(relay, seed) as count:
                while count[0] < 8:
                    assert told(user) == wanted


def test_a_front_that_is_killed_and_begun_again(tmp_path: Any) -> None:
    with Keeper(tmp_path) as keeper, Relay(keeper.port) as relay:
        with keeper.connected() as user:
            wanted = told(user)
        stop = threading.Event()

        def kill() -> None:
            for _ in range(4):
                if stop.wait(0.3):
                    return
                keeper.kill()
                keeper.begin()
                relay.to = keeper.port

        thread = threading.Thread(target=kill, daemon=True)
        with connect("127.0.0.1", relay.port, "ann", KEPT_TOKEN, timeout=SECONDS, retry=SECONDS) as user:
            thread.start()
            try:
                assert [told(user) for _ in range(3)] == [wanted] * 3
            finally:
                stop.set()
                thread.join(SECONDS)


def test_a_server_that_has_lost_all_is_told() -> None:
    port = free_port()
    with Relay(port) as relay:
        with Server() as server:
            relay.to = server.port
            user = connect("127.0.0.1", relay.port, "ann", TOKEN, timeout=SECONDS, retry=SECONDS)
            session = user.load("one", ROWS, edge=8.0, sigma=1.0, h=4096, watch=False)
        with Server() as server, pytest.raises(Undecided, match="one is gone.*started again"):
            relay.to = server.port
            session.advance(1)
        assert user.closed
