"""Kills servers and fronts while users work: no user may get a reply that is not possible."""
import contextlib
import pathlib
import random
import signal
import tempfile
import time
from functools import partial
from typing import Callable, Dict, List, Sequence

from keep_trials.cluster import Cluster
from keep_trials.fronts import Fronts
from keep_trials.keeper import TOOL, Keeper, patched, until
from keep_trials.visitor import Entrance, Visitor, quota_of

USERS = 8
SECONDS_BETWEEN = (0.02, 0.4)
SECONDS_AFTER_PROMOTION = 2.0
# The probability that users break off connections, and whether a kill may cut them.
KINDS = {"server": (0.0, False), "ends": (0.15, False), "both": (0.0, True)}
# FRONTS kills one of two fronts over PostgreSQL with its server, or (OF_SERVERS) a server alone. DATABASES kills a database that has
# a standby.
FRONTS, DATABASES, OF_SERVERS = "fronts", "databases", 0.2
# The share of kills that wait until everything is ready again; the others come before that.
OFTEN_READY = 0.75
# A front that takes a snapshot after few records or little computing, so that many kills come during a snapshot. Its servers have few
# names, so that users have them in turn.
OFTEN = patched("from ljtools.keeping import server, user; del server.NAMES[2:]\n" "user.MAX_RECORDS, user.SECONDS_OF_BUDGET = 25, 0.05")


def kill(program: str, kind: str, kills: int, seed: str, options: Sequence[str] = (), is_often: bool = False) -> Dict[str, int]:
    """Lets users work during `kills` kills of a kind, with many snapshots or the usual number. Returns what was done. Raises the
    first fault that a user found."""
    users = {name: quota_of(seed, name) for name in (f"user{number}" for number in range(USERS))}
    rnd, tool = random.Random(seed), OFTEN if is_often else TOOL
    with tempfile.TemporaryDirectory() as top:
        if kind == FRONTS:
            with contextlib.closing(Cluster()) as cluster, Fronts(pathlib.Path(top), cluster, program, users, options, tool) as fronts:
                return work(fronts, kills, seed, rnd, 0.0, True, partial(fronts.kill_one, rnd, OF_SERVERS))
        if kind == DATABASES:
            with contextlib.closing(Cluster()) as one, contextlib.closing(Cluster(one)) as other:
                with Fronts(pathlib.Path(top), one, program, users, options, tool, others=[other]) as fronts:
                    return work(fronts, kills, seed, rnd, 0.0, False, partial(kill_first, [one, other]))
        with Keeper(pathlib.Path(top), program, users, options, tool) as keeper:
            return work(keeper, kills, seed, rnd, *KINDS[kind], partial(kill_and_begin, keeper, kind, rnd))


def work(
    entrance: Entrance, kills: int, seed: str, rnd: random.Random, breaks: float, may_be_cut: bool, kill_one: Callable[[], None]
) -> Dict[str, int]:
    """Lets users work during `kills` kills. Returns what they did."""
    visitors = [Visitor(entrance, f"user{number}", seed, breaks, may_be_cut) for number in range(USERS)]
    for visitor in visitors:
        visitor.start()
    for _ in range(kills):
        if rnd.random() < OFTEN_READY:
            until(lambda: entrance.is_ready() or any(each.fault for each in visitors))
        time.sleep(rnd.uniform(*SECONDS_BETWEEN))
        if any(each.fault for each in visitors):
            break
        kill_one()
    return ended(visitors)


def kill_first(clusters: List[Cluster]) -> None:
    """Kills a database, promotes its standby, and swaps their roles."""
    first, second = clusters
    first.end(signal.SIGQUIT)
    second.promote()
    time.sleep(SECONDS_AFTER_PROMOTION)
    first.follow(second)
    clusters.reverse()


def kill_and_begin(keeper: Keeper, kind: str, rnd: random.Random) -> None:
    """Kills a server, or kills and restarts the front with all servers."""
    if kind == "both":
        keeper.kill()
        keeper.begin()
    else:
        keeper.kill_one_server(rnd)


def ended(visitors: List[Visitor]) -> Dict[str, int]:
    """Ends all visitors, and returns what they did. Raises the first fault of a visitor."""
    for visitor in visitors:
        visitor.end()
    words = ("commands", "checks", "connections")
    return {word: sum(getattr(each, word) for each in visitors) for word in words}
