"""The health address of a front: whether its server answers, and figures for Prometheus."""
import asyncio
import concurrent.futures
from collections import Counter
from typing import Dict, Iterator, Protocol, Tuple

from ..metrics import METRICS, Metric, Page, of_connections, of_users, text_of
from ..watching import Board
from .status import Known

HEALTH = "/healthz"
SECONDS_TO_ANSWER = 3.0
# The states of users as labels.
STATES = {"ready": "ready", "put_back": "is put back", "stopped": "stopped"}


class Front(Protocol):
    """The methods of a front used here."""

    def is_well(self) -> bool:
        """Whether there is a server that answers."""

    def known(self) -> Known:
        """The contents of the status."""


def pages_of(front: Front, board: Board) -> Dict[str, Page]:
    """The pages of a front, each made in the running loop. Threads may ask for them."""

    def health() -> Tuple[int, str]:
        return (200, "ok\n") if front.is_well() else (503, "no server answers\n")

    def metrics() -> Tuple[int, str]:
        totals = board.totals()
        return 200, text_of([*of_front(front.known(), front.is_well(), board.users_in()), *of_connections(totals), *of_users(totals)])

    loop = asyncio.get_running_loop()
    return {HEALTH: in_loop(health, loop), METRICS: in_loop(metrics, loop)}


def in_loop(page: Page, loop: asyncio.AbstractEventLoop) -> Page:
    """A page that a loop makes. If the loop does not make it, its status is 503."""

    def made() -> Tuple[int, str]:
        future: "concurrent.futures.Future[Tuple[int, str]]" = concurrent.futures.Future()
        try:
            loop.call_soon_threadsafe(lambda: future.set_result(page()))
            return future.result(SECONDS_TO_ANSWER)
        except (concurrent.futures.TimeoutError, RuntimeError):
            return 503, "the front does not answer\n"

    return made


def of_front(known: Known, is_well: bool, users_in: int) -> Iterator[Metric]:
    """The metrics of a front's server, users and store."""
    users = [*known["users"].values()]
    states = Counter(user["state"] for user in users)
    yield "ljserve_up", "gauge", "Whether the server answers.", [({}, int(is_well))]
    yield "ljserve_restarts_total", "counter", "How often the server was restarted after it had ended.", [({}, known["restarts"])]
    yield "ljserve_users", "gauge", "Users, by state.", [({"state": label}, states[state]) for label, state in STATES.items()]
    yield "ljserve_users_in", "gauge", "Users who are in.", [({}, users_in)]
    for name, key, about in (
        ("ljserve_put_back_seconds_left", "left", "About how many seconds are left until all sessions are computed again."),
        ("ljserve_records", "records", "Commands that were stored since the last snapshots."),
        ("ljserve_record_bytes", "bytes", "Bytes of these commands."),
    ):
        yield name, "gauge", about, [({}, round(sum(user.get(key, 0) for user in users), 1))]
    used_up = sum(user.get("today", {}).get("is_used_up", False) for user in users)
    yield "ljserve_users_without_steps", "gauge", "Users who have no steps left today.", [({}, used_up)]
    yield "ljserve_syncs_total", "counter", "How often keep waited for the disk.", [({}, known["syncs"])]
    yield "ljserve_sync_seconds_total", "counter", "How many seconds keep waited for the disk.", [({}, known["sync_seconds"])]
