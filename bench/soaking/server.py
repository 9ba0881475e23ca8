"""The server of a soak, and its memory, threads and descriptors."""
import argparse
import select
import socket
import sys
import threading
import time
from typing import List, NamedTuple

from shared.program import Ended, descriptors_of, end_of, status_of, wait_until
from shared.serving import MAX_OPEN, NotBegun, begun, options_of, user_line
from soaking.connection import connected_from_anywhere
from soaking.words import PATIENCE, Fault, user_of

# At least this many connections of a crowd are turned away.
TURNED_AWAY = 16
CROWD = MAX_OPEN + TURNED_AWAY


class Held(NamedTuple):
    """What a process holds."""

    kilobytes: int
    descriptors: int
    threads: int

    def __str__(self) -> str:
        return f"{self.kilobytes} kB, {self.descriptors} descriptors, {self.threads} threads"


class Server:
    """A server for random users that ends after `bound` connections; `made` counts the connections besides the users' own."""

    def __init__(self, options: argparse.Namespace, bound: int) -> None:
        self.workers: int = options.workers
        self.bound, self.made = bound, 0
        users = [user_of(number) for number in range(options.users)]
        lines = b"".join(user_line(name.decode(), token.decode(), quota) for name, token, quota in users)
        try:
            self.child, self.port = begun(options.program, lines, options_of(options.workers, bound, options.pool))
        except NotBegun as ended:
            sys.exit(f"soak: cannot start the server: it does not listen ({ended})")

    def is_there(self) -> bool:
        return self.child.poll() is None

    def held(self) -> Held:
        folder = f"/proc/{self.child.pid}"
        return Held(status_of(folder, "VmRSS"), descriptors_of(self.child.pid), status_of(folder, "Threads"))

    def held_at_rest(self) -> Held:
        """What the server holds once all workers run and no connection is open."""
        wait_until(lambda: self.held().threads == self.workers + 1, PATIENCE)
        return self.held()

    def crowd(self) -> None:
        """Opens more silent connections than may be open at once, and checks that those above the limit are closed."""
        crowd = [connected_from_anywhere(self.port) for _ in range(CROWD)]
        self.made += len(crowd)
        closed = closed_of(crowd)
        for one in crowd:
            one.close()
        if closed < TURNED_AWAY:
            raise Fault(f"of {len(crowd)} connections {closed} are turned away")

    def finish(self, made: int) -> Ended:
        """Makes the remaining connections, and returns how the server ended."""
        for _ in range(self.bound - made - self.made):
            connected_from_anywhere(self.port).close()
        return end_of(self.child, seconds=PATIENCE)


def closed_of(crowd: List[socket.socket]) -> int:
    """How many of these connections are closed without a byte; waits until there are enough."""
    end = time.monotonic() + PATIENCE
    closed: List[socket.socket] = []
    while len(closed) < TURNED_AWAY and time.monotonic() < end:
        ready = select.select([one for one in crowd if one not in closed], [], [], 0.1)[0]
        closed += [one for one in ready if told_at_end(one) == b""]
    return len(closed)


def told_at_end(one: socket.socket) -> bytes:
    try:
        return one.recv(100)
    except ConnectionResetError:
        return b""


class Watch(threading.Thread):
    """Records the most that a server holds."""

    def __init__(self, server: Server) -> None:
        super().__init__(daemon=True)
        self.server, self.most, self.goes_on = server, Held(0, 0, 0), True

    def run(self) -> None:
        while self.goes_on:
            try:
                self.most = Held(*(max(pair) for pair in zip(self.most, self.server.held())))
            except (OSError, ValueError):
                return
            time.sleep(0.1)
