"""Servers on ports of 127.0.0.1."""
import subprocess
from typing import Any, List, Optional, Sequence, Tuple

from shared.program import Quota, end_of, file_of, wait_until
from shared.sockets import free_port, is_listened_on

CANNOT_LISTEN = b"ljserve: cannot listen\n"
DENIED = b"ERR 01 DENIED\n"
POOLS = ["lock", "queue"]
# The default pool of a server.
USUAL_POOL = "lock"
# How many connections may be open at once.
MAX_OPEN = 64


class NotBegun(Exception):
    """The status and outputs of a server that ended before it listened."""


def user_line(name: str, token: str, quota: Quota) -> bytes:
    """The line of a user in the file of users."""
    return f"{name} {token} {' '.join(map(str, quota))}\n".encode()


def options_of(workers: int, connections: int, pool: Optional[str] = None) -> List[str]:
    """The options of a server that ends after `connections` connections. Without a pool, there is no --pool."""
    options = ["--workers", str(workers), "--connections", str(connections)]
    return options if pool is None else [*options, "--pool", pool]


def launched(program: str, users: bytes, port: int, options: Sequence[str], **streams: Any) -> "subprocess.Popen[bytes]":
    """A server on this port with the users of these lines, as soon as it listens or has ended."""
    streams = {"stdin": subprocess.DEVNULL, "stdout": subprocess.PIPE, "stderr": subprocess.PIPE, **streams}
    with file_of(users) as path:
        words = [program, "serve", "--listen", f"127.0.0.1:{port}", "--users", path, *options]
        child = subprocess.Popen(words, **streams)
        wait_until(lambda: child.poll() is not None or is_listened_on(port))
    return child


def begun(program: str, users: bytes, options: Sequence[str], **streams: Any) -> "Tuple[subprocess.Popen[bytes], int]":
    """A server that listens, and its port. Tries another port if another program was quicker."""
    while True:
        port = free_port()
        child = launched(program, users, port, options, **streams)
        if child.poll() is None:
            return child, port
        ended = end_of(child)
        if ended != (1, b"", CANNOT_LISTEN):
            raise NotBegun(*ended)
