"""Ports of 127.0.0.1, and connections to them. Needs Linux: listening ports are read from /proc."""
import os
import secrets
import socket
import struct
from contextlib import suppress
from itertools import cycle
from typing import Iterator, Optional

from shared.program import SECONDS

# Linux's number of an option that some Pythons do not name: a bound address takes no port before it connects.
IP_BIND_ADDRESS_NO_PORT = 24

# Ports below those that Linux gives to connections. Each process of pytest-xdist has a share of them.
FIRST_PORT, SHARE, SHARES = 10_000, 1_400, 16


def ports() -> Iterator[int]:
    """The ports of this process in a cycle, from a random one on."""
    share = int(os.environ.get("PYTEST_XDIST_WORKER", "gw0")[2:]) % SHARES
    first, at = FIRST_PORT + share * SHARE, secrets.randbelow(SHARE)
    return cycle([*range(first + at, first + SHARE), *range(first, first + at)])


PORTS = ports()


def free_port() -> int:
    """A free port, which no other process of pytest-xdist takes before it is used."""
    while True:
        port = next(PORTS)
        with suppress(OSError), socket.socket() as taken:
            taken.bind(("127.0.0.1", port))
            return port


def is_listened_on(port: int) -> bool:
    with open("/proc/net/tcp", encoding="utf-8") as file:
        rows = [line.split() for line in file]
    return any(row[1] == f"0100007F:{port:04X}" and row[3] == "0A" for row in rows)


def connected(port: int, seconds: float = SECONDS, room: Optional[int] = None, source: Optional[str] = None) -> socket.socket:
    """A connection to a port, with a time limit of `seconds` for each wait. `room` is the size of its receive buffer in
    bytes, and `source` its own address."""
    stream = socket.socket()
    if room is not None:
        stream.setsockopt(socket.SOL_SOCKET, socket.SO_RCVBUF, room)
    stream.settimeout(seconds)
    if source is not None:
        stream.setsockopt(socket.IPPROTO_IP, IP_BIND_ADDRESS_NO_PORT, 1)
        stream.bind((source, 0))
    stream.connect(("127.0.0.1", port))
    stream.setsockopt(socket.IPPROTO_TCP, socket.TCP_NODELAY, 1)
    return stream


def reset(stream: socket.socket) -> None:
    """Closes a connection with a reset."""
    stream.setsockopt(socket.SOL_SOCKET, socket.SO_LINGER, struct.pack("ii", 1, 0))
    stream.close()
