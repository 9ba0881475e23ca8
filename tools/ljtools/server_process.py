"""The state of a server on this machine, as /proc shows it: its connections, and how many it accepts."""
import contextlib
import pathlib
import socket
import struct
from dataclasses import dataclass
from typing import FrozenSet, Iterator, List, NamedTuple, Optional, Tuple

from .watching import Address, address_of

PROC = pathlib.Path("/proc")
LISTENS, IS_ENDED_BY_CLIENT = "0A", "08"
LISTEN_OPTION, CONNECTIONS_OPTION = "--listen", "--connections"


@dataclass(frozen=True)
class Server:
    """Whether a server listens, how many of its accepted connections are open, and in how many of these the client has ended its
    side. If its process was found: how many connections it accepts, its process number, and its start time."""

    listens: bool
    taken: int
    gone: int
    accepts: Optional[int]
    process: Optional[Tuple[int, str]]


class Row(NamedTuple):
    """A TCP socket of this machine. Its inode is 0 before a process accepts it and after that closes it."""

    host: str
    port: int
    state: str
    inode: str

    def is_open_to_all(self) -> bool:
        """Whether it listens at all addresses of this machine."""
        return self.state == LISTENS and set(self.host) == {"0"}


def server_at(address: Address) -> Optional[Server]:
    """The state of the server at an address. None if it is on another machine or /proc cannot be read."""
    try:
        hosts = hosts_here(address[0])
        rows = [row for row in rows_of_sockets() if row.port == address[1]]
    except OSError:
        return None
    if not any(row.is_open_to_all() for row in rows):
        rows = [row for row in rows if row.host in hosts]
    listens = any(row.state == LISTENS for row in rows)
    states = [row.state for row in rows if row.state != LISTENS and row.inode != "0"]
    process, accepts = next(processes_at(hosts, address[1]), (None, None))
    return Server(listens, len(states), states.count(IS_ENDED_BY_CLIENT), accepts, process)


def hosts_here(host: str) -> FrozenSet[str]:
    """The addresses of a host as /proc writes them. Raises OSError if it is another machine."""
    hosts = set()
    for family, kind, protocol, _, address in socket.getaddrinfo(host, 0, type=socket.SOCK_DGRAM):
        with contextlib.suppress(OSError), socket.socket(family, kind, protocol) as probe:
            probe.bind(address)
            packed = socket.inet_pton(family, str(address[0]).partition("%")[0])
            hosts.add("".join(f"{word:08X}" for word in struct.unpack(f"={len(packed) // 4}I", packed)))
    if not hosts:
        raise OSError(f"{host} is another machine")
    return frozenset(hosts)


def rows_of_sockets() -> Iterator[Row]:
    """The TCP sockets of this machine. Raises OSError if /proc cannot be read."""
    text = (PROC / "net" / "tcp").read_text()
    others = PROC / "net" / "tcp6"
    for line in [*text.splitlines()[1:], *(others.read_text().splitlines()[1:] if others.exists() else [])]:
        words = line.split()
        host, _, port = words[1].partition(":")
        yield Row(host, int(port, 16), words[3], words[9])


def processes_at(hosts: FrozenSet[str], port: int) -> Iterator[Tuple[Tuple[int, str], int]]:
    """Each process whose command line is a server at an address, and how many connections it accepts.

    All users may read a process' command line, but only its owner may read its open sockets.
    """
    for folder in PROC.glob("[0-9]*"):
        try:
            words = (folder / "cmdline").read_text(errors="replace").split("\0")
            accepts = connections_of(words, hosts, port)
            if accepts is not None:
                yield (int(folder.name), (folder / "stat").read_text().rpartition(")")[2].split()[19]), accepts
        except OSError:
            continue


def connections_of(words: List[str], hosts: FrozenSet[str], port: int) -> Optional[int]:
    """The connection limit in a server's command line, if it listens at an address."""
    try:
        listen, accepts = (words[words.index(option) + 1] for option in (LISTEN_OPTION, CONNECTIONS_OPTION))
        host, its_port = address_of(listen)
        if "serve" not in words or its_port != port:
            return None
        return int(accepts) if host in ("0.0.0.0", "::") or hosts & hosts_here(host) else None
    except (ValueError, IndexError, OSError):
        return None
