"""Who may open the page: those who have its secret link, on this machine or in the network."""
from __future__ import annotations

import dataclasses
import hmac
import re
import secrets
import socket
from dataclasses import dataclass
from typing import List, Optional, Sequence

from .. import ClientError
from .addresses import Address

ADDRESS = "127.0.0.1"
SECRET_BYTES = 12
HOST = re.compile(r"[A-Za-z0-9.:\[\]-]{1,255}")
ANY = ("0.0.0.0", "::")
# TCP keepalive, which ends connections to machines that are gone: seconds of silence, seconds between probes, and probes.
SILENCE = {"TCP_KEEPIDLE": 60, "TCP_KEEPINTVL": 15, "TCP_KEEPCNT": 4}
# Addresses for documentation. Nothing is sent to them: only the route to them is looked up.
SOMEWHERE = {socket.AF_INET: "192.0.2.1", socket.AF_INET6: "2001:db8::1"}


@dataclass(frozen=True)
class Access:
    """Where the page is, and who may request it.

    listener  the listening socket
    hosts     the hosts that a request may name. Empty if others may open the page, since any name may lead here then
    prefix    the beginning of each path, which contains the secret
    url       the link to the page
    """

    listener: socket.socket
    hosts: Sequence[str]
    prefix: str
    url: str

    @property
    def is_open(self) -> bool:
        """Whether users of other machines may open the page."""
        return not self.hosts

    def without_secret(self) -> "Access":
        """A copy for a page that has nothing secret: its link has no secret."""
        return dataclasses.replace(self, prefix="/", url=self.url[: -len(self.prefix)] + "/")

    def path_of(self, path: str) -> Optional[str]:
        """A path without the prefix, or None if it lacks the prefix."""
        begun = path[: len(self.prefix)]
        return path[len(self.prefix) :] if hmac.compare_digest(begun.encode(), self.prefix.encode()) else None

    def refusal(self, host: str, origin: Optional[str], is_session: bool) -> Optional[str]:
        """Why a request is refused, or None. Only pages of this server may send one, and only to its own address."""
        if not (host in self.hosts or (self.is_open and HOST.fullmatch(host))):
            return "Host is not the address of this page"
        if origin is None:
            return "a session is for a page of this server" if is_session else None
        return None if origin in self.origins(host) else "Origin is another page"

    def origins(self, host: str) -> List[str]:
        """The allowed origins. If others may open the page, a proxy may serve it over https."""
        return [f"http://{host}", f"https://{host}"] if self.is_open else [f"http://{host}"]

    def sockets(self, host: str) -> List[str]:
        """Where a page may connect for its session."""
        return [f"ws://{host}", f"wss://{host}"] if self.is_open else [f"ws://{each}" for each in self.hosts]


def secret_path() -> str:
    """A prefix of paths that nobody can guess."""
    return f"/{secrets.token_urlsafe(SECRET_BYTES)}/"


def for_this_machine(port: int) -> Access:
    """A page for users of this machine who have its link. Port 0 takes a free port. Raises OSError if the port is taken."""
    listener = socket.create_server((ADDRESS, port))
    port, prefix = listener.getsockname()[1], secret_path()
    return Access(listener, [f"{name}:{port}" for name in (ADDRESS, "localhost")], prefix, f"http://{ADDRESS}:{port}{prefix}")


def for_others(address: Address, host: Optional[str]) -> Access:
    """A page for users in the network who have its link.

    address  where it listens. Raises OSError if it cannot
    host     this machine's name or address as others see it. None: it is looked up. Raises ClientError if it is not found
    """
    family = socket.AF_INET6 if ":" in address.host else socket.AF_INET
    listener = socket.create_server(tuple(address), family=family)
    notice_silence(listener)
    port, prefix = listener.getsockname()[1], secret_path()
    shown = host or seen_by_others(listener)
    return Access(listener, [], prefix, f"http://{f'[{shown}]' if ':' in shown else shown}:{port}{prefix}")


def notice_silence(listener: socket.socket) -> None:
    """Ends connections to machines that are gone without a message, such as a laptop whose lid was closed."""
    listener.setsockopt(socket.SOL_SOCKET, socket.SO_KEEPALIVE, 1)
    for name, number in SILENCE.items():
        if hasattr(socket, name):
            listener.setsockopt(socket.IPPROTO_TCP, getattr(socket, name), number)


def seen_by_others(listener: socket.socket) -> str:
    """This machine's address as others see it: the listener's or, if it listens on all, the one for the route to others."""
    host = str(listener.getsockname()[0])
    if host not in ANY:
        return host
    try:
        with socket.socket(listener.family, socket.SOCK_DGRAM) as probe:
            probe.connect((SOMEWHERE[listener.family], 9))
            return str(probe.getsockname()[0])
    except OSError:
        raise ClientError("cannot find the address of this machine in the network; use --address HOST, the one that others reach") from None
