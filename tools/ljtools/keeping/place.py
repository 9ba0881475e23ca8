"""The place of a store: a folder of one front, or a database that fronts share."""
import contextlib
import fcntl
import math
import os
import pathlib
import re
import socket
import ssl
from typing import TYPE_CHECKING, Callable, Dict, List, NamedTuple, Optional

from ..user_files import Fault
from ..watching import address_of
from .accounts import DENIED
from .journal import take_over_all
from .sqlite import Sqlite
from .store import Base, Store

if TYPE_CHECKING:
    from .postgres import Postgres

FILE, STATUS, LOCK, KICK = "kept.sqlite", "status.json", "lock", ".kick"
SECONDS_TO_ANSWER = 3.0


class Owner(NamedTuple):
    """A front that has a user, as other fronts know it."""

    address: str
    has_header: bool


class Place:
    """A place whose users all belong to one front. Slow calls, which may raise `StoreFault`, are not for its loop."""

    is_shared = False
    seconds_of_lease = math.inf
    base: Base

    def begin(self, address: str, has_header: bool) -> None:
        """Registers a front that others reach at an address."""

    def hold(self) -> bool:
        """Whether the front may continue for the time of the lease, from before this call. Raises `Fenced` if it must end."""
        return True

    def claim(self, name: str) -> Optional[Owner]:
        """Assigns a user to this front. Returns the owner if another running front has the user."""
        return None

    def release(self, name: str) -> None:
        """Releases a user."""

    def take_over(self, store: Store, refuse: Callable[[str, str], None]) -> List[str]:
        """Takes over data in an old format. Returns the names of its users."""
        return []

    def text(self, name: str) -> str:
        """The text of a name, or none."""
        raise NotImplementedError

    def put(self, name: str, text: str) -> None:
        """Sets the text of a name."""
        raise NotImplementedError

    def first(self, name: str, text: str) -> str:
        """The text of a name, set to this one if it had none."""
        if not (found := self.text(name)):
            self.put(name, text)
        return found or text

    def tell(self, status: str) -> None:
        """Shows a status, soon."""
        raise NotImplementedError

    def told(self) -> List[str]:
        """The statuses of other fronts, also of ended ones."""
        return []

    def kicked(self) -> List[str]:
        """The users whose connections must be ended. Each is returned once."""
        return []

    def give_up(self) -> None:
        """Stops all retries, since the front ends."""

    def close(self) -> None:
        """Releases all that this front has."""
        raise NotImplementedError


class Folder(Place):
    """A folder, which one front uses at a time."""

    def __init__(self, path: pathlib.Path, sync_each: bool = True):
        """Makes the folder if it is not there. Raises Fault if it cannot be used, or `StoreFault`."""
        self.path = path
        self._put: Dict[str, str] = {}
        try:
            path.mkdir(mode=0o700, exist_ok=True)
            if path.stat().st_mode & 0o077:
                raise Fault(f"cannot use {path}: its mode lets others in; use `chmod 700` to leave it to its owner")
            self._lock = os.open(path / LOCK, os.O_RDWR | os.O_CREAT | os.O_CLOEXEC, 0o600)
            fcntl.flock(self._lock, fcntl.LOCK_EX | fcntl.LOCK_NB)
        except BlockingIOError as error:
            raise Fault(f"cannot use {path}: it is in use") from error
        except OSError as error:
            raise Fault(f"cannot use {path}: {error.strerror}") from error
        self.base = Sqlite(path / FILE, sync_each)
        self._told = [self.text(STATUS)]

    def take_over(self, store: Store, refuse: Callable[[str, str], None]) -> List[str]:
        return take_over_all(self.path, store, refuse)

    def text(self, name: str) -> str:
        with contextlib.suppress(OSError):
            return (self.path / name).read_text().rstrip("\n")
        return ""

    def put(self, name: str, text: str) -> None:
        # A full disk is ignored here: what was replied is in the store.
        path = self.path / f"{name}.new"
        with contextlib.suppress(OSError):
            if self._put.get(name) != text:
                path.write_text(f"{text}\n")
                path.replace(self.path / name)
                self._put[name] = text

    def tell(self, status: str) -> None:
        self.put(STATUS, status)

    def told(self) -> List[str]:
        return self._told

    def kicked(self) -> List[str]:
        asked = [*self.path.glob(f"*{KICK}")]
        with contextlib.suppress(OSError):
            for each in asked:
                each.unlink()
        return [each.stem for each in asked]

    def close(self) -> None:
        self.base.close()
        os.close(self._lock)


def answer_of(at: str, has_header: bool, has_tls: bool = False) -> Optional[bytes]:
    """The reply of a front to a check, or None if none listens. It is DENIED if its server answers. Raises OSError if neither a
    reply nor an end comes."""
    try:
        with socket.create_connection(address_of(at), SECONDS_TO_ANSWER) as plain:
            plain.settimeout(SECONDS_TO_ANSWER)
            stream = encrypted(plain) if has_tls else plain
            stream.sendall((b"PROXY UNKNOWN\r\n" if has_header else b"") + b"HELLO - -\n")
            return stream.recv(len(DENIED))
    except ConnectionRefusedError:
        return None


def encrypted(plain: socket.socket) -> socket.socket:
    """A TLS connection to a front on this machine, whose certificate is not checked."""
    context = ssl.SSLContext(ssl.PROTOCOL_TLS_CLIENT)
    context.check_hostname, context.verify_mode = False, ssl.CERT_NONE
    return context.wrap_socket(plain)


def is_address(place: str) -> bool:
    """Whether a place is the address of a database."""
    return place.startswith(("postgresql://", "postgres://"))


def shown_place(place: str) -> str:
    """A place without a password, for display."""
    return re.sub(r"(?<=//)[^/]*@", "", place)


def database_at(address: str, sync_each: bool = True) -> "Postgres":
    """The database at an address. Raises Fault if psycopg2 is not installed, or `StoreFault` if it is no address."""
    try:
        from .postgres import Postgres
    except ImportError as error:
        raise Fault("cannot use a database: psycopg2 is not installed; use apt-get install python3-psycopg2") from error
    return Postgres(address, sync_each)


def place_of(word: str, sync_each: bool) -> Place:
    """The place named by a word."""
    if is_address(word):
        return database_at(word, sync_each)
    return Folder(pathlib.Path(word), sync_each)
