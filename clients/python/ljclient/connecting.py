"""Connects a user to a server, or to a program of its own."""
from __future__ import annotations

import functools
import math
import os
from typing import TYPE_CHECKING, Callable, Dict, Optional, Union

from . import scalars
from .errors import BadReply, CannotStart, ConnectionLost, TimedOut
from .files import Path
from .later import Later
from .locate import find_program, version_of
from .names import checked_name
from .tokens import without_blanks
from .transport import ChildTransport, Transport, opened_plainly
from .user import User
from .wire import Dialogue, Wire, checked_timeout

if TYPE_CHECKING:
    from . import leftovers, retrying
else:
    leftovers, retrying = map(Later, (".leftovers", ".retrying"))

Program = Union[str, os.PathLike[str]]


def connect(
    host: str,
    port: int,
    name: str,
    token: str,
    *,
    timeout: float = 60.0,
    tls: bool = False,
    ca: Optional[Path] = None,
    fingerprint: Optional[str] = None,
    retry: float = 0.0,
) -> User:
    """Connects a user to `ljserve serve`.

    If a lost connection has left a session half changed, `connect` restores the session, or a `LeftWarning` describes it.

    With `tls` the token is sent only if the certificate is valid; with `fingerprint` only to the server that has this certificate.
    Without both, a connection to another machine gives a `PlainTextWarning`, once for each host;
    `warnings.simplefilter("ignore", PlainTextWarning)` silences it.

    Parameters
    ----------
    host : str
        The name or address of the server.
    port : int
        Its port.
    name : str
        The name of the user.
    token : str
        The token of the user; blanks in it are ignored.
    timeout : float, optional
        The time limit in seconds for a connection, or for the reply to a command. A long `advance` runs in pieces that are much shorter.
    tls : bool, optional
        Whether to encrypt the connection. The server, or the proxy in front of it, needs a certificate with the name `host`.
    ca : path, optional
        With `tls`, a PEM file with the certificate of the issuer. The default is the issuers that the system trusts.
    fingerprint : str, optional
        Instead of `tls` and `ca`, the SHA-256 of the server's certificate: its hexadecimal digits, or the first 32 or more. Blanks and
        colons in it are ignored.
    retry : float, optional
        For how many seconds to try to reconnect, with growing waits, if the connection is lost or nothing arrives for `timeout` seconds.
        From step numbers, LIST and the momentum of MEASURE the client finds out which commands were done, sends the others again, and
        each call continues. If it cannot find out, it raises `Undecided`, and sends nothing twice. 0: a loss is an error.

    Returns
    -------
    User
        The user.

    Raises
    ------
    refusals.Denied
        If the server knows no user of that name and token.
    ConnectionLost
        If there is no server, it has no room for another connection, or its certificate is not trusted.
    TimedOut
        If nothing arrives for `timeout` seconds.
    """
    checked_name(name)
    checked_timeout(timeout)
    if not 0 <= scalars.real_of("retry", retry) < math.inf:
        raise ValueError(f"retry must be a finite number of seconds from 0 on, got {retry!r}")
    token = without_blanks(token) if isinstance(token, str) else ""
    if not (token.isascii() and token.isalnum()):
        raise ValueError("a token must be letters and digits (it is not shown here)")
    open_transport = transport_opener(tls, ca, fingerprint)
    return joined(lambda seconds: open_transport(host, port, seconds), name, token, timeout, f"{host}:{port}", retry)


def joined(open_transport: Callable[[float], Transport], name: str, token: str, timeout: float, address: str, retry: float = 0.0) -> User:
    """A user at this address, over a transport from `open_transport`, which takes a time limit in seconds. Each reply may take `timeout`
    seconds. What an earlier connection has left half done is repaired (`leftovers`). `retry` is as in `connect`."""

    def open_wire(seconds: float = timeout) -> Wire:
        wire = Wire(open_transport(min(seconds, timeout)), min(seconds, timeout))
        try:
            _greet(wire, name, token)
        except BaseException:
            wire.close()
            raise
        return wire

    def outlasting(wire: Wire) -> Dialogue:
        if retry:
            return retrying.RetryingWire(wire, open_wire, retry, timeout)
        return wire

    def reopen() -> Dialogue:
        return outlasting(retrying.tried_within(open_wire, retry) if retry else open_wire())

    user = User(outlasting(open_wire()), reopen, name, address=address)
    try:
        leftovers.put_right(user)
    except BaseException:
        user.close()
        raise
    return user


def transport_opener(tls: bool, ca: Optional[Path], fingerprint: Optional[str] = None) -> Callable[[str, int, float], Transport]:
    """The function that opens a connection, encrypted or not."""
    if ca is not None and fingerprint is not None:
        raise ValueError("cannot use fingerprint= with ca=: a fingerprint names the one certificate that is trusted; use one of them")
    if not tls and fingerprint is None:
        if ca is not None:
            raise ValueError("cannot use ca= without TLS: it is for a server's certificate; use tls=True too")
        return opened_plainly
    from .tls import Trust

    return Trust(ca, fingerprint).transport


def _greet(wire: Wire, name: str, token: str) -> None:
    """Sends HELLO, and waits until this user's earlier connections have ended."""
    try:
        reply = wire.ask(f"HELLO {name} {token}")
    except TimedOut as error:
        causes = f"is another connection of {name} open? or are all --connections of the server used up?"
        raise TimedOut(f"{error} ({causes})") from error
    except ConnectionLost as error:
        causes = f"do many connections of {name} wait? has the server no place for more connections? or are all its --connections used up?"
        raise ConnectionLost(f"{error} ({causes} or does it want tls=True or --tls?)") from error
    except BadReply as error:
        raise BadReply(f"{error} (is it another kind of server? or does it want tls=True or --tls?)") from error
    if reply.words != ["HELLO", name]:
        raise BadReply(f"HELLO was answered {' '.join(reply.words)[:80]!r}")


def run(
    program: Optional[Program] = None,
    *,
    sessions: int = 8,
    atoms: int = 16384,
    branches: int = 16,
    timeout: float = 60.0,
    env: Optional[Dict[str, str]] = None,
) -> User:
    """Starts a program for one user, without a server: `ljserve run` as a child process.

    The program ends when the user is closed. Its sessions are then lost.

    Parameters
    ----------
    program : path, optional
        The program. The default is the program that the environment variable LJSERVE names, else the program of the wheel `ljserve`
        (`ljclient[program]`), else bin/ljserve of the repository or release that contains this package (which builds it on first use),
        else `ljserve` on the PATH.
    sessions, atoms, branches : int, optional
        The quota, at most 64, 65536 and 256.
    timeout : float, optional
        As in `connect`.
    env : dict, optional
        The environment of the program. The default is the environment of this process. LJSERVE_TOKEN is removed from it.

    Returns
    -------
    User
        The user.

    Raises
    ------
    CannotStart
        If the program cannot be started.
    """
    checked_timeout(timeout)
    path = str(program) if program is not None else find_program()
    words = [path, "run"]
    for option, number in (("--sessions", sessions), ("--atoms", atoms), ("--branches", branches)):
        words += [option, str(number)]

    def start() -> Wire:
        wire = Wire(ChildTransport(words, env), timeout)
        try:
            wire.ask("LIST")
        except (ConnectionLost, BadReply) as error:
            raise CannotStart(f"cannot start {path}: it does not answer ({error})") from error
        except BaseException:
            wire.close()
            raise
        return wire

    return User(start(), restart=start, versions=functools.lru_cache(maxsize=None)(lambda: version_of(path, env)))
