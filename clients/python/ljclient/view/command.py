"""The command `python3 -m ljclient view`: its options, and how it begins and ends."""
from __future__ import annotations

import argparse
import functools
import importlib
import sys
import threading
from pathlib import Path
from types import ModuleType
from typing import Any, Callable, List, Optional, Sequence, Tuple, cast

from .. import ClientError, Scale, User, run, units
from ..errors import printable
from ..names import checked_name
from ..prompt.starting import add_tls, check_tls
from ..tokens import forget_variable, stored_token
from .access import Access, for_others, for_this_machine
from .addresses import Address, address_in, is_origin
from .links import LinkFile
from .own import OwnSessions
from .pages import MAX_PAGES_OF_A_CLASS
from .scenes import Scene, crystal, of_file
from .talk import Choice
from .users import Account, AtServer, Programs, Users

H = 131072
HEAT = 1.5
PAGES_OF_AN_ADDRESS = 8
MISSING = "cannot serve the page: aiohttp is not installed; use `pip install aiohttp`, or Debian's python3-aiohttp"
Served = Tuple[Any, Access, Optional[LinkFile]]  # a server with `run`, the access to its page, and the file that opens it
USAGE = "python3 -m ljclient view [HOST:PORT NAME] [FILE.xyz ..] [OPTION ..]"
TEXT = """Shows atoms in motion on a page of the browser: play, one step, time turned back, tugs, and what they lead to.

The link that it prints has a secret, without which nothing is answered.

Without a file it shows a crystal of 256 atoms that melts. By default, the atoms of a file are argon in angstrom, with a time
step of 10 fs. Atoms begin at rest, or with random velocities of --temperature.

With HOST:PORT NAME it also shows the sessions of this user at a server. The token is read from --token-file or from
LJSERVE_TOKEN, or typed into the page. With --tls or --fingerprint it is sent encrypted. The scale of a session is given by --edge,
--sigma and --h, or typed into the page. The connection ends ten seconds after the last page stopped playing, so that the user's
prompt can connect.

With --page FOLDER it serves a page that contains the program; `bin/page FOLDER` of the repository makes it. Each browser computes
what it shows, so a class (--listen) takes no processor time here. Over http:// from another machine it runs only in Chrome and Edge
(137 and newer); other browsers need https://, from any web server. Its link has no secret."""


def main(arguments: List[str]) -> int:
    """Serves the page until it is closed.

    Parameters
    ----------
    arguments : list of str
        The words of the command line.

    Returns
    -------
    int
        The exit status.
    """
    options = options_of(arguments)
    try:
        server, access, link = server_of(options) if options.page is None else static_server_of(options)
    except (ClientError, OSError, ValueError) as error:
        print(f"view: {printable(str(error))}", file=sys.stderr)
        return 1
    end = "by Ctrl-C" if access.is_open or options.page is not None else "when it is closed"
    print(f"The page is at {access.url} and the program ends {end}.", flush=True)
    if link:
        threading.Thread(target=link.open, daemon=True).start()
    try:
        server.run()
    except KeyboardInterrupt:
        pass
    finally:
        if link:
            link.remove()
    return 0


def server_of(options: argparse.Namespace) -> Served:
    """The server of the page of this client. Raises ClientError, OSError or ValueError."""
    server_module = imported_server()
    users, choice = users_of(options), choice_of(options)
    forget_variable()
    access = access_of(options)
    link = LinkFile(access.url) if options.browser else None
    pages = said(options.pages_of_an_address, PAGES_OF_AN_ADDRESS)
    return server_module.Server(access, choice, users, pages, link.remove if link else lambda: None, options.embed), access, link


def static_server_of(options: argparse.Namespace) -> Served:
    """The server of a page that contains the program. Raises ClientError or OSError."""
    module = imported_server("ljclient.view.static_page")
    files = module.files_of_page(Path(options.page))
    access = access_of(options).without_secret()
    link = LinkFile(access.url) if options.browser else None
    return module.StaticServer(access, files, link.remove if link else lambda: None, options.embed), access, link


def imported_server(name: str = "ljclient.view.server") -> ModuleType:
    """The module that serves a page. Raises ClientError, which says what to install, if aiohttp is missing."""
    try:
        return importlib.import_module(name)
    except ModuleNotFoundError as error:
        if (error.name or "").partition(".")[0] != "aiohttp":
            raise
        raise ClientError(MISSING) from None


def options_of(arguments: List[str]) -> argparse.Namespace:
    """The options of the command. The process ends with status 2 if they are wrong."""
    reader = reader_of_options()
    options = reader.parse_intermixed_args(arguments)
    options.server = None
    if options.files and (address := address_in(options.files[0])) and not Path(options.files[0]).exists():
        if len(options.files) < 2:
            reader.error("HOST:PORT must be followed by NAME, a user in the server's file of users")
        options.server, options.files = (address, options.files[1]), options.files[2:]
    if (fault := fault_of(options)) is not None:
        reader.error(fault)
    check_tls(reader, options)
    return options


def reader_of_options() -> argparse.ArgumentParser:
    """The parser of the command line."""
    form = argparse.RawTextHelpFormatter
    reader = argparse.ArgumentParser("view", USAGE, TEXT, formatter_class=form, allow_abbrev=False)
    reader.add_argument("files", metavar="FILE.xyz", nargs="*", help="atoms as XYZ text, a choice of the page for each file")
    reader.add_argument("--token-file", metavar="FILE", help="a file with the user's token")
    add_tls(reader)
    reader.add_argument("--edge", type=float, help="edge of the cubic box, for files without a Lattice")
    reader.add_argument("--temperature", type=float, help="temperature of the first velocities, in kelvin (with --h in epsilon / k_B)")
    reader.add_argument("--seed", type=int, default=1, help="seed of the random velocities (default: 1)")
    reader.add_argument("--sigma", type=float, help="the distance sigma (default: 3.4; with --h 1)")
    reader.add_argument("--epsilon", type=float, help="the depth of the potential, in kelvin (default: 119.8)")
    reader.add_argument("--mass", type=float, help="the mass of an atom, in dalton (default: 39.948)")
    reader.add_argument("--dt", type=float, help="the time step, in femtoseconds (default: 10)")
    reader.add_argument("--h", type=int, help=f"the step factor; units are reduced then (default for the crystal: {H})")
    reader.add_argument("--port", type=int, default=0, help="the port on 127.0.0.1 (default: any free port)")
    reader.add_argument("--listen", metavar="ADDRESS:PORT", help="for a class: let others in the network open the page, by its link")
    reader.add_argument("--address", metavar="HOST", help="the host name or address in the link, if the one found is wrong")
    pages = f"the most pages of one address, of {MAX_PAGES_OF_A_CLASS} in all (default: {PAGES_OF_AN_ADDRESS})"
    reader.add_argument("--pages-of-an-address", metavar="N", type=int, help=pages)
    reader.add_argument("--embed", metavar="ORIGIN", help="let pages of this origin, such as https://course.example, show it in a frame")
    reader.add_argument("--page", metavar="FOLDER", help="serve a page that contains the program, made by `bin/page FOLDER`")
    reader.add_argument("--program", help="the program, as for ljclient.run")
    reader.add_argument("--no-browser", dest="browser", action="store_false", help="print the link, and open no browser")
    return reader


def fault_of(options: argparse.Namespace) -> Optional[str]:
    """The first fault of the options of the command, or None."""
    physical, pages = [options.epsilon, options.mass, options.dt], options.pages_of_an_address
    is_argon_said = [options.edge, options.sigma, *physical] != [None] * 5
    faults = {
        "--token-file must come with HOST:PORT NAME": options.server is None and options.token_file is not None,
        f"--temperature must be a finite number from 0 on, got {options.temperature}": options.temperature is not None
        and not 0 <= options.temperature < float("inf"),
        f"--port must be from 0 to 65535, got {options.port}": not 0 <= options.port <= 65535,
        f"--listen must be ADDRESS:PORT, such as 0.0.0.0:8000, got {options.listen}": options.listen is not None
        and address_in(options.listen) is None,
        "--port cannot be used with --listen: that has a port of its own": options.listen is not None and options.port,
        "--address must come with --listen": options.listen is None and options.address is not None,
        "--pages-of-an-address must come with --listen": options.listen is None and pages is not None,
        f"--pages-of-an-address must be from 1 to {MAX_PAGES_OF_A_CLASS}, got {pages}": (
            pages is not None and not 1 <= pages <= MAX_PAGES_OF_A_CLASS
        ),
        f"--embed must be an origin like https://course.example, got {options.embed}": options.embed is not None
        and not is_origin(options.embed),
        "--page must come alone, or with --port, --listen, --address, --embed and --no-browser": options.page is not None
        and not is_page_alone(options),
        "--h cannot be used with --epsilon, --mass or --dt: it takes their place": options.h is not None and physical != [None] * 3,
        "--edge, --sigma, --epsilon, --mass and --dt must come with FILE.xyz or HOST:PORT NAME": (
            is_argon_said and not options.files and options.server is None
        ),
    }
    return next((fault for fault, holds in faults.items() if holds), None)


def is_page_alone(options: argparse.Namespace) -> bool:
    """Whether only options are used that both kinds of page have."""
    others = "token_file tls ca edge temperature sigma epsilon mass dt h pages_of_an_address program"
    return not options.files and options.server is None and not any(getattr(options, name) for name in others.split())


def access_of(options: argparse.Namespace) -> Access:
    """Where and for whom the page is served. Raises OSError or ClientError if it cannot be served there."""
    if options.listen is None:
        return for_this_machine(options.port)
    return for_others(cast(Address, address_in(options.listen)), options.address)


def users_of(options: argparse.Namespace) -> Users:
    """Whose sessions are shown. Raises ClientError if a server cannot be reached, or denies the user."""
    if options.server is None:
        return Programs(functools.partial(run, options.program))
    address, name = options.server
    token = stored_token(name, options.token_file)
    account = Account(address, checked_name(name), token, options.tls, options.ca, options.fingerprint)
    account.check()
    return AtServer(account)


def choice_of(options: argparse.Namespace) -> Choice:
    """What pages can show: scenes and, at a server, also the user's sessions. Raises ClientError, OSError or ValueError."""
    scenes = scenes_of(options)
    if options.server is None:
        try_all(scenes, functools.partial(run, options.program))
        return Choice(scenes)
    words = [options.sigma, options.epsilon, options.mass, options.dt, options.h]
    return Choice(scenes, OwnSessions(options.edge, None if words == [None] * 5 else scale_of(options)))


def scenes_of(options: argparse.Namespace) -> List[Scene]:
    """The scenes that the page can show. Raises ValueError or OSError with the name of the wrong file."""
    if not options.files:
        return [crystal(said(options.h, H), said(options.temperature, HEAT), options.seed)]
    scenes = []
    for path in options.files:
        try:
            scenes.append(of_file(path, options.edge, scale_of(options), said(options.temperature, 0.0), options.seed))
        except ValueError as error:
            raise ValueError(f"{path}: {error}") from error
    return scenes


def scale_of(options: argparse.Namespace) -> Callable[[float], Scale]:
    """A function from an edge to the scale of the box: in reduced units with `--h`, else in the units of argon."""
    if options.h is not None:
        return functools.partial(Scale.of, sigma=said(options.sigma, 1.0), h=options.h)
    argon = units.ARGON
    return functools.partial(
        Scale.of,
        sigma=said(options.sigma, argon["sigma"]),
        epsilon=argon["epsilon"] if options.epsilon is None else options.epsilon * units.kelvin,
        mass=said(options.mass, argon["mass"]),
        dt=said(options.dt, 10.0),
    )


def said(number: Optional[Any], usual: Any) -> Any:
    """A number that was given, or else the default."""
    return usual if number is None else number


def try_all(scenes: Sequence[Scene], open_user: Callable[[], User]) -> None:
    """Loads each scene once, to report its faults before a page is opened. Raises ClientError."""
    with open_user() as user:
        for scene in scenes:
            try:
                scene.begin(user, "view")
            except (ClientError, ValueError) as error:
                raise ClientError(f"{scene.title}: {error}") from error
