"""The start of a prompt: the command line, the token, and the connection."""
from __future__ import annotations

import argparse
import contextlib
import importlib.util
import os
import sys
import threading
from typing import TYPE_CHECKING, Any, Callable, Dict, Iterator, List, NoReturn, Optional, Tuple

from ..errors import ClientError, printable
from ..refusals import Denied
from ..tokens import NOT_IN_COMMANDS, checked_fingerprint, forget_variable, stored_token, token_of, typed_token, without_blanks
from ..connecting import connect, run
from ..user import User
from .dialogue import PipeTalk, TerminalTalk, columns_of
from .helping import wrapped
from .history import Lines, history_path
from .link import Link
from .loading import Fault
from .reading import PipeInput, PlainReader, Reader, TerminalInput

if TYPE_CHECKING:
    from .class_page import ClassPage

SECONDS = 600.0
SECONDS_OF_A_PROGRAM = 1_000_000.0
SECONDS_UNTIL_WORD = 2.0
TRIES = 3
KEYS = "`help` lists the commands, Ctrl-D ends."
MISSING = "For hints, completion and a history install prompt_toolkit: `pip install prompt_toolkit`, or Debian's " "python3-prompt-toolkit."
ABOUT = """\
A prompt for the commands of the protocol. Without HOST:PORT it starts a program of its own, whose sessions are gone when it ends.
`help` lists the commands. If the input is not a terminal, it writes only the replies.

The token is read from the file of --token-file (the token alone, or a file of users), from the environment variable LJSERVE_TOKEN,
or typed. Spaces in it are ignored. `python3 -m ljclient view [FILE.xyz ..]` shows atoms in a browser,
`python3 -m ljclient verify FILE` plays a record again, `python3 -m ljclient diff A B` compares two records, and
`python3 -m ljclient check LESSON RECORD` marks the record of a lesson.
"""


class Parser(argparse.ArgumentParser):
    """Parser of the command line. Errors do not show its words, since one may be a token."""

    def error(self, message: str) -> NoReturn:
        self.print_usage(sys.stderr)
        print(f"ljclient: {message}", file=sys.stderr)
        sys.exit(2)

    def refuse(self, unknown: List[str]) -> None:
        """Exits with status 2 if there are unknown words. A word that is not an option is not shown."""
        if unknown and unknown[0].startswith("-"):
            self.error(f"there is no option {unknown[0].partition('=')[0]}; use --help to list the options")
        if unknown:
            self.error("there is a word too many; use quotes around the name of a file with blanks")


def options_of(words: List[str]) -> argparse.Namespace:
    """The options on the command line."""
    usage = (
        "python3 -m ljclient [HOST:PORT NAME] [--token-file FILE] [--timeout SECONDS] [--tls [--ca FILE] | --fingerprint HEX [--page PORT]]"
    )
    formatter = argparse.RawDescriptionHelpFormatter
    parser = Parser("ljclient", usage, ABOUT, formatter_class=formatter, allow_abbrev=False)
    parser.add_argument("server", nargs="*", metavar="HOST:PORT NAME", help="the address of `ljserve serve`, and the name of a user")
    parser.add_argument("--token-file", metavar="FILE", help="a file with the token")
    parser.add_argument("--timeout", metavar="SECONDS", type=float, help=f"how long a reply of a server may take (default: {SECONDS:g})")
    add_tls(parser)
    parser.add_argument("--page", metavar="PORT", help="the port or HOST:PORT of the pages of a class: answers in a lesson are sent there")
    options, unknown = parser.parse_known_args(words)
    parser.refuse(unknown)
    if len(options.server) > 2:
        parser.error(NOT_IN_COMMANDS)
    if len(options.server) == 1:
        parser.error("HOST:PORT must be followed by NAME, a user in the server's file of users")
    if options.timeout is not None and not 0 < options.timeout < float("inf"):
        parser.error(f"--timeout must be a finite number of seconds above 0, got {options.timeout:g}")
    check_tls(parser, options)
    if options.page is not None:
        if options.fingerprint is None:
            parser.error("--page must come with --fingerprint, that of the class")
        options.page = options.page if ":" in options.page else f"{options.server[0].rpartition(':')[0]}:{options.page}"
        if not is_address(options.page):
            parser.error("--page must be a port or HOST:PORT, such as 4443")
    if options.server and not is_address(options.server[0]):
        parser.error("the first word must be HOST:PORT, such as 127.0.0.1:4000")
    return options


def add_tls(parser: argparse.ArgumentParser) -> None:
    """Adds the options of an encrypted connection."""
    parser.add_argument("--tls", action="store_true", help="encrypt, and check the server's certificate")
    parser.add_argument("--ca", metavar="FILE", help="the certificate of its issuer, if the system does not have it")
    parser.add_argument("--fingerprint", metavar="HEX", help="encrypt, and trust only the certificate with this SHA-256, as on a slip")


def check_tls(parser: argparse.ArgumentParser, options: argparse.Namespace) -> None:
    """Exits with status 2 if these options do not fit."""
    if options.tls and not options.server:
        parser.error("--tls must come with HOST:PORT NAME")
    if options.ca and not options.tls:
        parser.error("--ca must come with --tls")
    if options.fingerprint is None:
        return
    if not options.server:
        parser.error("--fingerprint must come with HOST:PORT NAME")
    if options.ca:
        parser.error("--ca cannot be used with --fingerprint: a fingerprint names the one certificate that is trusted")
    try:
        checked_fingerprint(options.fingerprint)
    except ValueError as error:
        parser.error(str(error).replace("a fingerprint", "--fingerprint", 1))


def is_address(word: str) -> bool:
    """Whether a word is a host and a port."""
    host, _, port = word.rpartition(":")
    return bool(host) and port.isascii() and port.isdecimal() and 0 < int(port) < 65536


@contextlib.contextmanager
def word_of_waiting(name: str) -> Iterator[None]:
    """Writes the reason for a wait that takes longer than a moment."""
    text = f"waiting: another connection of {name} is open, or the server's --connections are used up (Ctrl-C gives up)"
    timer = threading.Timer(SECONDS_UNTIL_WORD, lambda: print(text, file=sys.stderr, flush=True))
    timer.daemon = True
    timer.start()
    try:
        yield
    finally:
        timer.cancel()


def link_of(options: argparse.Namespace, is_terminal: bool) -> Link:
    """The connection that the command line asks for."""
    if not options.server:
        limit = options.timeout or SECONDS_OF_A_PROGRAM
        after = "The next command begins a new program. What was loaded is gone."
        return Link(lambda: run(timeout=limit), after)
    address, name = options.server
    host, _, port = address.rpartition(":")

    def link_with(token: str) -> Link:
        def open_user() -> User:
            with word_of_waiting(name):
                limit = options.timeout or SECONDS
                way: Dict[str, Any] = {"tls": options.tls, "ca": options.ca, "fingerprint": options.fingerprint}
                return connect(host.strip("[]"), int(port), name, token, timeout=limit, **way)

        link = Link(open_user, "The next command begins a new connection. If the server still runs, it still has the sessions.")
        link.page = page_of(options, name, token) if is_terminal else None
        return link

    if is_terminal and stored_token(name, options.token_file) is None:
        return link_by_typing(name, link_with)
    return link_with(token_of(name, options.token_file, is_terminal))


def page_of(options: argparse.Namespace, name: str, token: str) -> Optional["ClassPage"]:
    """The page of the class, if the command line has one."""
    if options.page is None:
        return None
    from .class_page import ClassPage  # It takes long to import, and is seldom needed.

    host, _, port = options.page.rpartition(":")
    return ClassPage(host.strip("[]"), int(port), name, without_blanks(token), options.fingerprint)


def link_by_typing(name: str, link_with: Callable[[str], Link]) -> Link:
    """The connection with a typed token. If the server denies it, it may be typed again, `TRIES` times in all."""
    for _ in range(TRIES - 1):
        try:
            return link_with(typed_token(name))
        except Denied:
            told = f"the server has no user {name} with this token: type it again, or press Ctrl-C if the name is another"
            print(told, file=sys.stderr, flush=True)
    return link_with(typed_token(name))


def welcome(link: Link, where: str) -> str:
    """The first text at a terminal."""
    names = ", ".join(row.name for row in link.user.sessions()) or "none"
    return f"Connected to {where}. Sessions: {names}." if where else "A program of its own: what is loaded is gone when it ends."


def reader_of(link: Link) -> Tuple[Reader, str]:
    """The reader of typed lines, and a text about it: prompt_toolkit if it is installed and the terminal is not `dumb`."""
    if os.environ.get("TERM") == "dumb":
        return PlainReader(link.news), KEYS
    if importlib.util.find_spec("prompt_toolkit") is None:
        return PlainReader(link.news), f"{KEYS} {MISSING}"
    from .editing import Editor

    return Editor(Lines(history_path()), link.settled_user, link.line if link.page else None), ""


def at_terminal(link: Link, where: str, prompt: str) -> int:
    """The dialogue with somebody at a terminal. Returns the exit status."""
    terminal, (reader, about) = TerminalTalk(link, sys.stdout), reader_of(link)
    for text in (welcome(link, where), about):
        terminal.tell(*wrapped(text, "", "", columns_of(sys.stdout)))
    with reader.begun():
        status = terminal.run(TerminalInput(prompt, reader, terminal.tell))
    terminal.note(*(link.page.close() if link.page else []))
    return status


def talk(options: argparse.Namespace) -> int:
    """The whole dialogue. Returns the exit status."""
    is_terminal = sys.stdin.isatty() and sys.stdout.isatty()
    link = link_of(options, is_terminal)
    forget_variable()
    try:
        if not is_terminal:
            return PipeTalk(link, sys.stdout).run(PipeInput(sys.stdin.buffer))
        return at_terminal(link, " as ".join(options.server), f"{options.server[1]}> " if options.server else "ljserve> ")
    finally:
        link.close()


def main(words: List[str]) -> int:
    """Runs a prompt, or replies to what comes on standard input.

    Parameters
    ----------
    words : list of str
        The words of the command line.

    Returns
    -------
    int
        The exit status.
    """
    options = options_of(words)
    try:
        return talk(options)
    except (ClientError, Fault, ValueError) as error:
        print(f"ljclient: {printable(str(error))}", file=sys.stderr)
    except BrokenPipeError:
        os.dup2(os.open(os.devnull, os.O_WRONLY), sys.stdout.fileno())
    except KeyboardInterrupt:
        print("ljclient: interrupted", file=sys.stderr)
    return 1
