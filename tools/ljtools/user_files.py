"""Files of users, their slips, and the check of such files, for `users`, `class` and others."""
import contextlib
import os
import re
import secrets
import shlex
import stat
import sys
import tempfile
from typing import Callable, Dict, Iterator, List, NamedTuple, Optional, Sequence, Set, TextIO

MAX_USERS = 64
MAX_SERVERS = 1000
# The most users of a store.
MAX_STORED = 100_000
MAX_NUMBERS = {"sessions": 64, "atoms": 65536, "branches": 256}
USUAL = [8, 16384, 16]
TOKEN_LETTERS = "abcdefghijkmnpqrstuvwxyzABCDEFGHJKLMNPQRSTUVWXYZ23456789"
TOKEN_LENGTH = 32
GROUP = 4
# Number of hexadecimal digits of a certificate's SHA-256 to type from a slip. No other certificate has the same.
DIGITS_TYPED = 32
NAME = re.compile(rb"[A-Za-z0-9_-]{1,16}")
TOKEN = re.compile(rb"[A-Za-z0-9]{32}")
DIGITS = re.compile(rb"[0-9]{1,19}")


class Fault(Exception):
    """What is wrong with a file, or why it is unusable."""


class User(NamedTuple):
    """A user: a name and a token."""

    name: str
    token: str


def new_users(names: Sequence[str]) -> List[User]:
    """Users of these names, each with a token of its own."""
    return [User(name, "".join(secrets.choice(TOKEN_LETTERS) for _ in range(TOKEN_LENGTH))) for name in names]


class Way(NamedTuple):
    """How users reach their server: its HOST:PORT, and whether by TLS, with a file of the certificate's issuer if needed; or by the
    fingerprint of the certificate. `page` is the HOST:PORT of its pages, if any. They have the same certificate."""

    server: str
    tls: bool = False
    ca: Optional[str] = None
    fingerprint: str = ""
    page: str = ""

    def link(self, user: User) -> str:
        """The link to a user's page. Browsers do not send the part after #."""
        return f"https://{self.page}/#{user.name}.{user.token}"

    def typed(self) -> str:
        """The typed part of the fingerprint, in groups."""
        return in_groups(self.fingerprint[:DIGITS_TYPED], ":")

    def options(self) -> str:
        """The options for the client's command line."""
        if self.fingerprint:
            return f"{self._option_of_page()} --fingerprint {self.typed()}"
        return (" --tls" if self.tls else "") + (f" --ca {shlex.quote(self.ca)}" if self.ca else "")

    def _option_of_page(self) -> str:
        """The option `--page`. Its host is nearly always the server's."""
        (host, _, port), of_server = self.page.rpartition(":"), self.server.rpartition(":")[0]
        return "" if not self.page else f" --page {port if host == of_server else self.page}"

    def arguments(self) -> str:
        """The arguments for `connect`."""
        if self.fingerprint:
            return f',\n                   fingerprint="{self.typed()}"'
        return (", tls=True" if self.tls else "") + (f', ca="{self.ca}"' if self.ca else "")


def names_of(words: Sequence[str], servers: int = 1, of_store: Optional[int] = None) -> List[str]:
    """The names given by the words: a list of names, or a number of students, for servers or a store."""
    is_count = len(words) == 1 and words[0].isascii() and words[0].isdecimal()
    count, most = int(words[0]) if is_count else len(words), of_store or MAX_USERS * servers
    if words and not 1 <= count <= most:
        place = "a store" if of_store else "a server" if servers == 1 else f"{servers} servers"
        raise ValueError(f"the number of users of {place} must be from 1 to {most}, got {count}")
    if is_count:
        return [f"student{number:02}" for number in range(1, count + 1)]
    seen: Set[str] = set()
    for word in words:
        if not NAME.fullmatch(word.encode("utf-8", "surrogateescape")):
            raise ValueError(f"a name must be 1 to 16 of A-Z a-z 0-9 _ -, got {word!r}")
        if word in seen:
            raise ValueError(f"each name must come once, got {word} twice")
        seen.add(word)
    return list(words)


def in_groups(token: str, between: str = " ") -> str:
    """A token in groups, for fewer typing errors. The blanks between them do not count."""
    return between.join(token[place : place + GROUP] for place in range(0, len(token), GROUP))


def check_quota(quota: Sequence[int]) -> None:
    """Raises ValueError if a quota is out of range."""
    for number, (name, most) in zip(quota, MAX_NUMBERS.items()):
        if not 0 <= number <= most:
            raise ValueError(f"the {name} of a user must be from 0 to {most}, got {number}")


def slip_of(user: User, way: Way) -> str:
    """The slip for a user."""
    host, _, port = way.server.rpartition(":")
    return f"""\
------------------------------------------------------------------------
{user.name} at {way.server}

    token   {in_groups(user.token)}
{seal_of(way)}
Keep the token secret. You need not type its blanks.

The client is in the folder of ljserve, and needs Python 3.9 or later. Run once in this folder:

    pip install clients/python

(or `export PYTHONPATH=clients/python` in each shell). Then start a prompt, which asks for the token:

    python3 -m ljclient {way.server} {user.name}{way.options()}

or in Python:

    from ljclient import connect
    user = connect("{host.strip('[]')}", {port}, "{user.name}",
                   "{in_groups(user.token)}"{way.arguments()})
{browser_of(user, way)}"""


def browser_of(user: User, way: Way) -> str:
    """The lines of a slip about the browser, if there is a page."""
    if not way.page:
        return ""
    return f"""
Or in a browser, where nothing is installed: https://{way.page}/
asks for name and token, and this link has both:

    {way.link(user)}

The browser warns, since it does not know who signed the certificate. Let it show the
certificate, and continue only if its SHA-256 is the fingerprint above.
"""


def seal_of(way: Way) -> str:
    """The lines of a slip about the server's certificate, if `way` has its fingerprint."""
    if not way.fingerprint:
        return ""
    return f"""
The server has the certificate with the fingerprint (SHA-256)

    {in_groups(way.fingerprint[:DIGITS_TYPED])}
    {in_groups(way.fingerprint[DIGITS_TYPED:])}

The first half of it is typed below. The client sends the token to no other server.
"""


def text_of(users: Sequence[User], quota: Sequence[int], slips: Sequence[str]) -> str:
    """The file of users, with these slips as comments."""
    lines = ["# Users of a server: name, token, and the most sessions, atoms and saved simulations. Keep this file secret."]
    lines += [" ".join([user.name, user.token, *map(str, quota)]) for user in users]
    lines += ["#", "# The slips:"] if slips else []
    lines += [f"# {line}".rstrip() for slip in slips for line in slip.splitlines()]
    return "\n".join([*lines, ""])


class Files(NamedTuple):
    """The files for users and slips. Without a file of their own, users are printed, and slips are written with the users."""

    users: Optional[str]
    slips: Optional[str]
    may_replace: bool


def make_users(names: Sequence[str], quota: Sequence[int], way: Way, files: Files) -> None:
    """Writes or prints a file of new users, with the slips in it or in a file of their own."""
    users = new_users(names)
    slips = [slip_of(user, way) for user in users]
    text = text_of(users, quota, [] if files.slips else slips)
    texts = {files.users: text, files.slips: "\n".join(slips)}
    write_secrets({path: secret for path, secret in texts.items() if path is not None}, files.may_replace)
    if files.users is None:
        print(text, end="", flush=True)
        warn_of_output(sys.stdout)


def write_secrets(texts: Dict[str, str], may_replace: bool, first: Callable[[], None] = lambda: None) -> None:
    """Writes files that only their owner can read. Writes each of them whole, or none if one cannot be written or `first` fails."""
    if may_replace:
        texts = {replaceable(path): text for path, text in texts.items()}
    with contextlib.ExitStack() as stack:
        ready = [(path, stack.enter_context(written(path, text))) for path, text in texts.items()]
        for path in texts:
            if os.path.lexists(path) and not may_replace:
                raise is_there(path)
        first()
        new = []
        try:
            for path, temporary in ready:
                put(temporary, path, may_replace)
                new.append(path)
        except Fault:
            for path in [] if may_replace else new:
                os.unlink(path)
            raise


def replaceable(path: str) -> str:
    """The file to replace, behind symbolic links. A device or a folder is a fault, since replacing it would destroy it."""
    target = os.path.realpath(path)
    if os.path.exists(target) and not os.path.isfile(target):
        raise Fault(f"cannot write {path}: it is not a regular file (nothing was changed); use another name")
    return target


@contextlib.contextmanager
def written(path: str, text: str) -> Iterator[str]:
    """The path of a temporary file with this text, beside `path`. At the end it is removed, unless it was renamed."""
    try:
        descriptor, temporary = tempfile.mkstemp(dir=os.path.dirname(path) or ".", prefix=".users-")
    except OSError as error:
        raise Fault(f"cannot write {path}: {error.strerror}") from error
    try:
        with os.fdopen(descriptor, "w", encoding="utf-8", errors="surrogateescape") as file:
            file.write(text)
            file.flush()
            os.fsync(descriptor)
        yield temporary
    except OSError as error:
        raise Fault(f"cannot write {path}: {error.strerror}") from error
    finally:
        with contextlib.suppress(FileNotFoundError):
            os.unlink(temporary)


def is_there(path: str) -> Fault:
    return Fault(f"cannot write {path}: it exists already; use another name, or --replace")


def put(temporary: str, path: str, may_replace: bool) -> None:
    """Gives a file its name atomically. An existing file stays unless it may be replaced."""
    try:
        if may_replace:
            os.replace(temporary, path)
        else:
            # Unlike a rename, this fails if the name is taken, even if just now.
            os.link(temporary, path)
    except FileExistsError:
        raise is_there(path) from None
    except OSError as error:
        raise Fault(f"cannot write {path}: {error.strerror}") from error


def openness_of(mode: int) -> str:
    """What others than its owner can do with a file of this mode: nothing, `read`, `change`, or both."""
    return " and ".join(word for word, bits in (("read", 0o044), ("change", 0o022)) if mode & bits)


def warn_of_output(out: TextIO, better: str = "--out") -> None:
    """Warns if the output is a file that others can read or change."""
    try:
        status = os.fstat(out.fileno())
    except (OSError, ValueError):
        return
    if stat.S_ISREG(status.st_mode) and openness_of(status.st_mode):
        told = f"the mode of the file that these tokens were printed into lets others {openness_of(status.st_mode)} it"
        print(f"users: {told}; use {better} FILE", file=sys.stderr)


class Checked:
    """The users of a file, line by line, and what is wrong with each line. Tokens are not shown.

    With `apart` a shared token is also a fault, although no server refuses it.
    """

    def __init__(self, apart: bool = False, most: int = MAX_USERS) -> None:
        self._most = most
        self.lines: Dict[bytes, int] = {}
        self.faults: List[str] = []
        self._apart = apart
        self._tokens: Dict[bytes, int] = {}

    def read(self, text: bytes) -> None:
        """Reads the lines of a file."""
        lines = text.split(b"\n")
        if not lines[-1]:
            lines.pop()
        for number, line in enumerate(lines, 1):
            cause = self.cause(number, line)
            if cause:
                self.faults.append(f"line {number}: {cause}")
        if not self.lines and not self.faults:
            self.faults.append(f"line {len(lines) + 1}: a file must have at least one user, got none")

    def cause(self, number: int, line: bytes) -> Optional[str]:
        """Why a line is refused, if it is."""
        words = [word for word in re.split(rb"[ \t]+", line) if word]
        if line.startswith(b"#") or not words:
            return None
        return cause_of_words(words) or self.cause_of_name(number, words[0]) or self.cause_of_token(number, words[1])

    def cause_of_name(self, number: int, name: bytes) -> Optional[str]:
        """Why a user of this name is refused, or None."""
        if name in self.lines:
            return f"each name must come once, got {name.decode()}, which line {self.lines[name]} has too"
        if len(self.lines) == self._most:
            return f"a {'server' if self._most == MAX_USERS else 'store'} must have at most {self._most} users, got more"
        self.lines[name] = number
        return None

    def cause_of_token(self, number: int, token: bytes) -> Optional[str]:
        """Why this token is refused for one more user, or None."""
        line = self._tokens.setdefault(token, number)
        return f"each user must have a token of its own, got the one of line {line}" if self._apart and line != number else None


def cause_of_words(words: List[bytes]) -> Optional[str]:
    """What is wrong with the words of a user, or None."""
    if words[-1].endswith(b"\r"):
        return "a line must end with LF, got CR LF, as of Windows; use `tr -d '\\r'` to remove it"
    if words[0].startswith(b"\xef\xbb\xbf"):
        return "the file must not begin with a byte order mark; save it as UTF-8 without one"
    if len(words) != 5:
        return f"a line must have 5 words (name, token, sessions, atoms, branches), got {len(words)}"
    if not NAME.fullmatch(words[0]):
        return "a name must be 1 to 16 of A-Z a-z 0-9 _ -"
    return cause_of_token(words[1]) or cause_of_numbers(words[2:])


def cause_of_token(token: bytes) -> Optional[str]:
    """What is wrong with a token, or None. The text does not show it."""
    if len(token) != TOKEN_LENGTH:
        return f"a token must have {TOKEN_LENGTH} characters, got {len(token)}"
    return None if TOKEN.fullmatch(token) else "a token must be letters and digits, got other characters"


def cause_of_numbers(words: List[bytes]) -> Optional[str]:
    """What is wrong with the words of a quota, or None."""
    for word, (name, most) in zip(words, MAX_NUMBERS.items()):
        if not DIGITS.fullmatch(word):
            return f"the number of {name} must be a whole number"
        if int(word) > most:
            return f"the {name} of a user must be at most {most}, got {int(word)}"
    return None


def counted(count: int, what: str) -> str:
    return f"{count} {what}" + ("" if count == 1 else "s")


def rows_of(path: str, most: int = MAX_USERS) -> List[List[bytes]]:
    """The words of each user of a file. Raises Fault if it cannot be read or something is wrong with it."""
    try:
        with open(path, "rb") as file:
            text = file.read()
    except OSError as error:
        raise Fault(f"cannot read {path}: {error.strerror}") from error
    checked = Checked(most=most)
    checked.read(text)
    if checked.faults:
        raise Fault(f"{path}: {checked.faults[0]}")
    rows = [re.split(rb"[ \t]+", line.strip(b" \t")) for line in text.split(b"\n") if not line.startswith(b"#")]
    return [row for row in rows if row[0]]


def check(path: str, out: TextIO) -> int:
    """Prints what is wrong with a file of users, or how many it has, and returns the exit status."""
    try:
        with open(path, "rb") as file:
            text, mode = file.read(), os.fstat(file.fileno()).st_mode
    except OSError as error:
        raise Fault(f"cannot read {path}: {error.strerror}") from error
    checked = Checked(apart=True)
    checked.read(text)
    for fault in checked.faults:
        print(f"{path}: {fault}", file=out)
    if not checked.faults:
        print(counted(len(checked.lines), "user"), file=out)
    if stat.S_ISREG(mode) and openness_of(mode):
        cure = f"use `chmod 600 {shlex.quote(path)}` to leave it to its owner"
        print(f"{path}: its mode lets others {openness_of(mode)} it, with all tokens; {cure}", file=out)
    return 1 if checked.faults else 0
