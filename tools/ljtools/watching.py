"""Connections that are passed on to a server, and the lines that show them, for `watch` and `class`."""
import contextlib
import re
import resource
import shutil
import socket
import threading
import time
from collections import Counter, defaultdict
from dataclasses import dataclass
from typing import Dict, List, Optional, Sequence, TextIO, Tuple

from .admission import Account, Closings, Limits, Whose, close_unanswered, first_bytes
from .event_log import EventLog
from .proxy_header import source_of
from .user_files import Fault

PIECE = 1 << 16
MAX_LINE = 4096
STACK = 1 << 18
SECONDS_TO_CONNECT = 10.0
SECONDS_AFTER_END = 2.0
SECONDS_OF_A_SCREEN = 1.0
SILENCE = {"TCP_KEEPIDLE": 60, "TCP_KEEPINTVL": 15, "TCP_KEEPCNT": 4}
HELLO = re.compile(rb"[ \t]*HELLO[ \t]+([A-Za-z0-9_-]{1,16})(?=[ \t\r\n])")
LET_IN = re.compile(rb"OK HELLO ([A-Za-z0-9_-]{1,16})\Z")
DENIED = b"ERR 01 "
REFUSAL = re.compile(rb"ERR [0-9]{2} [A-Z_]{1,20}( line [0-9]{1,7})?\Z")
MORE_LINES = re.compile(rb"OK (?:DUMP|LIST)(?: [A-Za-z0-9_-]{1,16})?(?: -?[0-9]+)? ([0-9]{1,5})\Z")
CAME_TO = re.compile(rb"OK (ADVANCE|START|REVERSE|RESTORE) (\S{1,16})(?: \S{1,16})? (-?[0-9]{1,13})\Z")
BEGAN_OR_ENDED = re.compile(rb"OK (LOAD|LOADMIX|DROP) (\S{1,16})(?: |\Z)")
COUNTED = (b"ADVANCE", b"START")
# States of a connection that keeps a place of the server until its turn comes, even if its client is gone.
WAITING = ("waits", "gone")
# States of a user who is in: by a connection, or by a page of the class.
INSIDE = ("in", "page")
# The first four letters of these words, so that a thousand lines of SHOW are skipped fast.
LISTING = {b"DUMP", b"LIST"}
STEPPING = {b"ADVA", b"STAR", b"REVE", b"REST", b"LOAD", b"DROP"}
Address = Tuple[str, int]


class Connection:
    """What is known of a connection, from the first line of its client and from the replies."""

    def __init__(self, origin: str, sessions: Optional[Dict[str, Dict[bytes, int]]] = None):
        """`sessions` has for each user the current step of each of its sessions, over all connections."""
        self.origin = origin
        self.since = time.time()
        self.user = ""
        self.state = "new"
        self.commands = 0
        self.steps = 0
        self.refusal = ""
        self.is_gone = False
        self.account: Optional[Account] = None
        self._sessions = defaultdict(dict) if sessions is None else sessions
        self._first_line: Optional[bytes] = b""
        self._partial = b""
        self._more = 0

    @property
    def host(self) -> str:
        """The address that it comes from, without the port."""
        return self.origin.rpartition(":")[0]

    def hear_client(self, data: bytes) -> None:
        """Reads the name in a client's first line."""
        if self._first_line is None:
            return
        self._first_line += data[:MAX_LINE]
        if self.state == "new" and (found := HELLO.match(self._first_line)):
            self.user, self.state = found[1].decode(), "waits"
        if b"\n" in self._first_line or len(self._first_line) > MAX_LINE:
            self._first_line = None

    def hear_server(self, data: bytes) -> bool:
        """Counts the replies that the server sends. Returns whether one of them lets the user in."""
        *lines, self._partial = (self._partial + data).split(b"\n")
        if len(self._partial) > MAX_LINE:
            self._partial = b""
        was_in = self.state == "in"
        for line in lines:
            if self._more:
                self._more -= 1
            else:
                self._note(line)
        return self.state == "in" and not was_in

    def _note(self, line: bytes) -> None:
        """Notes the first line of a reply."""
        if self.state != "in":
            if found := LET_IN.match(line):
                self.user, self.state = found[1].decode(), "in"
            elif line.startswith(DENIED):
                self.state = "denied"
        else:
            self.commands += 1
            if (word := line[3:7]) in STEPPING:
                self._note_step(line)
            elif word in LISTING and (found := MORE_LINES.match(line)):
                self._more = int(found[1])
        if line.startswith(b"ERR ") and REFUSAL.match(line):
            self.refusal = line.decode()

    def _note_step(self, line: bytes) -> None:
        """Counts the steps of an ADVANCE or a START. A session is counted from the first step that is seen of it."""
        if found := CAME_TO.match(line):
            steps, name, step = self._sessions[self.user], found[2], int(found[3])
            self.steps += abs(step - steps.get(name, step)) if found[1] in COUNTED else 0
            steps[name] = step
        elif found := BEGAN_OR_ENDED.match(line):
            self._sessions[self.user][found[2]] = 0
            if found[1] == b"DROP":
                del self._sessions[self.user][found[2]]

    def leave(self) -> bool:
        """Notes that its client is gone. Returns whether it waits: then the server keeps it until its turn comes."""
        self.is_gone = True
        if self.state == "waits":
            self.state = "gone"
        return self.state == "gone"

    def state_at_end(self) -> str:
        """Its state after its end, which shows whether its user was in."""
        return {**dict.fromkeys(INSIDE, "ended"), "denied": "denied"}.get(self.state, "not in")

    def end(self) -> None:
        """Notes that it has ended, and whether its user was in."""
        self.state = self.state_at_end()

    def known(self) -> Dict[str, object]:
        """Its values in a log."""
        seconds = round(time.time() - self.since, 3)
        counts = {"commands": self.commands, "steps": self.steps, "seconds": seconds}
        return {"user": self.user or None, "from": self.origin, **counts, "refusal": self.refusal or None}

    def text(self, state: str = "") -> str:
        """The line that shows it: with its own state, unless another is given."""
        refusal = f"  {self.refusal}" if self.refusal else ""
        commands = f"{self.commands} command{'' if self.commands == 1 else 's'}"
        state = state or self.state
        return f"{state:<6} {self.user or '-':<16} {self.origin:<21}  since {clock(self.since)}  {commands:>16}{refusal}"


def clock(seconds: float) -> str:
    """A time, with its day unless that is today."""
    then, now = time.localtime(seconds), time.localtime()
    return time.strftime("%H:%M:%S" if then[:3] == now[:3] else "%Y-%m-%d %H:%M:%S", then)


@dataclass(frozen=True)
class Totals:
    """The counts so far: connections by state, those whose clients are gone, and commands and steps of users who were let in."""

    states: Dict[str, int]
    gone: int
    passed: int
    closed: int
    denied: int
    commands: Dict[str, int]
    steps: Dict[str, int]


class Board:
    """All connections, their limits, and the lines that show them: a log, or on a terminal a screen that is redrawn."""

    def __init__(self, out: Optional[TextIO], log: Optional[EventLog] = None, address: str = "", limits: Limits = Limits()):
        """`address` is where users connect to: the first line of the screen shows it."""
        self._out = out
        self._log = log
        self._address = address
        self._limits = limits
        self._closings = Closings()
        self._is_screen = out is not None and out.isatty()
        self._open: List[Connection] = []
        self._drawn = 0
        self._typed: Optional[str] = None
        self._lock = threading.Lock()
        self._passed = 0
        self._denied = 0
        self._commands: Dict[str, int] = Counter()
        self._steps: Dict[str, int] = Counter()
        self.sessions: Dict[str, Dict[bytes, int]] = defaultdict(dict)

    def say(self, text: str) -> None:
        """Writes a line that stays, above those of open connections."""
        with self._lock:
            self._say(text)

    def _say(self, text: str) -> None:
        """Writes such a line. The caller has the lock."""
        line = f"{clock(time.time())}  {text}\n"
        self._write(self._erased() + line + self._table() if self._is_screen else line)

    def types(self, text: str) -> None:
        """Shows what is being typed at the terminal, below the lines of open connections."""
        with self._lock:
            self._typed = text
            if self._is_screen:
                self._write(self._table())

    def users_in(self) -> int:
        """How many users are in."""
        with self._lock:
            return len({each.user for each in self._open if each.state in INSIDE})

    def open(self) -> List[Connection]:
        """The connections that are open."""
        with self._lock:
            return list(self._open)

    def totals(self) -> Totals:
        """The counts until now."""
        with self._lock:
            commands, steps = Counter(self._commands), Counter(self._steps)
            for each in self._open:
                if each.state == "in":
                    commands[each.user] += each.commands
                    steps[each.user] += each.steps
            states = Counter(each.state for each in self._open)
            denied = self._denied + states["denied"]
            gone = sum(each.is_gone for each in self._open)
            return Totals(states, gone, self._passed, self._closings.total, denied, commands, steps)

    def close(self, text: str) -> None:
        """Writes the last lines: those of open connections, which end now, and a text."""
        with self._lock:
            closed = [each.text() for each in self._closings.counts()]
            lines = [*closed, *(each.text(each.state_at_end()) for each in self._open), text]
            self._write(self._erased() + "".join(f"{clock(time.time())}  {line}\n" for line in lines))
            self._out = None

    def begins(self, connection: Connection) -> None:
        with self._lock:
            self._open.append(connection)

    def admits(self, connection: Connection) -> bool:
        """Adds a connection, or returns False if too many of its address are not in: then it is to be closed."""
        with self._lock:
            same = [each for each in self._open if each.host == connection.host and each.state not in INSIDE]
            if len(same) >= self._limits.of_an_address:
                self._closings.add(Whose(host=connection.host))
                return False
            self._open.append(connection)
            return True

    def lets_wait(self, connection: Connection, first: bytes) -> bool:
        """Takes the first line of a connection, or removes it and returns False if too many of its user wait: then it must be closed."""
        account = self._limits.account_of(first)
        with self._lock:
            same = [each for each in self._open if account and each.account == account and each.state in WAITING]
            if account and len(same) >= self._limits.of_a_user:
                self._closings.add(Whose(user=account[0].decode()))
                self._open.remove(connection)
                return False
            connection.account = account
            connection.hear_client(first)
            return True

    def turns_away(self, connection: Connection) -> None:
        """Notes that a connection is closed since there are too many of its user, or of all."""
        with self._lock:
            self._closings.add(Whose(user=connection.user) if connection.user else Whose(host=connection.host))

    def note_passed(self) -> None:
        """Notes that the server has a further connection."""
        with self._lock:
            self._passed += 1

    def note_let_in(self, connection: Connection) -> None:
        self.notes("in", **connection.known())
        if not self._is_screen:
            self.say(connection.text())

    def leaves_out(self, connection: Connection) -> None:
        """Removes a connection, without a line for its end."""
        with self._lock:
            self._open.remove(connection)

    def ends(self, connection: Connection) -> None:
        with self._lock:
            self._open.remove(connection)
            if connection.state == "in":
                self._commands[connection.user] += connection.commands
                self._steps[connection.user] += connection.steps
            self._denied += connection.state == "denied"
            connection.end()
            self._say(connection.text())
        self.notes(connection.state, **connection.known())

    def notes(self, event: str, **known: object) -> None:
        """Writes an event into the log, if there is one."""
        if self._log:
            self._log.note(event, **known)

    def draw_on(self) -> None:
        """Reports how many connections were closed, and redraws the screen, for as long as the program runs."""
        while True:
            self.tell_closed()
            if self._is_screen:
                with self._lock:
                    self._write(self._table())
            time.sleep(SECONDS_OF_A_SCREEN)

    def tell_closed(self) -> None:
        """Reports the counts of closed connections whose ten seconds are over."""
        with self._lock:
            ended = self._closings.take_ended()
        for each in ended:
            self.say(each.text())
            self.notes("closed", **{"user": each.whose.user, "from": each.whose.host}, count=each.count, seconds=each.seconds)

    def _erased(self) -> str:
        """The codes that erase the lines of open connections."""
        up, self._drawn = self._drawn, 0
        return f"\033[{up}A\r\033[J" if up else "" if self._typed is None else "\r\033[J"

    def _table(self) -> str:
        """The lines of open connections, which replace those drawn before: as many as the terminal has room for."""
        width, height = shutil.get_terminal_size()
        erased = self._erased()
        closed = [each.text() for each in self._closings.counts()]
        rows = [f"{self._address}  {len(self._open)} open".lstrip(), *closed, *(each.text() for each in self._open)]
        if len(rows) > height - 1:
            rows = [*rows[: height - 2], f".. and {len(rows) - height + 2} more"]
        self._drawn = len(rows)
        typed = "" if self._typed is None else f"> {self._typed}"[-(width - 1) :]
        return erased + "".join(row[: width - 1] + "\n" for row in rows) + typed

    def _write(self, text: str) -> None:
        """Writes a text. If nobody reads it, connections are still passed on."""
        if self._out is None:
            return
        with contextlib.suppress(OSError, ValueError):
            self._out.write(text)
            self._out.flush()


def serve(client: socket.socket, connection: Connection, server: Address, board: Board) -> None:
    """Passes on the data of a connection, from its first line on. If that does not come in time, or too many of its user wait, the
    connection is closed without a byte, and the server never sees it."""
    first = b""
    try:
        first = first_bytes(client)
    except OSError as error:
        connection.refusal = "no first line within 10 seconds" if isinstance(error, socket.timeout) else ""
    if first and not board.lets_wait(connection, first):
        close_unanswered(client)
    elif first:
        carry(client, server, connection, board, first)
    else:
        close_unanswered(client)
        board.ends(connection)


def carry(client: socket.socket, server: Address, connection: Connection, board: Board, first: bytes) -> None:
    """Passes on the data of a connection, the first bytes of its client and the rest, until both directions have ended, or one of
    them is broken."""
    try:
        with client, socket.create_connection(server, SECONDS_TO_CONNECT) as there:
            board.note_passed()
            there.settimeout(None)
            there.setsockopt(socket.IPPROTO_TCP, socket.TCP_NODELAY, 1)
            up = threading.Thread(target=carry_up, args=(client, there, connection, first), daemon=True)
            up.start()
            carry_down(there, client, connection, board)
            # The server is done with it, and would read on for a second.
            shut(there, socket.SHUT_WR)
            up.join(SECONDS_AFTER_END)
            shut(client, socket.SHUT_RDWR)
            shut(there, socket.SHUT_RDWR)
            up.join()
    except OSError as error:
        connection.refusal = f"the server cannot be reached: {error.strerror or error}"
    finally:
        board.ends(connection)


def carry_up(client: socket.socket, there: socket.socket, connection: Connection, data: bytes) -> None:
    """Passes on the data of a client. If the server takes no more, the rest is dropped, so that the client still gets the replies. If
    the client is gone, both directions to the server are shut. If it waited, only one is, until the server closes the connection."""
    try:
        while data:
            if not sent(there, data):
                while client.recv(PIECE):
                    pass
            data = client.recv(PIECE)
            connection.hear_client(data)
    except OSError:
        shut(there, socket.SHUT_WR if connection.leave() else socket.SHUT_RDWR)
    connection.is_gone = True
    shut(there, socket.SHUT_WR)


def carry_down(there: socket.socket, client: socket.socket, connection: Connection, board: Board) -> None:
    """Passes on the data of the server, and then its end. If the client is gone, both connections are shut."""
    with contextlib.suppress(OSError):
        while data := there.recv(PIECE):
            if connection.hear_server(data):
                board.note_let_in(connection)
            if not sent(client, data):
                shut(there, socket.SHUT_RDWR)
                shut(client, socket.SHUT_RDWR)
    shut(client, socket.SHUT_WR)


def sent(stream: socket.socket, data: bytes) -> bool:
    """Sends all of some bytes, however long that takes. Returns whether it succeeded."""
    try:
        stream.sendall(data)
    except OSError:
        return False
    return True


def shut(stream: socket.socket, how: int) -> None:
    """Ends a direction of a connection, if it has not ended."""
    with contextlib.suppress(OSError):
        stream.shutdown(how)


def pass_on(listener: socket.socket, server: Address, board: Board, has_header: bool = False) -> None:
    """Passes all connections on to a server, for as long as the program runs. With `has_header` each begins with a PROXY header."""
    threading.Thread(target=board.draw_on, daemon=True).start()
    accept = accept_behind_header if has_header else accept_at_once
    while True:
        try:
            client, address = listener.accept()
        except OSError:
            time.sleep(0.1)
            continue
        try:
            prepare(client)
            accept(client, Connection(written(address), board.sessions), server, board)
        except (OSError, RuntimeError):
            client.close()


def accept_at_once(client: socket.socket, connection: Connection, server: Address, board: Board) -> None:
    """Serves a connection in a thread, if it is admitted. One that is closed needs none. Raises RuntimeError if there is no thread."""
    if not board.admits(connection):
        close_unanswered(client)
        return
    try:
        threading.Thread(target=serve, args=(client, connection, server, board), daemon=True).start()
    except RuntimeError:
        board.ends(connection)
        raise


def accept_behind_header(client: socket.socket, connection: Connection, server: Address, board: Board) -> None:
    """The same for a connection whose address is in its header. The thread waits for the header."""

    def serve_if_admitted() -> None:
        if not takes_header(client, connection, board):
            return
        if board.admits(connection):
            serve(client, connection, server, board)
        else:
            close_unanswered(client)

    threading.Thread(target=serve_if_admitted, daemon=True).start()


def takes_header(client: socket.socket, connection: Connection, board: Board) -> bool:
    """Reads the PROXY header, with the client's address. Returns whether there was one; else the connection is closed."""
    try:
        connection.origin = source_of(client) or connection.origin
    except (OSError, ValueError) as error:
        connection.refusal = f"no PROXY header: {cause_of(error) if isinstance(error, OSError) else error}"
        client.close()
        board.begins(connection)
        board.ends(connection)
        return False
    return True


def prepare(client: socket.socket) -> None:
    """Makes a socket send bytes at once, and notice a client that vanishes."""
    client.setsockopt(socket.IPPROTO_TCP, socket.TCP_NODELAY, 1)
    client.setsockopt(socket.SOL_SOCKET, socket.SO_KEEPALIVE, 1)
    for name, number in SILENCE.items():
        if hasattr(socket, name):
            client.setsockopt(socket.IPPROTO_TCP, getattr(socket, name), number)


def written(address: Sequence[object]) -> str:
    """An address as HOST:PORT."""
    host, port = address[:2]
    return f"[{host}]:{port}" if ":" in str(host) else f"{host}:{port}"


def address_of(word: str) -> Address:
    """The address in a word. Raises ValueError if there is none."""
    host, _, port = word.rpartition(":")
    if not host or not re.fullmatch("[0-9]{1,5}", port) or int(port) > 65535:
        raise ValueError(f"an address must be HOST:PORT, got {word}")
    return host.strip("[]"), int(port)


def listener_at(address: Address) -> socket.socket:
    """A socket that listens. Raises Fault if it cannot."""
    family = socket.AF_INET6 if ":" in address[0] else socket.AF_INET
    try:
        return socket.create_server(address, family=family, backlog=128)
    except OSError as error:
        raise Fault(f"cannot listen on {written(address)}: {cause_of(error)}") from error


def cause_of(error: OSError) -> str:
    """Why an address cannot be listened on, without repeating the address."""
    return (error.strerror or str(error)).partition(" (while")[0]


def make_room() -> None:
    """Allows as many connections as the system does: each has two sockets, and threads that need little memory."""
    threading.stack_size(STACK)
    most = resource.getrlimit(resource.RLIMIT_NOFILE)[1]
    with contextlib.suppress(OSError, ValueError):
        resource.setrlimit(resource.RLIMIT_NOFILE, (most, most))
