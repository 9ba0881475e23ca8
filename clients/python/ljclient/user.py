"""A user's connection to a server, or to a program of its own."""
from __future__ import annotations

import contextlib
import dataclasses
import math
from types import TracebackType
from typing import TYPE_CHECKING, Any, Callable, Iterable, Iterator, List, Optional, Sequence, Set, Tuple, Type, Union

from . import progress as bars, stepping, units
from .box import take_up
from .energy_watch import EnergyWatch, WatchedHooks, look_at_started
from .errors import BadReply, ClientError
from .files import Path
from .guards import RESERVED
from .interrupts import held
from .later import Later
from .loading import Loader
from .names import checked_name, count_of
from .order import Order
from .record import Mark
from .recording import Notes, Versions
from .refusals import NoSession
from .renamed import Renamed
from .replies import Row, fields, number_after, whole_number
from .session import Session
from .state import Command, can_be_loaded
from .threads import whole
from .wire import Dialogue, Reply, Wire

if TYPE_CHECKING:
    from . import leftovers, migrate, retrying
else:
    leftovers, migrate, retrying = map(Later, (".leftovers", ".migrate", ".retrying"))

MAX_ITEMS = 1_000_000
FAREWELL_SECONDS = 2.0
# What was known of a session before these commands is no longer true.
NEW_OR_GONE = ("LOAD", "LOADMIX", "DROP")
LOADS = ("LOAD", "LOADMIX")
# These commands change the energy of a session, which must stay the same while only steps are made.
OTHER_ENERGY = ("TUG", "RESTORE")
LOST = "the server no longer has it: the server was started again, or another connection has dropped it"


class User(Loader):
    """A user with its sessions, each under its name. `connect` and `run` return one.

    It is a context manager, which closes the connection at the end. Sessions loaded with `connect` stay at the server for the next
    connection. Sessions loaded with `run` are lost when the program ends.

    Several threads may use a user and its sessions. Each call is atomic: other threads wait until it ends. `advance`, `sample`,
    `thermo` and `write_trajectory` let other threads call after each piece. `with user.lock:` makes several calls atomic.

    Attributes
    ----------
    name : str or None
        Its name at the server; None with `run`.
    address : str
        The address of the server, as HOST:PORT; empty with `run`.
    session_names : set of str
        The sessions that this object has seen at the server and has not dropped.
    lock : threading.RLock
        A lock that a thread holds during a call.
    """

    def __init__(
        self,
        wire: Dialogue,
        reopen: Optional[Callable[[], Dialogue]] = None,
        name: Optional[str] = None,
        restart: Optional[Callable[[], Wire]] = None,
        versions: Optional[Versions] = None,
        address: str = "",
    ):
        super().__init__(versions)
        self.name = name
        self.address = address
        self._wire = wire
        self._reopen = reopen
        self._restart = restart
        self._tried_at = 0.0

    def __repr__(self) -> str:
        who = "run" if self.name is None else repr(self.name)
        return f"User({who}, {'closed' if self.closed else f'sessions_seen={sorted(self.session_names)}'})"

    def __enter__(self) -> "User":
        return self

    def __exit__(self, kind: Optional[Type[BaseException]], error: Optional[BaseException], trace: Optional[TracebackType]) -> None:
        self.close()

    def session(
        self,
        name: str,
        *,
        edge: Optional[units.Number] = None,
        sigma: Optional[units.Number] = None,
        h: Optional[int] = None,
        epsilon: Optional[float] = None,
        mass: Optional[float] = None,
        dt: Optional[float] = None,
        weight: int = units.FULL_WEIGHT,
        order: Union[Order, Sequence[int], None] = None,
        watch: bool = True,
        record: Optional[Path] = None,
    ) -> Session:
        """Returns a session that is already at the server.

        The server does not report the scale of a session, nor how another connection numbers its atoms and steps. So pass the scale
        again, with the arguments of `load`, if you need positions, energies or temperatures. Places need no scale.

        With an edge, the client uses DUMP and SHOW to find the server's box of the session, and so waits for started steps. It warns
        if this is the box of `load_saved`, `order="space"` or `resort`, and no step numbers are given. Later energies are compared with
        the energy at the start of the next long run.

        Parameters
        ----------
        name : str
            Its name.
        edge, sigma, h, epsilon, mass, dt : float, optional
            As in `load`; for a mixture, the values of its first class.
        weight : int, optional
            The weight of the first class of a mixture, in 256ths.
        order : Order or sequence of int, optional
            `Session.order` of the other connection, or the server's number of each atom. With `Order(step=300)` the server's step 0 is
            step 300.
        watch : bool, optional
            As in `load`.
        record : path, optional
            Not possible here: raises a ValueError, because a record begins with the `load` of its session.

        Returns
        -------
        Session
            The session.

        Raises
        ------
        refusals.NoSession
            If there is no session of that name.
        ValueError
            If the server's box has neither this edge nor the edge that `load_saved` uses.
        """
        if record is not None:
            raise ValueError(f"cannot record {name} from here on: a record begins with the load of its session; use record= of `load`")
        with self.lock:
            saved = self.ask(f"LIST {checked_name(name)}").lines
            if not RESERVED.isdisjoint(line.split(" ")[0] for line in saved):
                leftovers.session(self, name, number_after(f"ADVANCE {name} 0", self.ask(f"ADVANCE {name} 0").words, 2), saved)
            scale = None
            if edge is not None and sigma is not None:
                scale = units.Scale.of(edge, sigma, h, epsilon=epsilon, mass=mass, dt=dt, weight=weight)
            elif (edge, sigma, h, epsilon, mass, dt) != (None,) * 6:
                raise ValueError(
                    "a scale must have edge and sigma, got one of them or none; use both, with h= or with epsilon=, mass= and dt="
                )
            take_up(self, name, scale, order)
            known = self._known_of(name)
            known.watch = EnergyWatch(watch)
            if known.n_atoms is None:
                self._row(name)
            return Session(self, name, known.scale, mixture=known.mixture)

    def advance(
        self,
        sessions: Sequence[Session],
        n: Union[int, List[int]],
        progress: Union[bool, bars.NamedReport] = False,
        piece: Optional[int] = None,
    ) -> List[int]:
        """Advances several sessions at the same time.

        Each session whose energy changes gives a warning, as in `Session.advance`.

        Parameters
        ----------
        sessions : sequence of Session
            Sessions of this user.
        n : int or list of int
            The number of steps: one for all, or one for each.
        progress : bool or callable, optional
            True shows a progress bar for each session, as in `Session.advance`. A function is called with the name of a session, the
            number of its steps done, and its total number of steps.
        piece : int, optional
            The number of steps in a piece, as in `Session.advance`.

        Returns
        -------
        list of int
            The new step number of each session.
        """
        totals = n if isinstance(n, list) else [n] * len(sessions)
        if len(totals) != len(sessions):
            raise ValueError(f"n must be one number, or a list of one for each of the {len(sessions)} sessions, got {len(totals)}")
        names = [session.name for session in sessions]
        counts = [count_of(total, "the number of steps") for total in totals]
        hooks = [WatchedHooks(self, name, count, piece) for name, count in zip(names, counts)]
        with bars.reporters(progress, names) as reports:
            tracked = [stepping.Progress(*parts) for parts in zip(names, counts, reports, hooks)]
            return stepping.go(tracked, self.ask_all, stepping.Pace(), piece, self.lock)

    @whole
    def sessions(self) -> List[Row]:
        """The sessions of this user.

        Returns
        -------
        list of Row
            For each session: its name, its step number after all started steps, its number of atoms and its number of branches. The
            sessions are in the order of loading.
        """
        rows = []
        for line in self.ask("LIST").lines:
            name, *numbers = fields(line, 4)
            step, atoms, branches = map(whole_number, numbers)
            known = self._known_of(name)
            known.n_atoms = atoms
            rows.append(Row(name, known.order.step_of(step), atoms, branches - len(known.left)))
        return rows

    @whole
    def _row(self, name: str) -> Row:
        """The row of this session in the list of sessions."""
        for row in self.sessions():
            if row.name == name:
                return row
        self.ask(f"LIST {name}")
        raise BadReply(f"session {name} is there, but not in the list of sessions")

    def ask(self, line: str, body: bytes = b"") -> Reply:
        """Sends a command of the protocol.

        Parameters
        ----------
        line : str
            The command line.
        body : bytes, optional
            The body of the command.

        Returns
        -------
        Reply
            The words of the reply after `OK`, and the lines below it.

        Raises
        ------
        Refused
            If it is refused.
        """
        return self._ask_commands([(line, body)])[0]

    def ask_all(self, lines: Iterable[str]) -> List[Reply]:
        """Sends many commands without waiting for each reply.

        Parameters
        ----------
        lines : iterable of str
            The command lines.

        Returns
        -------
        list of Reply
            The reply to each.

        Raises
        ------
        Refused
            The first refusal.
        """
        return self._ask_commands([(line, b"") for line in lines])

    @whole
    def _ask_commands(self, commands: Sequence[Command]) -> List[Reply]:
        """As `ask_all`, for commands with bodies."""
        if self._started:
            look_at_started(self, (line for line, _ in commands))
        self._make_room(len(commands))
        with self._told():
            try:
                replies = self._wire.ask_all(commands)
            except BaseException:
                self.session_names -= dropped_by(commands)
                raise
            for reply in replies:
                self._note(reply)
        return replies

    @property
    def unanswered(self) -> List[str]:
        """The command lines whose replies were not read because of an interrupt. The next command reads them first."""
        return self._wire.unanswered

    @whole
    def catch_up(self) -> None:
        """Reads and ignores the replies that were not read because of an interrupt."""
        self._wire.catch_up()

    @contextlib.contextmanager
    def on_wait(self, tell: Callable[[str, float], None]) -> Iterator[None]:
        """Calls a function within the block, after every quarter of a second without a reply.

        Parameters
        ----------
        tell : callable
            It is called with the command line that awaits its reply, and with the seconds since something arrived. It may raise an
            error, which ends the call like an interrupt.
        """
        self._wire.on_wait = tell
        try:
            yield
        finally:
            self._wire.on_wait = None

    def _take(self, wire: Dialogue) -> None:
        """Continues over another connection."""
        wire.on_wait, self._wire = self._wire.on_wait, wire

    def _note(self, reply: Reply) -> None:
        """Updates what is known of the sessions from a reply. A session that is new or gone is forgotten first."""
        verb, *words = reply.words
        if verb in NEW_OR_GONE:
            self._forget(words[0])
        if verb in LOADS and len(words) == 3:
            self._known_of(words[0]).n_atoms = whole_number(words[2])
        elif verb in OTHER_ENERGY and words[1] not in RESERVED:
            self._known_of(words[0]).watch.begin_anew()
        if verb == "REVERSE" and (turned := self._known_of(words[0]).direction):
            self._known_of(words[0]).direction = -turned
        elif verb == "RESTORE" and words[1] not in RESERVED:
            self._known_of(words[0]).direction = None
        elif verb in ("RESTORE", "FORGET") and words[1] in RESERVED:
            known = self._known_of(words[0])
            known.left -= {words[1]} if verb == "FORGET" else frozenset()
        if verb == "DROP":
            self.session_names.discard(words[0])
        elif verb == "LIST" and len(words) == 1:
            self.session_names.update(line.split(" ")[0] for line in reply.lines)
        elif verb in ("LOAD", "LOADMIX", "LIST"):
            self.session_names.add(words[0])

    @contextlib.contextmanager
    def _told(self) -> Iterator[None]:
        """As `_losses_told`, and records are written before the caller gets the reply or the error."""
        try:
            with self._losses_told():
                yield
        finally:
            if self._listeners.by_name:
                self._flush()

    def _flush(self) -> None:
        """Writes the records, and ends them if the connection has ended."""
        try:
            if self._wire.closed:
                self._listeners.close()
            else:
                self._listeners.flush()
        finally:
            self._attach()

    def _attach(self) -> None:
        self._listeners.attach(self._wire)

    @contextlib.contextmanager
    def _losses_told(self) -> Iterator[None]:
        """Gives a `NoSession` the meaning `LOST` if this object has seen the session at the server."""
        try:
            yield
        except NoSession as refusal:
            if self._reopen is None or self.session_names.isdisjoint(refusal.command.split()[1:2]):
                raise
            raise NoSession(refusal.command, meaning=LOST) from None

    @whole
    def _ask_text(self, line: str) -> Tuple[List[str], bytes]:
        """The words after `OK` in the reply to a command line, and the bytes of the lines below them. A refusal is raised."""
        if self._started:
            look_at_started(self, [line])
        self._make_room(1)
        with self._told():
            return self._wire.ask_text(line)

    @whole
    def _ask_rows(self, lines: Sequence[str]) -> bytes:
        """The bytes of the replies to many command lines with one reply line each. The first refusal is raised."""
        if self._started:
            look_at_started(self, lines)
        self._make_room(len(lines))
        with self._told():
            return self._wire.ask_rows(lines)

    def _make_room(self, count: int) -> None:
        """Begins a new connection if this one would exceed its million commands, and the sessions outlast it.

        With `run` they do not. So they move to a new program when half of the commands are used up, because reading them takes
        commands too. If they cannot move, this is tried again later.
        """
        asked = self._wire.asked + count
        if self._wire.closed or count >= MAX_ITEMS:
            return
        if self._reopen and asked >= MAX_ITEMS:
            self._wire.pass_over()
            self._say_bye()
            self._take(self._reopen())
            self._listeners.told(Mark.CONNECTION)
            self._attach()
            leftovers.put_right(self)
        elif self._restart and asked >= max(MAX_ITEMS // 2, self._tried_at + MAX_ITEMS // 20):
            self._tried_at = math.inf
            watches = {name: dataclasses.replace(known.watch) for name, known in self._known.items()}
            try:
                self._move(self._restart, MAX_ITEMS - asked)
            finally:
                self._tried_at = self._wire.asked
                for name, watch in watches.items():
                    self._known_of(name).watch = watch

    def _move(self, restart: Callable[[], Wire], commands: int) -> None:
        """Moves all sessions unchanged to a new program, if this takes fewer than `commands` commands.

        If a session may have pending steps, which must be waited for, the sessions move only when few commands are left.
        """
        rows = self.sessions()
        needed = sum(migrate.most_commands(row.atoms, row.branches) for row in rows)
        known = [(row.name, self._known_of(row.name)) for row in rows]
        may_wait = commands < MAX_ITEMS // 10 or not any(each.is_started for _, each in known)
        if needed >= min(commands, MAX_ITEMS // 2) or not may_wait or not all(can_be_loaded(*each) for each in known):
            return
        notes = Notes()
        with held():
            kept = [migrate.kept_of(self, row.name) for row in rows]
            wire = migrate.program_with(lambda: notes.of(restart()), kept)
            if wire is None:
                for each in kept:
                    each.put_back(self)
                return
            self._say_bye()
            self._take(wire)
            self._listeners.moved(notes.answers)
            self._attach()
            for each in kept:
                each.tell(self)

    @property
    def _outlasts_connections(self) -> bool:
        """Whether sessions outlast the connection, as at a server."""
        return self._reopen is not None

    @property
    def closed(self) -> bool:
        """Whether the connection has ended."""
        return self._wire.closed

    @property
    def _is_free(self) -> bool:
        """Whether the connection is open, and no command is under way."""
        return not self._wire.closed and self._wire.is_idle

    @whole
    def close(self) -> None:
        """Ends the connection, and the program of `run`.

        A command that still runs at a server continues there. Steps that were started there are made when this user connects again.
        """
        self._say_bye()
        self._wire.close()
        self._listeners.close()

    def _say_bye(self) -> None:
        """Sends BYE if no command is under way, and closes the connection."""
        if self._wire.closed:
            return
        try:
            if self._wire.is_idle:
                self._wire.timeout = min(self._wire.timeout, FAREWELL_SECONDS)
                self._wire.ask("BYE")
        except ClientError:
            pass
        finally:
            self._wire.close()

    ask_commands = Renamed[Any]("_ask_commands", "User.ask(line, body)")
    ask_rows = Renamed[Any]("_ask_rows", "User.ask_all(lines)")
    ask_text = Renamed[Any]("_ask_text", "User.ask(line)")
    has_dropped = Renamed[Any]("_forget")
    known = Renamed[Any]("_known_of", "Session.scale, Session.mixture and Session.order")
    resort = Renamed[Any]("_resort", "Session.resort()")
    restore = Renamed[Any]("_restore", "Session.restore(name)")
    row = Renamed[Any]("_row", "User.sessions()")
    state_of = Renamed[Any]("_state_of", "Session.save(path)")


def dropped_by(commands: Sequence[Command]) -> Set[str]:
    """The sessions that these commands drop, if they are not refused."""
    words = [line.split()[:2] for line, _ in commands]
    return {each[1] for each in words if len(each) == 2 and each[0] == "DROP"}
