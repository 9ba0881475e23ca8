"""Loads the atoms of a user into sessions of one species or of two."""
from __future__ import annotations

import contextlib
import dataclasses
import threading
from typing import TYPE_CHECKING, Any, Callable, Dict, Iterable, Iterator, List, Optional, Sequence, Set, Tuple, cast

from . import files, scalars, units, xyz
from .energy_watch import EnergyWatch, warn_of_large_steps
from .errors import ClientError, NotRecorded
from .guards import branches_of, checked_session
from .interrupts import held
from .later import Later
from .load_options import LoadOptions, SourceAtoms
from .mixture import Mixture, Pair, RawClass
from .new_session import NewSession
from .order import Order, by_halves, is_in_space
from .overlap import warn_of_close_atoms
from .record_file import sum_of_continued
from .recording import Listener, Listeners, Record, Versions
from .replacing import CommandOf, replacing
from .replies import Row, number_after
from .resorting import resort
from .session import Session
from .species import Symbols, check_alike
from .state import Command, Known, State, state_of
from .threads import whole
from .wire import Reply

if TYPE_CHECKING:
    from . import checkpoint
    from .user import User
else:
    checkpoint = Later(".checkpoint")


class Loader:
    """The part of a `User` that loads atoms, and stores what is known of each session."""

    def __init__(self, versions: Optional[Versions] = None) -> None:
        # Held by a thread while it uses the user. Other threads wait meanwhile. It is reentrant.
        self.lock = self._lock = threading.RLock()
        self.name: Optional[str] = None
        # Sessions that this user has seen at the server, and has not dropped.
        self.session_names: Set[str] = set()
        # The server's address as given, HOST:PORT. Empty for a program of its own.
        self.address = ""
        self._known: Dict[str, Known] = {}
        # Sessions whose energy is measured as soon as their started steps are done.
        self._started: Set[str] = set()
        self._listeners = Listeners()
        self._versions: Versions = versions or (lambda: [])
        # Returns the file for the record of a new session of this name, if its load gives none.
        self._record_for: Optional[Callable[[str], files.Path]] = None

    def load(
        self,
        name: str,
        source: Any,
        *,
        edge: Optional[units.Number] = None,
        sigma: units.Number,
        h: Optional[int] = None,
        epsilon: Optional[float] = None,
        mass: Optional[float] = None,
        dt: Optional[float] = None,
        before: Any = None,
        pair: bool = False,
        symbols: Symbols = None,
        replace: bool = False,
        order: Optional[str] = None,
        watch: bool = True,
        record: Optional[files.Path] = None,
    ) -> Session:
        """Loads atoms into a new session, at step 0.

        Pass h, or pass epsilon, mass and dt, from which h is computed and rounded; edge, sigma and positions are then in angstrom. If
        you pass epsilon and mass with h, `Session.dt` and temperatures in kelvin are known too.

        The atoms are at rest, unless you pass `before` or `pair`, or the source has velocities. Velocities are read from ASE `Atoms`
        and from extended XYZ text: from its column `momenta`, in ASE's units and divided by its column `masses` or by mass, else from
        `velo`, `vel`, `velocities` or `velocity`, in angstrom / femtosecond as QUIP, GPUMD and `write_trajectory` write them.
        Velocities need epsilon and mass. They are rounded, as `print(session.motion)` shows, and are the velocities half a step ago,
        like kinetic energies.

        Parameters
        ----------
        name : str
            The name of the session: 1 to 16 letters, digits, `_` or `-`.
        source : object
            The atoms: the path of an XYZ file, an open file, XYZ text, `Atoms` of ASE, an `AtomGroup` or a `Universe` of MDAnalysis,
            a list of `(symbol, x, y, z)`, or positions with `symbols`.
        edge : float, optional
            The edge of the cubic box, in the unit of the file. The default is the cubic cell of the `Atoms`, or the cubic `Lattice` of
            extended XYZ. If you pass `edge`, cell and Lattice are ignored.
        sigma : float
            The distance sigma, in the same unit, below a fifth of the edge.
        h : int, optional
            The step factor: `dt^2 epsilon / (m sigma^2)` in units of 2^-32, from 1 to 16777216.
        epsilon : float, optional
            The depth of the potential in electronvolt, such as `119.8 * units.kelvin`.
        mass : float, optional
            The mass of an atom in dalton.
        dt : float, optional
            The time step in femtoseconds. `Session.dt` is the actual time step, from the rounded h.
        before : object, optional
            The atoms one step before, also a source. Both frames together set the atoms in motion.
        pair : bool, optional
            Whether the source itself has two frames, such as a file of two frames. The first frame is one step before the second.
        symbols : str or sequence of str, optional
            The symbol of all atoms, or a symbol for each atom. They replace the symbols of the source.
        replace : bool, optional
            Whether to replace a session of that name. The old session stays until the server has accepted the new one.
        order : {"space"}, optional
            "space" sorts the atoms in space at the server, so that steps of many atoms take less time, and `advance` sorts them again
            every 250 steps. The client keeps the atom numbers of the source; `Session.order` has the server's numbers.
        watch : bool, optional
            Whether the energy is measured during runs, with a warning if it changes (`Session.advance`).
        record : path, optional
            A file such as "run.lj". Each command of this session is written to it with its reply, before the call returns;
            `python3 -m ljclient verify run.lj` plays it again. An existing file is replaced when the session is loaded.

        Returns
        -------
        Session
            The session.

        Raises
        ------
        ValueError
            If the atoms have different symbols, or if sigma, epsilon and mass are those of another element in `units`.
        NotRecorded
            If the record cannot be written. The session continues without it.

        Warns
        -----
        UserWarning
            If two atoms are closer than 0.8 sigma.
        EnergyWarning
            If `watch` and h is above 200,000, because the energy then grows fast.
        """
        checked_session(name)
        options = LoadOptions(edge, before, pair, symbols, replace, order, watch, record)
        atoms = options.atoms_of(source)
        scale = units.Scale.of(atoms.edge, sigma, h, epsilon=epsilon, mass=mass, dt=dt)
        if symbols is None:
            check_alike((row[0] for row in xyz.present_atoms(atoms.frames)), scale)
        words = f"{scalars.word(atoms.edge)} {scalars.word(sigma)} {scalars.word(scale.h)}"
        return self._load(name, words, atoms, scale, None, options)

    def load_mix(
        self,
        name: str,
        source: Any,
        *,
        species: Sequence[str],
        edge: Optional[units.Number] = None,
        first: Optional[Pair] = None,
        second: Optional[Pair] = None,
        mixed: Optional[Pair] = None,
        mass: Optional[float] = None,
        dt: Optional[float] = None,
        classes: Optional[Sequence[RawClass]] = None,
        epsilon: Optional[float] = None,
        before: Any = None,
        pair: bool = False,
        symbols: Symbols = None,
        replace: bool = False,
        order: Optional[str] = None,
        watch: bool = True,
        record: Optional[files.Path] = None,
    ) -> Session:
        """Loads atoms of two species, all of one mass, into a new session at step 0.

        The step factor h and the weight of each of the three classes are rounded to whole numbers; `print(session.mixture)` shows them.
        A weight is an epsilon in 256ths of the first epsilon, which is the unit of energies.

        Parameters
        ----------
        name : str
            As in `load`.
        source : object
            As in `load`.
        species : sequence of str
            The two symbols, such as `("Ar", "Kr")`; each atom has one of them.
        edge : float, optional
            As in `load`.
        first : tuple of float, optional
            Sigma (angstrom) and epsilon (electronvolt) of two atoms of the first species.
        second : tuple of float, optional
            The same for two atoms of the second species.
        mixed : tuple of float, optional
            The same for one atom of each species. The default is the mean of the sigmas and the geometric mean of the epsilons
            (Lorentz and Berthelot).
        mass : float, optional
            The mass of each atom in dalton.
        dt : float, optional
            The time step in femtoseconds.
        classes : sequence of tuple, optional
            Instead of first, second, mixed and dt: three tuples `(sigma, h, weight)`, for two atoms of the first species, for one atom
            of each, and for two atoms of the second.
        epsilon : float, optional
            With classes: the epsilon of the first class in electronvolt. With it and mass, `Session.dt` and temperatures in kelvin are
            known.
        before, pair, symbols, replace, order, watch, record : object, optional
            As in `load`.

        Returns
        -------
        Session
            The session.
        """
        checked_session(name)
        options = LoadOptions(edge, before, pair, symbols, replace, order, watch, record)
        atoms = options.atoms_of(source)
        mixture = Mixture.of(
            atoms.edge, species, first=first, second=second, mixed=mixed, mass=mass, dt=dt, classes=classes, epsilon=epsilon
        )
        words = f"{scalars.word(atoms.edge)} {mixture.words}"
        return self._load(name, words, atoms, mixture.scale, mixture, options)

    def _load(
        self, name: str, words: str, atoms: SourceAtoms, scale: units.Scale, mixture: Optional[Mixture], options: LoadOptions
    ) -> Session:
        """Loads atoms into a new session. `words` is the command's text between the session's name and the mode."""
        motion = atoms.motion(scale)
        known = Known(scale, mixture, is_sorted=is_in_space(options.order), watch=EnergyWatch(options.watch))
        warn_of_close_atoms(atoms.frames, scale, mixture)
        if options.watch:
            warn_of_large_steps(scale, mixture)
        verb = "LOAD" if mixture is None else "LOADMIX"
        self._send(NewSession.of(verb, words, atoms.frames, atoms.edge, motion, known), name, known, options)
        return Session(cast("User", self), name, scale, mixture=mixture, motion=motion)

    @whole
    def _send(self, new: NewSession, name: str, known: Known, options: LoadOptions) -> None:
        """Loads a new session, and replaces a session of that name if `options.replace` is set."""
        line, body = new.command(name)
        with held():
            with self._recorded(name, options, new.command):
                self.ask(line, body)
            self._learn(name, new.known(known))

    @contextlib.contextmanager
    def _recorded(self, name: str, options: LoadOptions, command_of: CommandOf) -> Iterator[None]:
        """Drops a session that is to be replaced, once the server has accepted the new one, and begins the record of the new one with
        its load.

        The file is opened first, so nothing is dropped if it cannot be opened. If nothing is loaded, the file stays as it was.
        """
        path = self._record_for(name) if options.record is None and self._record_for is not None else options.record
        is_same = options.replace and self._listeners.writes(name, path)
        record = None if path is None or is_same else Record(path, self._versions(), options.continues)
        try:
            with replacing(self, name, command_of, options.replace) as drops:
                self._ask_commands(drops)
                if is_same and path is not None:
                    record = Record(path, self._versions(), options.continues)
                with self._heard_by(name, record):
                    yield
        except NotRecorded:
            if record is not None and record.is_over:
                with contextlib.suppress(ClientError):
                    self.ask(f"DROP {name}")
            raise
        finally:
            if record is not None and not record.is_begun:
                record.give_up()

    @whole
    def _listen(self, name: str, listener: Optional[Listener]) -> None:
        """Sets the listener that gets each command of a session with its reply. None removes it."""
        self._listeners.put(name, listener)
        self._attach()

    def _record_of(self, name: str) -> Optional[Record]:
        """The record that is written of a session, if there is one."""
        return self._listeners.record_of(name)

    @contextlib.contextmanager
    def unrecorded(self, name: str) -> Iterator[None]:
        """Leaves the commands of a session within this block out of its record. They must leave the session as it was.

        If an error, an interrupt or the end of the connection ends the block, or a new connection or program is started within it, its
        commands are recorded after all. In nested blocks the outer block decides.

        Parameters
        ----------
        name : str
            The name of the session.
        """
        with self.lock:
            try:
                with self._listeners.paused(name):
                    yield
            finally:
                self._attach()

    @contextlib.contextmanager
    def _heard_by(self, name: str, listener: Optional[Listener]) -> Iterator[None]:
        """Sets the listener of a session. If it has not begun by the end of the block, the previous one is set again."""
        before = self._listeners.by_name.get(name)
        if listener is not None:
            self._listen(name, listener)
        try:
            yield
        finally:
            if listener is not None and not listener.is_begun:
                self._listen(name, before)

    @whole
    def load_saved(
        self,
        path: files.Path,
        name: Optional[str] = None,
        *,
        replace: bool = False,
        order: Optional[str] = None,
        watch: bool = True,
        record: Optional[files.Path] = None,
        continues: Optional[files.Path] = None,
    ) -> Session:
        """Loads a session that `Session.save` has written, exactly as it was.

        Step numbers continue from the saved step.

        Parameters
        ----------
        path : path
            The file.
        name : str, optional
            As in `load`. The default is the name under which it was saved.
        replace : bool, optional
            As in `load`.
        order : {"space"}, optional
            As in `load`. The default is the saved setting.
        watch : bool, optional
            As in `load`.
        record : path, optional
            As in `load`.
        continues : path, optional
            The record that the new record continues, such as the record of a killed run. It is another file; its SHA-256 is written
            into the new record.

        Returns
        -------
        Session
            The session.

        Raises
        ------
        Damaged
            If the file differs from what was written; the error names the line.
        """
        state = checkpoint.read(path)
        options = LoadOptions(replace=replace, order=order, watch=watch, record=record, continues=sum_of_continued(continues, record))
        state = dataclasses.replace(
            state,
            name=checked_session(state.name if name is None else name),
            is_sorted=is_in_space(order) or state.is_sorted,
        )
        order_of = Order(by_halves(state.places) if state.is_sorted else None)
        if watch:
            warn_of_large_steps(state.scale, state.mixture)
        self._put(state, order_of, EnergyWatch(watch), options)
        return Session(cast("User", self), state.name, state.scale, mixture=state.mixture)

    @whole
    def _copy_of(self, name: str, new: str, replace: bool) -> Session:
        """As `Session.copy`."""
        if checked_session(new) == name:
            raise ValueError(f"new must be another name than {name}, got {new!r}")
        state, known = dataclasses.replace(self._state_of(name), name=new), self._known_of(name)
        self._put(state, Order(known.order.numbers), dataclasses.replace(known.watch), LoadOptions(replace=replace))
        return Session(cast("User", self), new, state.scale, mixture=state.mixture)

    @whole
    def _resort(self, name: str) -> None:
        """As `Session.resort`."""
        if saved := branches_of(self, name):
            raise ValueError(f"cannot sort {name} again: what is saved by `branch` would be lost ({', '.join(saved)}); use `forget` first")
        resort(self, name)

    @whole
    def _restore(self, name: str, branch: str) -> int:
        """As `Session.restore`."""
        line = f"RESTORE {name} {branch}"
        step, known = number_after(line, self.ask(line).words, 3), self._known_of(name)
        known.order = known.branch_order(branch)
        return known.order.step_of(step)

    @whole
    def _state_of(self, name: str) -> State:
        """The whole state of a session after its pending steps. Reading it leaves the session unchanged."""
        return state_of(self, name)

    def _put(self, state: State, order: Order, watch: EnergyWatch, options: LoadOptions) -> None:
        """Loads a state as a session with this order, and replaces a session of its name if `options.replace` is set. An interrupt
        waits until this is done."""

        def command_of(new: str) -> Command:
            return dataclasses.replace(state, name=new).command(order)

        with held():
            with self._recorded(state.name, options, command_of):
                self._ask_commands([command_of(state.name)])
            self._learn(state.name, dataclasses.replace(state.known(order), watch=watch, direction=1))

    def _learn(self, name: str, known: Known) -> None:
        """Stores what is known of a loaded session, with the number of atoms that the server has reported."""
        self._known[name] = dataclasses.replace(known, n_atoms=self._known_of(name).n_atoms)

    def _known_of(self, name: str) -> Known:
        """What is known of a session."""
        return self._known.setdefault(name, Known())

    def _forget(self, name: str) -> None:
        """Forgets what is known of a session that is gone."""
        self._known.pop(name, None)
        self._started.discard(name)

    @property
    def _outlasts_connections(self) -> bool:
        """As `User._outlasts_connections`."""
        raise NotImplementedError

    @property
    def closed(self) -> bool:
        """As `User.closed`."""
        raise NotImplementedError

    def _row(self, name: str) -> Row:
        """As `User._row`."""
        raise NotImplementedError

    def _make_room(self, count: int) -> None:
        """As `User._make_room`."""
        raise NotImplementedError

    def _attach(self) -> None:
        """Attaches the listeners of the sessions to the connection."""
        raise NotImplementedError

    def ask(self, line: str, body: bytes = b"") -> Reply:
        """As `User.ask`."""
        raise NotImplementedError

    def ask_all(self, lines: Iterable[str]) -> List[Reply]:
        """As `User.ask_all`."""
        raise NotImplementedError

    def _ask_commands(self, commands: Sequence[Command]) -> List[Reply]:
        """As `User._ask_commands`."""
        raise NotImplementedError

    def _ask_text(self, line: str) -> Tuple[List[str], bytes]:
        """As `User._ask_text`."""
        raise NotImplementedError

    def _ask_rows(self, lines: Sequence[str]) -> bytes:
        """As `User._ask_rows`."""
        raise NotImplementedError

    def sessions(self) -> List[Row]:
        """As `User.sessions`."""
        raise NotImplementedError
