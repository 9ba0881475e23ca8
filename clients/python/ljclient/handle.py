"""The base of a session: its name, what is known of it, and how it is asked."""
from __future__ import annotations

import dataclasses
from typing import TYPE_CHECKING, Any, ContextManager, List, Optional, Sequence, Tuple, Union

from . import arrays, box, frames, reading, sampling, stepping
from .guards import NO_PLACE, change, turning
from .measurement import Measurement, known
from .names import checked_name, count_of, displacement_of
from .order import Order, Place
from .replies import Row, number_after, of_session
from .threads import whole
from .thermo import Thermo
from .units import Scale
from .unwrapping import Path

if TYPE_CHECKING:
    from .mixture import Mixture
    from .motion import Motion
    from .user import User


class Handle:
    """The internal part of a session: its name, what is known of it, and commands during which other threads wait."""

    # Setting a misspelt name, as in `session.temprature = 3`, raises AttributeError.
    __slots__ = ("name", "mixture", "motion", "sampled", "_lock", "_user", "_given", "_pace", "_path", "__weakref__")

    def __init__(
        self,
        user: "User",
        name: str,
        scale: Optional[Scale] = None,
        mixture: Optional[Mixture] = None,
        motion: Optional[Motion] = None,
    ):
        self.name = checked_name(name)
        self.mixture = mixture
        self.motion = motion
        self.sampled: Optional[sampling.Samples] = None
        self._lock: ContextManager[object] = user.lock
        self._user = user
        self._given = scale
        self._pace = stepping.Pace()
        self._path = Path(self.name)

    def __repr__(self) -> str:
        return f"Session({self.name!r})"

    @property
    def user(self) -> "User":
        """The user of this session."""
        return self._user

    @property
    def scale(self) -> Scale:
        """The scale of its whole numbers; for a mixture, the scale of the first class. Raises ValueError if it is not known."""
        return known(self._given)

    @property
    def _is_free(self) -> bool:
        """Whether a command can be sent at once: the connection is open, and no command is in progress."""
        return self._user._is_free

    @property
    def order(self) -> Order:
        """How the server numbers atoms and steps, compared with the numbers here: `ask` and other connections use the server's numbers."""
        return self._user._known_of(self.name).order

    @property
    def n_atoms(self) -> int:
        """The number of atoms. It is known since the session was loaded, or returned by `User.session`."""
        known = self._user._known_of(self.name)
        return self._row().atoms if known.n_atoms is None else known.n_atoms

    @property
    def edge(self) -> float:
        """The edge of the box in the unit of the file."""
        return self.scale.edge

    @property
    def h(self) -> int:
        """The step factor: `dt^2 epsilon / (m sigma^2)` in units of 2^-32."""
        return self.scale.h

    @property
    def dt(self) -> Optional[float]:
        """The time step in femtoseconds that belongs to the whole number h; it differs slightly from the requested one.

        None if epsilon and mass are not known; `scale.reduced_dt` is the time step in reduced units.
        """
        return self.scale.dt

    def _measured(self, words: List[str]) -> Measurement:
        """The measurement from the words of a reply to MEASURE."""
        told = Measurement.of(of_session(f"MEASURE {self.name}", words)[2:], self._given)
        return dataclasses.replace(told, step=self.order.step_of(told.step))

    def _look(self, row: Thermo, atoms: int) -> None:
        """Warns if the energy of a row is far from the energy at the start."""
        self._user._known_of(self.name).watch.look(self.name, self.scale, row, atoms)

    def _number_of(self, atom: Any) -> int:
        """The server's number of an atom. Numbers of atoms are converted here before they are sent."""
        return self.order.number_of(count_of(atom, "the number of an atom"))

    def _tug(self, atom: Any, displacement: Union[Sequence[int], arrays.IntArray]) -> str:
        """The command for a tug."""
        x, y, z = displacement_of(displacement)
        return f"TUG {self.name} {self._number_of(atom)} {x} {y} {z}"

    @whole
    def _frame(self) -> reading.Frame:
        """The frame from DUMP, with the user's order of atoms, step number and positions. Lines of atoms are converted here. A
        command may move the session to another box."""
        box.settle(self._user, self.name)
        if not self.order.on_ring:
            frame = frames.dumped(self._user, self.name)
            if not self.order.on_ring:
                return frame.for_user(self.order)
        return frames.dumped_in_box(self._user, self.name, self.scale.edge)

    @whole
    def _positions_of_frame(self) -> Tuple[int, Any]:
        """The step and the positions of the frame, with six decimals. They are read without splitting the text into lines."""
        box.settle(self._user, self.name)
        if not self.order.on_ring:
            step, positions = frames.dumped_positions(self._user, self.name)
            order = self.order
            if not order.on_ring:
                return order.step_of(step), order._for_user(positions)
        return frames.positions_in_box(self._user, self.name, self.scale.edge)

    @whole
    def _frames_of_places(self, both: bool = False) -> Tuple[reading.Places, ...]:
        """The places of all atoms, and with `both` also the places one step before. Places are converted here."""
        if self.order.on_ring:
            told = (frames.both_dumped if both else frames.dumped_places)(self._user, self.name)
        else:
            told = (frames.both_shown if both else frames.shown)(self._user, self.name, self.n_atoms)
        order = self.order
        return tuple(reading.Places(order.step_of(step), order._for_user(places)) for step, places in told)

    def _set_in_motion(self, now: reading.Places, before: reading.Places, wanted: Sequence[Sequence[int]]) -> None:
        """Replaces the displacements of the last step, between these frames, by the wanted ones. An interrupt waits until all are
        replaced. If the connection is lost meanwhile, the next connection restores the old displacements."""
        changes = arrays.listed(arrays.least_images(wanted, arrays.least_images(now.places, before.places)))
        self._tug_all(changes, arrays.listed(now.places), arrays.listed(before.places))

    def _tug_all(self, changes: Sequence[Sequence[int]], places: Sequence[Place], before: Sequence[Place]) -> None:
        """Tugs each atom by its change: all atoms or none. `places` and `before` are the places now and one step before."""
        self._user._known_of(self.name).watch.begin_anew()
        tugs = [self._tug(atom, change) for atom, change in enumerate(changes) if any(change)]
        for_server = self.order._for_server
        with change(self._user, self.name, for_server(places), for_server(before)) as end:
            self._user._ask_rows([*tugs, *end])

    @whole
    def _step_and_turn(self) -> None:
        """Advances by a step and reverses the motion, which leaves the places as they are. At a server, both are done or none."""
        lines = [f"ADVANCE {self.name} 1", f"REVERSE {self.name}"]
        direction = self._user._known_of(self.name).direction
        try:
            with turning(self._user, self.name, len(lines)) as end:
                self._user.ask_all([*lines, *end])
        except NO_PLACE:
            self._user.ask_all(lines)
        self._user._known_of(self.name).direction = None if direction is None else -direction

    def _row(self) -> "Row":
        return self._user._row(self.name)

    def _ask(self, line: str) -> List[str]:
        return of_session(line, self._user.ask(line).words)

    @whole
    def _number(self, line: str, index: int) -> int:
        """The step number, which is the last word of the reply and has this index."""
        step = number_after(line, self._user.ask(line).words, index)
        self._user._known_of(self.name).is_started = False
        return self.order.step_of(step)
