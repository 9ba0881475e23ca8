"""The one command that loads atoms into a new session: as they were passed, or in motion, or in the order of space."""
from __future__ import annotations

from dataclasses import dataclass, replace
from typing import Optional

from .exact import exact_frames, text_in_box
from .motion import Motion
from .order import Order, by_halves
from .state import Command, Known, State
from .scalars import Number, nano
from .units import MIN_SIGMA, RING, Scale
from .xyz import Frames


@dataclass(frozen=True)
class NewSession:
    """The command that loads a session, for any name.

    verb, words  the command, and its words between the name and the mode
    frames       the mode and the atoms as they were passed
    edge         the edge of the box in 10^-9 of the file's unit, if there is a `state`
    state        the state at step 0, in the user's order, of atoms that move or are sorted. None for other atoms, and for atoms that
                 the server refuses: its refusal states the fault
    """

    verb: str
    words: str
    frames: Frames
    edge: int = 0
    state: Optional[State] = None

    @staticmethod
    def of(verb: str, words: str, frames: Frames, edge: Number, motion: Optional[Motion], known: Known) -> "NewSession":
        new = NewSession(verb, words, frames)
        if known.scale is None or not (motion or known.is_sorted):
            return new
        if not all(map(_is_on_ring, known.mixture.classes if known.mixture else (known.scale,))):
            return new
        exact = exact_frames(*frames, nano(edge))
        if exact is None:
            return new
        exact = exact if motion is None else exact.moved(motion.displacements)
        state = State("", known.scale, known.mixture, 0, 1, exact.symbols, exact.places, exact.before, known.is_sorted)
        return replace(new, edge=nano(edge), state=state)

    @property
    def order(self) -> Order:
        """The order in which the server has the atoms."""
        return Order(by_halves(self.state.places) if self.state and self.state.is_sorted else None)

    @property
    def is_on_ring(self) -> bool:
        """Whether the server has the atoms in the box that shows each ring unit. In any other small box, not every place has a
        coordinate of its own."""
        return self.state is not None and (self.state.is_sorted or self.edge < RING)

    def command(self, name: str) -> Command:
        """The command that loads the session under a name, and its body."""
        mode, body = self.frames
        if self.state is not None:
            if self.is_on_ring:
                return replace(self.state, name=name).command(self.order)
            both = (self.state.before, self.state.places)
            mode, body = "pair", b"".join(text_in_box("ljclient", self.state.symbols, places, self.edge) for places in both)
        return f"{self.verb} {name} {self.words} {mode} {len(body)}", body

    def known(self, known: Known) -> Known:
        """What is known of the session when it is loaded."""
        if self.state is not None and self.is_on_ring:
            known = replace(self.state.known(self.order), watch=known.watch)
        return replace(known, direction=1)


def _is_on_ring(scale: Scale) -> bool:
    """Whether the server accepts the edge and the sigma of a scale, as far as their ratio decides it."""
    return MIN_SIGMA <= scale.sigma_on_ring and 5 * scale.sigma_on_ring < RING
