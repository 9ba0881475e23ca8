"""The whole state of a session: how it is read from the server, and the command that loads it again, exactly.

Two frames that are one step apart are the simulation. A LOAD of both, in the box that shows each ring unit, restores it.
"""
from __future__ import annotations

from dataclasses import dataclass, field, replace
from typing import TYPE_CHECKING, Dict, FrozenSet, Optional, Sequence, Tuple

from . import arrays, frames
from .energy_watch import EnergyWatch
from .errors import BadReply
from .mixture import Mixture
from .order import Order, Place
from .units import FULL_WEIGHT, RING, Scale

if TYPE_CHECKING:
    from .loading import Loader

# A command line, and the body that it announces.
Command = Tuple[str, bytes]


@dataclass
class Known:
    """What a user knows of a session: its scale, and how its numbers relate to the server's numbers.

    n_atoms     the number of atoms, once the server has reported it
    symbols     the symbol of each atom, once they were read
    is_sorted   whether its atoms are kept in the order of space
    gone        the number of steps since they were sorted
    is_started  whether steps were started and not yet waited for
    is_box_open whether its atoms do not show yet if the server has them in the box that shows each ring unit
    branches    how the numbers of each branch relate to the server's numbers
    watch       what is known of its energy, to detect changes
    direction   1 or -1: by how much the next step changes the server's step number. None if this is not known
    left        the reserved branches that an earlier connection has left, and that stay because the session has advanced since
    """

    scale: Optional[Scale] = None
    mixture: Optional[Mixture] = None
    order: Order = Order()
    symbols: Sequence[str] = ()
    is_sorted: bool = False
    gone: int = 0
    is_started: bool = False
    is_box_open: bool = False
    branches: Dict[str, Order] = field(default_factory=dict)
    watch: EnergyWatch = field(default_factory=EnergyWatch)
    direction: Optional[int] = None
    left: FrozenSet[str] = frozenset()
    n_atoms: Optional[int] = None

    def branch_order(self, branch: str) -> Order:
        """How the numbers of a branch relate to the server's numbers."""
        return self.branches.get(branch, self.order)

    def set_box(self, on_ring: bool, is_open: bool = False) -> None:
        """Notes whether the server has the session and its branches in the box that shows each ring unit."""
        self.order = replace(self.order, on_ring=on_ring)
        self.branches = {branch: replace(order, on_ring=on_ring) for branch, order in self.branches.items()}
        self.is_box_open = is_open and not on_ring


@dataclass(frozen=True)
class State:
    """A session as it is at a step, with its atoms in the user's order.

    name, scale, mixture  of the session
    step, direction       the step number, and 1 or -1: by how much the next step changes it
    symbols               the symbol of each atom
    places, before        the places of all atoms now and one step before, in ring units
    is_sorted             whether the atoms are kept in the order of space
    """

    name: str
    scale: Scale
    mixture: Optional[Mixture]
    step: int
    direction: int
    symbols: Sequence[str]
    places: Sequence[Place]
    before: Sequence[Place]
    is_sorted: bool = False

    def command(self, order: Order) -> Command:
        """The command that loads the state, with the atoms in this order, and its body."""
        symbols = order._for_server(self.symbols)
        both = (("one step before", self.before), ("now", self.places))
        body = b"".join(frames.text_on_ring(comment, symbols, order._for_server(places)) for comment, places in both)
        return f"{self._words()} pair {len(body)}", body

    def known(self, order: Order) -> Known:
        """What is known of the session that `command` loads."""
        return Known(self.scale, self.mixture, self.order_of(order), self.symbols, self.is_sorted)

    def order_of(self, order: Order) -> Order:
        """How the numbers of that session relate to the server's."""
        return replace(order, step=self.step, direction=self.direction, on_ring=True)

    def _words(self) -> str:
        if self.mixture is None:
            return f"LOAD {self.name} {frames.RING_EDGE} {self.scale.sigma_on_ring}e-6 {self.scale.h}"
        classes = (f"{each.sigma_on_ring}e-6 {each.h} {each.weight}" for each in self.mixture.classes)
        return " ".join([f"LOADMIX {self.name} {frames.RING_EDGE}", *self.mixture.species, *classes])


def checked(name: str, known: Known) -> Scale:
    """The scale of a session that can be loaded again. Raises ValueError if too little is known of it."""
    scale = known.scale
    if scale is None:
        raise ValueError(f"the scale of {name} must be known, got None; use user.session(name, edge=.., sigma=.., h=..)")
    if known.mixture is None and scale.weight != FULL_WEIGHT:
        raise ValueError(f"cannot copy or save {name}: how its two species interact is known only where load_mix has loaded it")
    if not 0 < scale.sigma_on_ring < RING:
        raise ValueError(f"sigma must be below the edge of the box, {scale.edge:g}, got {scale.sigma:g}")
    return scale


def can_be_loaded(name: str, known: Known) -> bool:
    """Whether enough is known of a session to load it again."""
    try:
        checked(name, known)
    except ValueError:
        return False
    return True


def commands_of_state(atoms: int) -> int:
    """The largest number of commands that `state_of` sends for so many atoms."""
    return 2 * atoms + 4


def state_of(user: "Loader", name: str) -> State:
    """The state of a session. Its pending steps are done first. Then the session stays as it is."""
    user.ask(f"ADVANCE {name} 0")
    known = user._known_of(name)
    scale = checked(name, known)
    symbols = symbols_of(user, name)
    if known.order.on_ring:
        now, before = frames.both_dumped(user, name)
    else:
        now, before = frames.both_shown(user, name, len(symbols))
    direction = now.step - before.step
    if direction not in (1, -1):
        raise BadReply(f"the two frames of {name} are at the steps {now.step} and {before.step}")
    known.direction = direction
    order = known.order
    places, past = (order._for_user(arrays.listed(frame.places)) for frame in (now, before))
    step, direction = order.step_of(now.step), order.direction * direction
    return State(name, scale, known.mixture, step, direction, symbols, places, past, known.is_sorted)


def symbols_of(user: "Loader", name: str) -> Sequence[str]:
    """The symbols of a session's atoms, in the user's order."""
    known = user._known_of(name)
    if not known.symbols:
        told = frames.dumped(user, name).symbols()
        known.symbols = known.order._for_user(told)
    return known.symbols
