"""The box in which the server has a session: the user's box, or the one that shows each ring unit.

Another connection may have loaded the session, and no command returns its edge. But SHOW returns the place of an atom and
DUMP its coordinates, and these two give the edge.
"""
from __future__ import annotations

from dataclasses import replace
from typing import TYPE_CHECKING, NamedTuple, Optional, Sequence, Tuple, Union

from . import arrays, frames
from .errors import BadReply
from .frames import MILLION, RING_EDGE
from .order import Order, Place
from .scalars import checked_positive, nano
from .units import RING, Number, Scale
from .warning import warn_caller

if TYPE_CHECKING:
    from .loading import Loader


class Seen(NamedTuple):
    """An atom at the server: its place from SHOW, and its coordinates in millionths from DUMP."""

    place: Place
    dumped: Tuple[int, ...]

    def fits(self, edge: Number) -> bool:
        """Whether DUMP would give these coordinates in a box of this edge."""
        nanos = nano(edge)
        return tuple(arrays.part_in_box(part, nanos) for part in self.place) == self.dumped

    def edge(self) -> str:
        """The edge of the box, with as many digits as are known. The atom must not be at 0, where any edge fits."""
        dumped = max(self.dumped)
        edge = (dumped + 0.5) / MILLION * RING / max(self.place)
        return f"{float(f'{edge:.{max(1, len(str(dumped)) - 1)}g}'):.12g}"


def take_up(user: "Loader", name: str, scale: Optional[Scale], order: Union[Order, Sequence[int], None]) -> None:
    """Stores the scale and the order given for a session at the server, and the box in which the server has it.

    The box is determined if an edge is given that is not known yet, or an order of the box that shows each ring unit.
    Raises ValueError, and changes nothing, if the server has the session in another box than these.
    """
    known = user._known_of(name)
    said = certain(user, name, known.order if order is None else Order.of(order))
    on_ring, is_open = known.order.on_ring, known.is_box_open
    edge = None if scale is None else checked_positive("edge", scale.edge)
    is_new = edge is not None and (is_open or known.scale is None or known.scale.edge != edge)
    if not on_ring and said.on_ring:
        on_ring = checked_ring(name, seen_atom(user, name))
    elif not on_ring and is_new and edge is not None:
        on_ring, is_open = box_of(name, seen_atom(user, name), edge)
        if on_ring:
            warn_of_numbers(name, said)
    if scale is not None:
        known.scale, known.mixture = scale, None
    if order is not None:
        known.order, known.symbols, known.branches = said, (), {}
    known.set_box(on_ring, is_open)


def certain(user: "Loader", name: str, order: Order) -> Order:
    """An order whose doubt is resolved by the place of an atom. Raises ValueError if neither order fits."""
    doubt = order.doubt
    if doubt is None:
        return order
    place = frames.place(user, name, doubt.number)
    if place == doubt.place:
        return replace(order, doubt=None)
    if place == doubt.other:
        return replace(order, numbers=doubt.numbers, doubt=None)
    raise ValueError(f"cannot tell the order of {name}: a connection was lost while it was sorted, and it has gone on since; load it again")


def settle(user: "Loader", name: str) -> None:
    """Determines the box of a session again, if it is still open."""
    known = user._known_of(name)
    if known.is_box_open:
        take_up(user, name, known.scale, None)


def checked_ring(name: str, seen: Seen) -> bool:
    """True if an atom is in the box that shows each ring unit, as its order says; else raises ValueError."""
    if not seen.fits(RING_EDGE):
        raise ValueError(
            f"the order must be one of a box whose edge is about {seen.edge()} at the server, as that of {name} is, got {RING_EDGE}; "
            f"use the `order` that the session has now"
        )
    return True


def box_of(name: str, seen: Seen, edge: float) -> Tuple[bool, bool]:
    """Whether an atom is in the box that shows each ring unit, and whether this is open because a box of this edge fits too.

    As long as it is open, the whole frame has the same coordinates in both boxes.
    """
    fits = seen.fits(edge)
    on_ring = seen.fits(RING_EDGE) and nano(edge) != nano(RING_EDGE)
    if not fits and not on_ring:
        text = f"edge must be that of the box of {name}, about {seen.edge()} at the server, got {edge!r}"
        raise ValueError(f"{text}; use the edge that it was loaded with")
    return on_ring and not fits, on_ring and fits


def warn_of_numbers(name: str, said: Order) -> None:
    """Warns that numbers are the server's, unless an order gives the user's."""
    if (said.step, said.direction) != (0, 1):
        return
    what = "steps" if said.numbers else "atoms and steps"
    warn_caller(
        f"{name} is in a box whose edge is {RING_EDGE} at the server, as it is after load_saved, order='space' or resort. "
        f"So its {what} have the server's numbers here; user.session(.., order=..) takes what session.order told elsewhere"
    )


def seen_atom(user: "Loader", name: str) -> Seen:
    """The atom with the greatest coordinate, which gives the edge most exactly.

    Both commands are for the same step: DUMP waits for the steps that were started, and SHOW comes after it.
    """
    _, positions = frames.dumped_positions(user, name)
    dumped = arrays.listed(arrays.millionths(positions))
    user._known_of(name).n_atoms = len(dumped)
    greatest = [max(coordinates) for coordinates in dumped]
    atom = greatest.index(max(greatest))
    seen = Seen(frames.place(user, name, atom), tuple(dumped[atom]))
    if max(seen.dumped) > 0 == max(seen.place):
        raise BadReply(f"atom {atom} of {name} is shown at 0 and dumped elsewhere")
    return seen
