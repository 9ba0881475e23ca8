"""Atoms that are kept in spatial order while their session advances."""
from __future__ import annotations

import contextlib
from dataclasses import replace
from typing import TYPE_CHECKING, Optional, Sequence

from .guards import NO_PLACE, branches_of, turning
from .order import Doubt, Order, Place, sorted_anew
from .stepping import UNBOUNDED
from .tugs import tugs_of

if TYPE_CHECKING:
    from .loading import Loader

RESORTED_EACH = 250


def resort(loader: "Loader", name: str) -> None:
    """Sorts the atoms of a session in space at the server. Each number there gets the places of another atom by tugs, and the
    motion is reversed between them. The session exists all the time, and `known` has its order. The reads for it are not recorded.

    Raises a refusal of `guards.NO_PLACE`, and changes nothing, if there is no room to save the session first.
    """
    with loader.unrecorded(name):
        state = loader._state_of(name)
    known, old = loader._known_of(name), loader._known_of(name).order
    new = replace(old, numbers=sorted_anew(state.places, state.symbols, old))
    doubt = _doubt(state.places, old, new)
    if doubt is None:
        return
    turn = f"REVERSE {name}"
    before, places = (tugs_of(name, Order(), old._for_server(frame), new._for_server(frame)) for frame in (state.before, state.places))
    lines = [*before, turn, *places, turn]
    with turning(loader, name, len(lines)) as end:
        known.order = replace(old, doubt=doubt)
        loader._ask_rows([*lines, *end])
        known.order = new


def _doubt(places: Sequence[Place], old: Order, new: Order) -> Optional[Doubt]:
    """What distinguishes the new order from the old one: a number of the server whose atoms have different places. None if no
    atom changes its number."""
    for number, (here, other) in enumerate(zip(old._for_server(places), new._for_server(places))):
        if here != other and new.numbers is not None:
            return Doubt(new.numbers, number, _place(here), _place(other))
    return None


def _place(parts: Sequence[int]) -> Place:
    x, y, z = parts
    return x, y, z


class Resorting:
    """Sorts the atoms of a session again every 250 steps, if they are kept in spatial order, and counts its steps."""

    def __init__(self, loader: "Loader", name: str):
        self._loader = loader
        self._name = name

    def ready(self) -> int:
        """Prepares the session to advance, and returns the number of steps that it may make until the next call.

        While something is saved by `branch`, or if the quota has no room for a branch, the atoms are left as they are.
        """
        known = self._loader._known_of(self._name)
        if not known.is_sorted:
            return UNBOUNDED
        if known.gone >= RESORTED_EACH:
            known.gone = 0
            if not branches_of(self._loader, self._name):
                with contextlib.suppress(*NO_PLACE):
                    self._loader._resort(self._name)
        return RESORTED_EACH - self._loader._known_of(self._name).gone

    def made(self, steps: int, step: int) -> int:
        """Counts steps that were made or started, and returns the user's number of the server's step."""
        known = self._loader._known_of(self._name)
        known.gone += steps
        known.is_started = False
        return known.order.step_of(step)
