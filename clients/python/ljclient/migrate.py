"""Sessions that move to another program, with their saved states.

A session has one LOAD, and its saved states are lost with it. So a session with saved states is loaded as the first of them,
and changed to each other one by tugs: a tug moves an atom's place one step before, and REVERSE exchanges both frames.
"""
from __future__ import annotations

from dataclasses import dataclass, replace
from typing import TYPE_CHECKING, Callable, Dict, List, Optional, Sequence

from .errors import ClientError
from .order import Order
from .state import Command, State, commands_of_state
from .tugs import tugs_of
from .wire import Wire

if TYPE_CHECKING:
    from .loading import Loader


@dataclass(frozen=True)
class Kept:
    """A session with its saved states.

    now    its state
    saved  the saved states by their names, in order of saving
    order  the order in which the server has its atoms
    """

    now: State
    saved: Dict[str, State]
    order: Order

    def commands(self) -> List[Command]:
        """The commands that load it in another program."""
        states, name = [*self.saved.values(), self.now], self.now.name
        commands = [states[0].command(self.order)]
        for branch, state, following in zip(self.saved, states, states[1:]):
            commands += [(f"BRANCH {name} {branch}", b""), *changes(state, following, self.order)]
        return commands

    def tell(self, loader: "Loader") -> None:
        """Records that these commands were done."""
        known = loader._known_of(self.now.name)
        known.order = self.now.order_of(self.order)
        known.branches = {branch: state.order_of(self.order) for branch, state in self.saved.items()}

    def put_back(self, loader: "Loader") -> None:
        """Restores the session that was read, by tugs too. The server's step numbers continue from the last saved state."""
        for last in list(self.saved.values())[-1:]:
            loader._ask_commands(changes(last, self.now, self.order))
            known, now = loader._known_of(self.now.name), self.now
            step = known.order.direction * (last.step - known.order.step)
            direction = known.order.direction * last.direction * now.direction
            known.order = replace(known.order, step=now.step - direction * step, direction=direction)


def most_commands(atoms: int, branches: int) -> int:
    """The greatest number of commands to read a session, or to load it, with its saved states."""
    return (branches + 1) * (commands_of_state(atoms) + 2)


def kept_of(loader: "Loader", name: str) -> Kept:
    """A session with its saved states. It is left in the last saved state, if any, until `put_back`."""
    now, saved = loader._state_of(name), {}
    for branch in [line.split(" ")[0] for line in loader.ask(f"LIST {name}").lines]:
        loader._restore(name, branch)
        saved[branch] = loader._state_of(name)
    return Kept(now, saved, Order(loader._known_of(name).order.numbers))


def program_with(restart: Callable[[], Wire], sessions: Sequence[Kept]) -> Optional[Wire]:
    """A new program that has these sessions. None if it does not start, or does not accept them."""
    try:
        wire = restart()
    except ClientError:
        return None
    try:
        wire.ask_all([command for each in sessions for command in each.commands()])
    except ClientError:
        wire.close()
        return None
    return wire


def changes(state: State, other: State, order: Order) -> List[Command]:
    """The commands that give a session of one state the frames of the other. They leave its step number as it is."""
    turn = f"REVERSE {state.name}"
    before = tugs_of(state.name, order, state.before, other.before)
    lines = [*before, turn, *tugs_of(state.name, order, state.places, other.places), turn]
    return [(line, b"") for line in lines]
