"""The replies that a user may get, by the reference. If replies were lost, it is unknown which of their commands were done."""
import copy
import io
import sys
from typing import Iterator, Sequence

from keep_trials.keeper import TOP, Quota

sys.path.append(str(TOP / "conformance"))
from reference import User, replies_to  # noqa: E402

NAMES = ("a", "b", "c_-9")
# Commands that show the state of a user.
QUESTIONS = [b"LIST\n", *(f"{verb} {name}\n".encode() for name in NAMES for verb in ("LIST", "MEASURE", "DUMP"))]


class Wrong(Exception):
    """A reply that is not possible."""


class Account:
    """The possible states of a user: one, or several after lost replies until other replies show which it is."""

    def __init__(self, quota: Quota):
        self._states = [User(quota)]

    def hear(self, item: bytes, reply: bytes) -> None:
        """Takes the reply to an item. Raises `Wrong` if it fits no state."""
        replies = [next(replies_to(io.BytesIO(item), state)) for state in self._states]
        self._states = [state for state, each in zip(self._states, replies) if each == reply]
        if not self._states:
            raise Wrong(f"{reply[:200]!r} to {item[:200]!r}, and not {replies[0][:200]!r}")

    def lose(self, items: Sequence[bytes]) -> None:
        """Replies to items were lost: all items were done, or the first ones, or none."""
        states = (each for state in self._states for each in states_after(state, items))
        self._states = [*{known(state): state for state in states}.values()]


def known(state: User) -> str:
    """All data of a user, by which states are distinguished."""
    rows = [(name, each.edge, each.symbols, each.atoms, each.sim, each.saved) for name, each in state.sessions.items()]
    return repr(rows)


def states_after(state: User, items: Sequence[bytes]) -> Iterator[User]:
    """A state, and those after the first item, the second, and so on."""
    yield state
    for item in items:
        state = copy.deepcopy(state)
        next(replies_to(io.BytesIO(item), state))
        yield state
