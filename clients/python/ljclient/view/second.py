"""A second run beside a session: the same simulation, but one atom has a first velocity that differs by one ring unit per step."""
from __future__ import annotations

import contextlib
from typing import List, Optional

from .. import Scale, User, arrays, frames
from ..errors import Refused
from ..order import Order
from ..refusals import NoSession
from ..state import State
from .wishes import Answer

ATOM = 0


class SecondRun:
    """The second run of a session, if there is one.

    first  the name of the session
    name   the name of the second run
    """

    def __init__(self, first: str, name: str):
        self.first = first
        self.name = name
        self.is_there = False

    def begin(self, user: User, scale: Scale, symbols: List[str], is_exact: bool) -> None:
        """Loads the present simulation of the first session, and tugs one atom by the least amount."""
        both = frames.both_dumped(user, self.first) if is_exact else frames.both_shown(user, self.first, len(symbols))
        places, before = (arrays.listed(frame.places) for frame in both)
        state = State(self.name, scale, None, 0, 1, symbols, places, before)
        self.end(user)
        self.is_there = True  # even if no reply comes
        try:
            user._ask_commands([state.command(Order()), (f"TUG {self.name} {ATOM} 1 0 0", b"")])
        except Refused:
            self.is_there = False
            raise

    def end(self, user: User) -> None:
        """Drops the second run. Another connection may have done so already."""
        if self.is_there:
            with contextlib.suppress(NoSession):
                user.ask(f"DROP {self.name}")
            self.is_there = False

    def goes_on(self, steps: int) -> List[str]:
        """The commands that advance it while the first session advances."""
        return [f"START {self.name} {steps}"] if self.is_there else []

    def turns(self) -> List[str]:
        """The commands that turn its motion back."""
        return [f"REVERSE {self.name}"] if self.is_there else []

    def shown(self) -> List[str]:
        """The commands that read its atoms."""
        return [f"DUMP {self.name}"] if self.is_there else []

    def told(self, lines: Optional[List[str]]) -> Answer:
        """Its atoms, for a page."""
        return {} if lines is None else {"second": "\n".join(lines[2:])}
