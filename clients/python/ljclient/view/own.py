"""The sessions of a user at a server, from any connection. All pages of the user share them."""
from __future__ import annotations

import contextlib
import itertools
from typing import Callable, Dict, List, Optional

from .. import ClientError, Scale, User, box
from ..errors import Refused
from ..frames import RING_EDGE
from ..units import MAX_STEP_FACTOR, RING
from .stage import Stage
from .wishes import Answer, Wish

# The prefix of sessions loaded by the view.
PREFIX = "view-"
FAULT = f"edge and sigma must be numbers, sigma below a fifth of the edge, and h a whole number from 1 to {MAX_STEP_FACTOR}"


class Unknown(Exception):
    """The scale of a session is not known.

    edge  the edge of its box, to the digits that its atoms show
    why   what is wrong with the given scale, if one was given
    """

    def __init__(self, name: str, edge: str, why: str = ""):
        super().__init__(name, edge, why)
        self.name, self.edge, self.why = name, edge, why

    def asks(self) -> Answer:
        """The question for a page."""
        return {"asks": "scale", "session": self.name, "edge": self.edge, "why": self.why}


class OwnSessions:
    """The sessions of a user, each with the pages that show it.

    edge      the edge of the boxes, if the command line gives it
    scale_of  makes the scale of a box from its edge, if the command line gives a scale
    """

    def __init__(self, edge: Optional[float], scale_of: Optional[Callable[[float], Scale]]):
        self._edge = edge
        self._scale_of = scale_of
        self._numbers = itertools.count(1)
        self._stages: Dict[str, Stage] = {}
        self._watched: Dict[str, int] = {}
        self._left: List[Stage] = []  # sessions that no page shows any more, but that still have saved data

    def names(self, user: User) -> List[str]:
        """The sessions of the user, in order of loading."""
        names = [line.split(" ")[0] for line in user.ask("LIST").lines]
        return [name for name in names if not name.startswith(PREFIX)]

    def stage(self, user: User, name: str, wish: Wish) -> Stage:
        """The session of this name, for one more page. Raises `Unknown` if its scale is not known, or is wrong."""
        if name not in self._stages or self._stages[name].is_lost:
            seen = box.seen_atom(user, name)
            is_exact = seen.fits(RING_EDGE)
            edge = RING_EDGE if is_exact else seen.edge()
            scale = self._said(name, edge, wish)
            if not seen.fits(scale.edge):
                raise Unknown(name, edge, f"edge must be that of the box of {name}, about {edge}, got {scale.edge:.10g}")
            stage = Stage(user, name, scale, is_exact, f"{PREFIX}own-{next(self._numbers)}", is_own=True)
            self._left = [stage, *(other for other in self._left if other.name != name)]  # until a page shows it
            stage.begin()
            self._left.remove(stage)
            self._stages[name] = stage
        self._watched[name] = self._watched.get(name, 0) + 1
        return self._stages[name]

    def leave(self, user: User, name: str) -> None:
        """Counts one page less for a session. After the last one, what was saved for pages is deleted, now or, if that fails, later."""
        self._watched[name] -= 1
        if self._watched[name] == 0:
            self._left.append(self._stages.pop(name))
            with contextlib.suppress(ClientError):
                self.give_up(user)

    def give_up(self, user: User) -> None:
        """Deletes what was saved for pages that are gone. If the connection ends meanwhile, the rest is left for later."""
        while self._left:
            with contextlib.suppress(Refused):
                self._left[-1].leave(user)
            self._left.pop()

    def left(self) -> List[str]:
        """The sessions in which saved data is still to be deleted."""
        return [stage.name for stage in self._left]

    def _said(self, name: str, edge: str, wish: Wish) -> Scale:
        """The scale from the page, or else from the command line."""
        words = [wish.get(word) for word in ("edge", "sigma", "h")]
        try:
            if words != [None] * 3:
                edge_said, sigma, h = (str(word).strip() for word in words)
                scale = Scale.of(edge_said, sigma, int(h))
            elif self._scale_of is not None:
                scale = self._scale_of(float(edge) if self._edge is None else self._edge)
            else:
                raise Unknown(name, edge)
        except (TypeError, ValueError):
            raise Unknown(name, edge, FAULT) from None
        if not (0 < scale.sigma_on_ring < RING // 5 and 0 < scale.h <= MAX_STEP_FACTOR):
            raise Unknown(name, edge, FAULT)
        return scale
