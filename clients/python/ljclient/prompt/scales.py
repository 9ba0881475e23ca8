"""The scales of a user's sessions at a server, kept on this machine's disk from one connection to the next.

Each is a `.scale` file in the client's folder of notes (`disk_notes`). The server reports no scale, so a session that somebody else has
loaded again would be shown with a wrong one. So a note holds only as long as LIST shows the session as it was left: with the same
number of atoms, at the same step, and not after a session that was loaded later.
"""
from __future__ import annotations

import contextlib
import dataclasses
import json
from typing import Any, Dict, List, Optional, Protocol, Sequence, Tuple

from ..disk_notes import Owned, made_folder
from ..files import write_whole
from ..mixture import Mixture
from ..order import Order
from ..replies import Row
from ..state import Known
from ..units import Scale
from ..user import User
from .loading import Fault

FORMAT = "ljclient scale 1"
ENDING = ".scale"
# The limit of steps in a note elsewhere: that place itself knows whether the session is the same.
ANY_STEP = 10**18


class Elsewhere(Protocol):
    """Another place that stores scales, each until its session is loaded again."""

    def keep_scale(self, session: str, text: str) -> None:
        """Stores the scale of a session."""

    def scale_of(self, session: str) -> Optional[str]:
        """The stored scale of a session."""


@dataclasses.dataclass(frozen=True)
class Left:
    """What is known of a session, and what LIST showed of it when it was left.

    scale, mixture  as in `Known`
    order           how steps and direction relate to the server's, and whether the box shows each ring unit
    atoms           how many atoms it had
    low, high       the range of the server's step when it was left
    before          the names of the sessions that were loaded before it
    """

    scale: Scale
    mixture: Optional[Mixture]
    order: Order
    atoms: int
    low: int
    high: int
    before: Sequence[str]

    def why_not(self, row: Row, before: Sequence[str]) -> str:
        """Why a session in LIST is not the one that was left. Empty if it may be the same."""
        if row.atoms != self.atoms:
            return f"has {row.atoms} atoms and had {self.atoms}"
        if not self.low <= row.step <= self.high:
            return f"is at the server's step {row.step} and was left at {self.high}"
        if later := sorted(set(before) - set(self.before)):
            return f"was loaded after {later[0]}, and before it when this prompt saw it last"
        return ""

    def said(self) -> str:
        """The words that set this scale."""
        scale = self.scale
        words = [f"edge={scale.edge!r}", f"sigma={scale.sigma!r}", f"h={scale.h}"]
        words += [] if scale.epsilon is None else [f"epsilon={scale.epsilon!r}eV"]
        return " ".join(words if scale.mass is None else [*words, f"mass={scale.mass!r}u"])


class Memory:
    """Notes the scales of a user's sessions at a server, over one connection."""

    def __init__(self, user: User, elsewhere: Optional[Elsewhere] = None):
        self._user, self._elsewhere = user, elsewhere
        self._rows: Dict[str, Sequence[Row]] = {}
        self._kept: Dict[str, Tuple[Any, ...]] = {}
        self._kept_elsewhere: Dict[str, Tuple[Any, ...]] = {}

    def keep(self, name: str, step: Optional[int], going: int = 0) -> None:
        """Notes the scale of a session that is at this step of the server, or will be at most `going` steps from there.

        There is no note if the disk cannot be written."""
        known = self._user._known_of(name)
        told = (known.scale, known.mixture, known.order, step, going)
        if self._user.name is None or self._user.closed or known.scale is None or known.order.numbers is not None or step is None:
            return
        if told == self._kept.get(name):
            return
        if name not in self._rows:
            self._rows[name] = self._user.sessions()
        rows = self._rows[name]
        names = [row.name for row in rows]
        if name in names:
            self._kept[name] = told
            at = names.index(name)
            _write(self._user, name, text_of(known, [rows[at].atoms, step - going, step + going], names[:at]))
            if self._elsewhere is not None and self._kept_elsewhere.get(name) != told[:3]:
                self._kept_elsewhere[name] = told[:3]
                self._elsewhere.keep_scale(name, text_of(known, [rows[at].atoms, -ANY_STEP, ANY_STEP], names[:at]))

    def take_up(self, name: str) -> List[str]:
        """Sets the scale of a session from its note, in another place or here. Returns a message if the note does not fit."""
        return take_up(self._user, name, self._elsewhere)

    def forget(self, name: str) -> None:
        """Deletes the note of a session that is gone, or loaded again."""
        self._rows.pop(name, None)
        self._kept.pop(name, None)
        self._kept_elsewhere.pop(name, None)
        forget(self._user, name)


def text_of(known: Known, left: Sequence[int], before: Sequence[str]) -> str:
    """The note of a session."""
    order = known.order
    scale, mixture = (None if each is None else dataclasses.asdict(each) for each in (known.scale, known.mixture))
    told = {"format": FORMAT, "scale": scale, "mixture": mixture, "left": left, "before": before}
    told["order"] = [order.step, order.direction, order.on_ring]
    return json.dumps(told)


def _write(user: User, name: str, text: str) -> None:
    with contextlib.suppress(OSError, ValueError):
        made_folder()
        write_whole(_owned(user, name).path(ENDING), text.encode())


def forget(user: User, name: str) -> None:
    """Deletes the note of a session that is gone."""
    if user.name is not None:
        with contextlib.suppress(OSError):
            _owned(user, name).path(ENDING).unlink()


def read(user: User, name: str) -> Optional[Left]:
    """The note of a session. None if there is no note, or if the file is another one."""
    if user.name is None:
        return None
    try:
        return left_of(_owned(user, name).path(ENDING).read_text())
    except OSError:
        return None


def left_of(text: str) -> Optional[Left]:
    """The contents of a note. None if it is not one."""
    try:
        told: Dict[str, Any] = json.loads(text)
        if told["format"] != FORMAT:
            return None
        atoms, low, high = map(int, told["left"])
        step, direction, on_ring = told["order"]
        before = [str(each) for each in told["before"]]
        return Left(
            _scale(told["scale"]), _mixture(told["mixture"]), Order(None, int(step), direction, bool(on_ring)), atoms, low, high, before
        )
    except (ValueError, TypeError, KeyError, AttributeError, RecursionError):
        return None


def take_up(user: User, name: str, elsewhere: Optional[Elsewhere] = None) -> List[str]:
    """Sets the scale of a session from its note, if it may be the same session. Returns a message if not.

    The edge is checked at the server, which takes a DUMP and a SHOW.
    """
    if user._known_of(name).scale is not None:
        return []
    text = elsewhere and elsewhere.scale_of(name)
    left = (left_of(text) if text else None) or read(user, name)
    if left is None:
        return []
    rows = user.sessions()
    names = [row.name for row in rows]
    if name not in names:
        return []
    at = names.index(name)
    why = left.why_not(rows[at], names[:at])
    if not why:
        try:
            scale = left.scale
            user.session(name, edge=scale.edge, sigma=scale.sigma, h=scale.h, epsilon=scale.epsilon, mass=scale.mass, order=left.order)
            _know(user._known_of(name), left)
            return []
        except ValueError as error:
            why = str(error)
    forget(user, name)
    return [f"{name} {why}, so its scale is not taken from the last time; if it is the same session, use `scale {name} {left.said()}`"]


def checked(user: User, name: str) -> Scale:
    """The scale of a session. Raises Fault, which says how to set it, if it is not known."""
    scale = user._known_of(name).scale
    if scale is None:
        user._row(name)
        raise Fault(f"the scale of {name} must be known here; use `scale {name} edge=21.04 dt=2fs argon`, or its own numbers")
    return scale


def _know(known: Known, left: Left) -> None:
    known.scale, known.mixture = left.scale, left.mixture


def _owned(user: User, name: str) -> Owned:
    return Owned(user.address, user.name or "", name)


def _scale(told: Dict[str, Any]) -> Scale:
    """The scale in a note. Raises ValueError or TypeError for other values."""
    scale = Scale(**told)
    numbers = [scale.edge, scale.sigma, *(each for each in (scale.epsilon, scale.mass) if each is not None)]
    wholes = [scale.h, scale.sigma_on_ring, scale.weight]
    if not all(0 < each < float("inf") for each in numbers) or not all(type(each) is int and each > 0 for each in wholes):
        raise ValueError("a scale must have numbers above 0")
    return scale


def _mixture(told: Optional[Dict[str, Any]]) -> Optional[Mixture]:
    """The mixture in a note."""
    if told is None:
        return None
    first, second = told["species"]
    return Mixture((str(first), str(second)), tuple(_scale(each) for each in told["classes"]), str(told["words"]))
