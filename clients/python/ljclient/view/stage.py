"""One session as pages show it: their requests and the answers.

Each answer has the frame as it is then. Steps are the server's, and the direction says whether they count up or down.
"""
from __future__ import annotations

from typing import Any, Callable, Dict, List, NamedTuple, Tuple

from .. import ClientError, Measurement, Scale, User, arrays, frames
from ..guards import look
from ..refusals import NoSession
from ..replies import whole_number, whole_numbers
from ..units import RING
from .scenes import edge_in_sigma
from .second import SecondRun
from .wishes import Answer, Wish, is_whole, number_in, shown

MAX_STEPS = 1000
MAX_TUG = (1 << 31) - 1
START, KEPT = "view-start", "view-kept"
NAMES = {START: "start", KEPT: "kept"}
MILLION = 10**6
METRES_PER_SECOND = 1e5  # in an angstrom per femtosecond


class Lost(ClientError):
    """The session is gone, or another one has its name."""


class Moment(NamedTuple):
    """A step, and the direction in which steps count there."""

    step: int
    direction: int


class Motion(NamedTuple):
    """The places of all atoms at a step, and one step before, in ring units. Together they are the simulation."""

    places: List[Any]
    before: List[Any]

    def same(self, other: "Motion") -> Tuple[int, int]:
        """How many atoms have the same places in another motion, and how many of these also had the same places one step before."""
        stays = [one == their for one, their in zip(self.places, other.places)]
        return sum(stays), sum(stay and one == their for stay, one, their in zip(stays, self.before, other.before))


class Stage:
    """A session of a user, as pages show it.

    name      of the session
    scale     what its whole numbers mean
    is_exact  whether DUMP shows its places exactly
    second    the name of a second run beside it
    is_own    whether somebody else has loaded it
    """

    def __init__(self, user: User, name: str, scale: Scale, is_exact: bool, second: str, is_own: bool = False):
        self.name = name
        self.scale = scale
        self.is_lost = False
        self._is_exact = is_exact
        self._is_own = is_own
        self._second = SecondRun(name, second)
        self._user = user
        self._motions: Dict[str, Motion] = {}
        self._saved: Dict[str, Moment] = {}
        self._now = Moment(0, 1)
        self._acts: Dict[str, Callable[[Wish], Answer]] = {
            "frame": lambda wish: self.advance(number_in(wish, "steps", 0, MAX_STEPS)),
            "reverse": lambda _: self.reverse(),
            "tug": lambda wish: self.tug(number_in(wish, "atom", 0, len(self._motions[START].places) - 1), wish.get("by")),
            "save": lambda _: self.save(KEPT),
            "restore": lambda _: self.restore(KEPT),
            "restart": lambda _: self.restore(START),
            "exact": lambda _: self.compare(),
            "speeds": lambda _: self.both(),
            "second": lambda wish: self.begin_second() if wish.get("on") is True else self.end_second(),
        }

    @property
    def is_renumbered(self) -> bool:
        """Whether somebody else has loaded it in the box in which the client renumbers atoms, as with `order="space"`."""
        return self._is_own and self._is_exact

    def begin(self) -> None:
        """Finds the session, and saves it as the start for pages."""
        self._now = self._found(self._user)
        self.save(START)

    def answer(self, user: User, wish: Wish) -> Answer:
        """The answer to a wish of a page. A wish that fails changes nothing, and raises ClientError or ValueError."""
        act = self._acts.get(str(wish.get("do")))
        if act is None:
            raise ValueError(f"do must be one of {', '.join(self._acts)}, got {shown(wish.get('do'))}")
        jumped = self._take_up(user)
        return {**act(wish), **jumped}

    def shown(self, user: User) -> Answer:
        """The first answer for a page: the present frame, and the properties of the session."""
        self._take_up(user)
        return {**self.advance(0), "likeness": self._likeness()}

    def leave(self, user: User) -> None:
        """Deletes what was saved for the pages, and drops the second run. Raises NoSession if the session is gone."""
        self._second.end(user)
        self._user = user
        user.ask_all(f"FORGET {self.name} {name}" for name in self._left())

    def advance(self, steps: int) -> Answer:
        """Advances by so many steps, in the present direction of time."""
        frame = self._frame(*self._second.goes_on(steps), f"ADVANCE {self.name} {steps}")
        return {**frame, **self._when(self._now.direction)}

    def reverse(self) -> Answer:
        """Turns the motion back. This exchanges the two frames, and so goes back by one step."""
        frame = self._frame(*self._second.turns(), f"REVERSE {self.name}")
        return {**frame, **self._when(-self._now.direction)}

    def tug(self, atom: int, by: Any) -> Answer:
        """Adds so many ring units per step to the velocity of an atom, along x, y and z."""
        if not (isinstance(by, list) and len(by) == 3 and all(is_whole(part, -MAX_TUG, MAX_TUG) for part in by)):
            raise ValueError(f"by must be three whole numbers of ring units, up to {MAX_TUG} either way, got {shown(by)}")
        x, y, z = by
        return {**self._frame(f"TUG {self.name} {atom} {x} {y} {z}"), **self._when(self._now.direction)}

    def save(self, name: str) -> Answer:
        """Saves the simulation, in place of an earlier one of this name."""
        frees = [f"FORGET {self.name} {name}"] if name in self._left() else []
        frame = self._frame(*frees, f"BRANCH {self.name} {name}")
        self._motions[name] = self._motion()
        self._saved[name] = self._now
        return {**frame, **self._when(self._now.direction)}

    def restore(self, name: str) -> Answer:
        """Restores what was saved. A second run ends."""
        if name not in self._saved:
            raise ValueError("cannot restore: nothing is saved yet; use Save first")
        self._second.end(self._user)
        frame = self._frame(f"RESTORE {self.name} {name}")
        return {**frame, **self._when(self._saved[name].direction), "jumped": True}

    def compare(self) -> Answer:
        """How many atoms have exactly the places of the start, and of the saved simulation; how many of these also move as they did
        then; and whether the motion was turned back to compare."""
        direction = self._now.direction
        turned = {name: self._saved[name].direction != direction for name in self._motions}
        motions = {is_turned: self._motion(is_turned) for is_turned in set(turned.values())}
        found = {NAMES[name]: motions[turned[name]].same(then) for name, then in self._motions.items()}
        told = {"same": {name: same for name, (same, _) in found.items()}, "moves": {name: moves for name, (_, moves) in found.items()}}
        told["turned"] = {NAMES[name]: is_turned for name, is_turned in turned.items()}
        return {**told, "atoms": len(self._motions[START].places), **self._when(direction)}

    def both(self) -> Answer:
        """The places now and one step before, for speeds. For this the motion is turned back, and then restored."""
        dump = f"DUMP {self.name}"
        with look(self._user, self.name, 3) as way:
            now, _, before, *_ = self._user.ask_all([dump, f"REVERSE {self.name}", dump, *way.turned, *way.end])
        return {"now": "\n".join(now.lines[2:]), "before": "\n".join(before.lines[2:])}

    def begin_second(self) -> Answer:
        """Begins a second run beside this one, in place of an earlier one."""
        symbols = [line.split(" ")[0] for line in self._user.ask(f"DUMP {self.name}").lines[2:]]
        if self._is_own and len(set(symbols)) > 1:
            raise ValueError("cannot begin a second run: the atoms are of two species, and the server does not tell how these interact")
        self._second.begin(self._user, self.scale, symbols, self._is_exact)
        return self.advance(0)

    def end_second_of(self, user: User) -> None:
        """Drops the second run, since the session itself will be dropped."""
        self._second.end(user)

    def end_second(self) -> Answer:
        """Drops the second run."""
        self._second.end(self._user)
        return self.advance(0)

    def _motion(self, is_turned: bool = False) -> Motion:
        """The exact motion, or with `is_turned` the motion turned back, whose previous frame is the present next frame."""
        user, name = self._user, self.name
        atoms = None if self._is_exact else user._row(name).atoms
        if is_turned:
            told = frames.three_dumped(user, name) if atoms is None else frames.three_shown(user, name, atoms)
            _, now, before = told
        else:
            now, before = frames.both_dumped(user, name) if atoms is None else frames.both_shown(user, name, atoms)
        return Motion(arrays.listed(now.places), arrays.listed(before.places))

    def _frame(self, *commands: str) -> Answer:
        """All places and the measurement after these commands, in one batch of requests."""
        shows = [f"DUMP {self.name}", f"MEASURE {self.name}", *self._second.shown()]
        dumped, measured, *second = self._user.ask_all([*commands, *shows])[len(commands) :]
        step, atoms, x, y, z, kinetic, potential = whole_numbers(measured.words[2:], 7)
        told = Measurement(step, atoms, (x, y, z), kinetic, potential, self.scale)
        self._now = self._now._replace(step=step)
        return {
            "atoms": "\n".join(dumped.lines[2:]),
            "kinetic": told.kinetic_energy / atoms,
            "potential": told.potential_energy / atoms,
            "temperature": told.temperature,
            **self._second.told(second[0].lines if second else None),
        }

    def _when(self, direction: int) -> Answer:
        """The step, this direction of time, whether the step is before the start, and the step of the saved simulation."""
        self._now = self._now._replace(direction=direction)
        start, saved = self._saved[START], self._saved.get(KEPT)
        is_before = (self._now.step - start.step) * start.direction < 0
        return {"step": self._now.step, "direction": direction, "before": is_before, "saved": saved and saved.step}

    def _take_up(self, user: User) -> Answer:
        """Finds the session again over another connection. Somebody else may have advanced it meanwhile."""
        if user is self._user and not self.is_lost:
            return {}
        self._user = user
        self.is_lost = True
        self._second.end(user)
        self._now = self._found(user)
        left = self._left()
        if START not in left:
            raise Lost(f"cannot go on with {self.name}: it was loaded again; choose it again")
        self._saved = {name: moment for name, moment in self._saved.items() if name in left}
        self._motions = {name: motion for name, motion in self._motions.items() if name in left}
        self.is_lost = False
        return {"jumped": True}

    def _found(self, user: User) -> Moment:
        """The step and the direction of the session. For the direction the motion is turned back, and then restored."""
        try:
            with look(user, self.name, 1) as way:
                turned, back, *_ = user.ask_all([f"REVERSE {self.name}", *way.turned, *way.end])
            before, now = whole_number(turned.words[-1]), whole_number(back.words[-1])
        except NoSession:
            raise Lost(f"cannot go on with {self.name}: the server no longer has it; choose other atoms") from None
        return Moment(now, now - before)

    def _left(self) -> List[str]:
        """The names of the branches of pages that the session has."""
        lines = self._user.ask(f"LIST {self.name}").lines
        return [line.split(" ")[0] for line in lines if line.split(" ")[0] in NAMES]

    def _likeness(self) -> Answer:
        """What a page must know about the session, to draw it and to tug its atoms."""
        scale = self.scale
        return {
            "start": self._saved[START].step,
            "edge": edge_in_sigma(scale),
            "sigma": scale.sigma_on_ring,
            "unit": MILLION if self._is_exact else RING / scale.edge,
            "exact": self._is_exact,
            "reduced_dt": scale.reduced_dt,
            "dt": scale.dt,
            "speed": None if scale.dt is None else scale.sigma * scale.reduced_dt / scale.dt * METRES_PER_SECOND,
            "in_kelvin": scale.epsilon is not None,
        }
