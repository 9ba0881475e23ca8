"""Commands in the words of physics, such as `heat argon 60K`: each sends commands of the protocol, which are shown."""
from __future__ import annotations

import contextlib
import os
from itertools import groupby
from typing import Callable, Dict, List, Optional, Protocol, Sequence, Tuple

from .. import checkpoint
from ..arrays import distance
from ..errors import ClientError, Refused
from ..interrupts import held
from ..names import NAME
from ..recording import Listener
from ..session import Session
from ..units import RING, Scale
from ..user import User
from . import scales
from .commands import PHYSICS
from .loading import Fault, quoted_words, words_of
from .past import Done, Past, State, Steps, commands, commands_of, way
from .physical import scale_of
from .sessions import session_of
from .shapes import QUANTITY, wrong_words

FEMTOSECONDS = {"fs": 1.0, "ps": 1e3, "ns": 1e6}
STEPS = ("steps", "step")
REDUCED_TIME = "sigma sqrt(m / epsilon)"
# Of more commands of one kind in a row, only the first and the last are shown.
FEW = 3
# Commands whose result depends on whether the scale of the session is known.
WITH_SCALE = ("ADVANCE", "REVERSE", "MEASURE", "SHOW", "DUMP", "SAVE", *(own.name.upper() for own in PHYSICS))
MAX_TOTAL = 1_000_000_000


class Talk(Protocol):
    """The dialogue in which the words are used."""

    def tell(self, *lines: str) -> None:
        """Writes lines at once."""

    def answer(self, user: User, line: str, body: bytes, is_plan: bool) -> List[str]:
        """The lines of the reply to a command, which may be in a plan of several."""

    def may_take(self, name: str, steps: int) -> bool:
        """Whether to make so many steps. The user is asked if they take long."""


class Words:
    """The words, and the sessions that they apply to."""

    def __init__(self, talk: Talk) -> None:
        self.pasts: Dict[str, Past] = {}
        self._talk = talk
        self._number = 0
        self._is_planned = False
        self._memory: Optional[scales.Memory] = None
        self._says: Dict[str, Callable[[User, List[str]], List[str]]] = {
            "heat": self.heat,
            "thermo": self.thermo,
            "distance": self.distance,
            "go": self.go,
            "back": self.back,
            "undo": self.undo,
            "scale": self.scale,
        }

    def deed_of(self, line: str) -> Optional[Callable[[User], List[str]]]:
        """The function for a line with one of these words. Raises Fault if the line is wrong."""
        words = quoted_words(line)
        verb = words[0].lower() if words else ""
        if verb not in self._says:
            return None
        usage = USAGES[verb]
        if wrong := wrong_words(words[:2] if verb == "scale" else words, usage):
            raise Fault(f"{wrong[0]}; use `{usage}`")
        return lambda user: self._said(user, verb, words[1:])

    def _said(self, user: User, verb: str, words: List[str]) -> List[str]:
        """Carries out a word. Raises Fault if that fails."""
        try:
            return self._says[verb](user, words)
        except ClientError:
            raise
        except ValueError as error:
            raise Fault(str(error)) from error

    def begin(self, user: User, line: str) -> List[str]:
        """Begins a typed line. Listens to the session that it names from now on. Returns messages about its scale."""
        self._number += 1
        self._is_planned = False
        for name in named(line):
            self._hear(user, name)
        verb, *words = words_of(line) or [""]
        told: List[str] = []
        if words and verb.upper() in WITH_SCALE:
            told = scales.take_up(user, words[0]) if self._memory is None else self._memory.take_up(words[0])
        self._begin_all(line)
        return told

    def _begin_all(self, line: str) -> None:
        for past in self.pasts.values():
            past.begin(self._number, line)

    def _hear(self, user: User, name: str) -> Past:
        """The past of a session, which listens to it from now on if it did not before."""
        if name not in self.pasts:
            self.pasts[name] = Past(name, f"{name} was loaded over another connection")
            user._listen(name, self.pasts[name])
        return self.pasts[name]

    def end(self, user: User, line: str) -> None:
        """Ends a line, and notes the scales of the sessions."""
        verb, *words = words_of(line) or [""]
        if verb == "DROP" and words and self._memory is not None:
            self._memory.forget(words[0])
        for name, past in self.pasts.items():
            self._note(user, name, past.step)

    def goes(self, user: User, name: str, steps: int) -> None:
        """Notes that a session will make so many steps."""
        if name in self.pasts:
            self._note(user, name, self.pasts[name].step, steps)

    def broken_off(self, line: str, error: BaseException) -> None:
        """If one of these words was broken off, reports what it has sent, and so done."""
        verb = (words_of(line) or [""])[0].lower()
        if verb not in self._says or isinstance(error, (Fault, Refused)):
            return
        sent = [] if verb in ("go", "back", "undo") else self.sent()
        what = "the commands above were done, as far as they were answered" if sent or self._is_planned else "nothing was done"
        self._talk.tell(*sent, f"  `{line}` is broken off: {what}")

    def hears(self, user: User, name: str, listener: Listener) -> None:
        """Makes a listener hear of a session too, from its next load on, or from now on if it is loaded."""
        self._hear(user, name).below = listener

    def listen(self, user: User, elsewhere: Optional[scales.Elsewhere] = None) -> None:
        """Listens to all sessions over a new connection, and forgets those that are gone."""
        self._memory = scales.Memory(user, elsewhere)
        rows = {row.name: row for row in user.sessions()} if self.pasts else {}
        self.pasts = {name: past for name, past in self.pasts.items() if name in rows}
        for name, past in self.pasts.items():
            past.renew(rows[name].step, rows[name].atoms)
            user._listen(name, past)

    def _note(self, user: User, name: str, step: Optional[int], going: int = 0) -> None:
        if self._memory is not None:
            with held(), contextlib.suppress(ClientError):
                self._memory.keep(name, step, going)

    def sent(self) -> List[str]:
        """The commands that were granted since the line was typed, as they are shown."""
        return shown([line for past in self.pasts.values() for line in past.lines])

    def heat(self, user: User, words: List[str]) -> List[str]:
        """Gives the atoms velocities of a temperature."""
        name, text, *seed = words
        session = measurable(user, name)
        wanted = temperature_of(text, session.scale)
        reached = session.heat(wanted, int(seed[0]) if seed else 0)
        told = f"  the velocities of {name} have {reached:.7g} {unit_of_temperature(session.scale)}, as kinetic energies of half a step ago"
        return [*self.sent(), told, *missing(session.scale, "epsilon")]

    def thermo(self, user: User, words: List[str]) -> List[str]:
        """Measures temperature and energies. The step that this takes is undone."""
        session = measurable(user, words[0])
        row = next(session.thermo(1, 1))
        return [*self.sent(), f"  {row}", *missing(session.scale, "epsilon")]

    def distance(self, user: User, words: List[str]) -> List[str]:
        """How far the atoms are from where they were loaded."""
        session = measurable(user, words[0])
        past = self.pasts[session.name]
        origin = past.now().origin
        if not origin.load:
            raise Fault(f"cannot tell how far {session.name} is from where it was loaded: {origin.why}")
        start, places = session.order._for_user(origin.places()), session.places()
        return [*self.sent(), f"  {in_words(distance(places, start), session.scale)}"]

    def scale(self, user: User, words: List[str]) -> List[str]:
        """Sets the scale of a session, or shows it."""
        name, *said = words
        if said and user._known_of(name).mixture is not None:
            raise Fault(f"cannot set the scale of {name}: it has two species, and its LOADMIX has set it")
        known = user.session(name, **scale_of(said)).scale if said else scales.checked(user, name)
        told = f"edge {known.edge:.10g}, sigma {known.sigma:.10g}, h {known.h}"
        told += "" if known.epsilon is None else f", epsilon {known.epsilon:.7g} eV"
        told += "" if known.dt is None else f", mass {known.mass:.7g} u, and the time step {known.dt:.7g} fs"
        return [f"  {told}", *missing(known, "epsilon", "mass")]

    def go(self, user: User, words: List[str]) -> List[str]:
        """Advances by a stretch of time."""
        name, text = words
        steps = self._steps(user, name, text)
        if not self._talk.may_take(name, steps):
            return []
        self._perform(user, commands_of(name, Steps(steps)))
        return told_of_steps(user, name, steps)

    def back(self, user: User, words: List[str]) -> List[str]:
        """Goes back to where a session was loaded, or by a stretch of time."""
        name, *stretch = words
        user._row(name)
        past = self.pasts[name]
        now = past.now()
        if not stretch:
            if not now.origin.load:
                raise Fault(f"cannot go back to where {name} was loaded: {now.origin.why}; use `back {name} 2ps` to go back by steps")
            return [f"  {name} is where it was loaded"] if self._reach(user, past, State(now.origin)) else []
        steps = self._steps(user, name, stretch[0])
        if now.origin.load and steps > now.gone:
            raise Fault(f"cannot go back by {steps} steps: {name} was loaded {now.gone} steps ago; use `back {name}` to go back to there")
        if not self._reach(user, past, now.back_by(steps)):
            return []
        doubt = f", if nothing but steps was done there ({now.origin.why})" if steps > now.gone else ""
        return told_of_steps(user, name, steps, f" back{doubt}")

    def undo(self, user: User, words: List[str]) -> List[str]:
        """Undoes what the last line has done to a session."""
        pasts = [past for past in self.pasts.values() if past.done and words in ([], [past.name])]
        if not pasts:
            raise Fault(self._nothing(words))
        past = max(pasts, key=lambda each: each.done[-1].number)
        done: Done = past.done[-1]
        self._talk.tell(f"  taking back `{done.line}`")
        if self._reach(user, past, done.before):
            past.take_back()
        return []

    def _nothing(self, words: List[str]) -> str:
        """Why nothing can be undone."""
        whys = [past.now().origin.why for past in self.pasts.values() if words in ([], [past.name]) and past.step is not None]
        return "cannot undo: nothing that moves atoms was done here" + "".join(f"; {why}" for why in whys if why)

    def _reach(self, user: User, past: Past, wanted: State) -> bool:
        """Brings a session into another state by commands. Returns whether it is there. Raises Fault if no commands are known for it."""
        now = past.now()
        motions = way(now, wanted)
        if motions is None:
            raise Fault(f"cannot bring {past.name} back there: {now.origin.why or 'it was loaded again'}")
        lines = commands(past.name, motions, now.is_turned, wanted.is_turned)
        if not self._talk.may_take(past.name, sum(abs(each.number) for each in motions if isinstance(each, Steps))):
            return False
        self._perform(user, lines)
        past.reach(wanted)
        return True

    def _perform(self, user: User, lines: Sequence[str]) -> None:
        """Sends commands one after the other, and shows each with its reply. Consecutive tugs are sent together."""
        self._is_planned = True
        for is_tug, group in groupby(lines, lambda line: line.startswith("TUG ")):
            alike = list(group)
            if is_tug:
                with held():
                    user._ask_rows(alike)
                self._talk.tell(*shown(alike))
            else:
                self._perform_each(user, alike)

    def _perform_each(self, user: User, lines: Sequence[str]) -> None:
        for line in lines:
            self._talk.tell(f"  > {line}")
            self._talk.tell(*self._talk.answer(user, line, b"", True))

    def _steps(self, user: User, name: str, text: str) -> int:
        """How many steps a stretch of time is."""
        number, unit = parted(text)
        if unit in STEPS:
            if number != int(number):
                raise Fault(f"steps must be a whole number, got `{text}`")
            return within(int(number), text)
        scale = scales.checked(user, name)
        if unit and scale.dt is None:
            why = f"cannot take a time in {unit}: {scales_missing(scale)} not known of {name}"
            raise Fault(f"{why}; use `go {name} 0.5` for half a {REDUCED_TIME}, or `go {name} 100steps`")
        if not unit and scale.dt is not None:
            raise Fault(f"a stretch must be in fs, ps, ns or steps, got `{text}`; use `go {name} 2ps`")
        dt = scale.reduced_dt if scale.dt is None else scale.dt
        steps = round(number * FEMTOSECONDS.get(unit, 1.0) / dt)
        if not steps:
            raise Fault(f"a stretch must be at least half a step of {dt:.7g} {'fs' if scale.dt else REDUCED_TIME}, got `{text}`")
        return within(steps, text)


USAGES = {own.name: own.usage for own in PHYSICS}


def named(line: str) -> List[str]:
    """The session that a line names, or that is named in the file it loads."""
    words = quoted_words(line)
    if words[:1] == ["load_saved"]:
        words = words[:1] + words[2:] if len(words) > 2 else words[:1] + saved_in(words[1:])
    return [name for name in words[1:2] if NAME.match(name)]


def saved_in(paths: List[str]) -> List[str]:
    """The name of the session that is saved in a file, if it can be read."""
    try:
        return [checkpoint.read(os.path.expanduser(path)).name for path in paths]
    except (ClientError, OSError):
        return []


def measurable(user: User, name: str) -> Session:
    """A session whose scale is known. Raises Fault if it is not."""
    scales.checked(user, name)
    return session_of(user, name)


def within(steps: int, text: str) -> int:
    """Returns the steps. Raises Fault if they are more than MAX_TOTAL."""
    if steps > MAX_TOTAL:
        raise Fault(f"a stretch must be at most {MAX_TOTAL} steps, got `{text}`, which is {steps}")
    return steps


def parted(text: str) -> Tuple[float, str]:
    """The number and the unit of a quantity."""
    found = QUANTITY.match(text)
    if found is None:
        raise Fault(f"a quantity must be a number with a unit, got `{text}`")
    return float(found[1]), found[2]


def temperature_of(text: str, scale: Scale) -> float:
    """A temperature in kelvin if epsilon is known, else in epsilon / k_B. Raises Fault for kelvin without epsilon."""
    number, unit = parted(text)
    if unit == "K" and scale.epsilon is None:
        raise Fault(f"cannot take `{text}`: epsilon is not known; use `{text[:-1]}` for that many epsilon / k_B, or load with epsilon=")
    return number


def unit_of_temperature(scale: Scale) -> str:
    return "epsilon / k_B" if scale.epsilon is None else "K"


def scales_missing(scale: Scale) -> str:
    """Which of epsilon and mass are not known, with `is` or `are`."""
    lacking = [name for name, value in (("epsilon", scale.epsilon), ("mass", scale.mass)) if value is None]
    return f"{' and '.join(lacking)} {'is' if len(lacking) == 1 else 'are'}"


def missing(scale: Scale, *names: str) -> List[str]:
    """A line that says which words are missing for physical units, if any are."""
    lacking = [f"{name}=" for name in names if getattr(scale, name) is None]
    return (
        [f"  in reduced units, since {' and '.join(lacking)} {'were' if lacking[1:] else 'was'} not given; use LOAD or `scale` with it"]
        if lacking
        else []
    )


def in_words(apart: float, scale: Scale) -> str:
    """The text for a distance in ring units."""
    if not apart:
        return "each atom is at the place where it was loaded, bit for bit"
    unit = "of the unit of the file" if scale.epsilon is None else "angstrom"
    length, sigmas = apart * scale.edge / RING, apart / scale.sigma_on_ring
    return f"the atoms are {length:.6g} {unit} ({sigmas:.6g} sigma) from where they were loaded, root mean square"


def told_of_steps(user: User, name: str, steps: int, whither: str = "") -> List[str]:
    """The lines that say how long the steps are."""
    scale = user._known_of(name).scale
    if scale is None:
        return []
    dt, these = scale.dt, f"{steps} steps are" if steps != 1 else "1 step is"
    if dt is None:
        return [f"  {these} {steps * scale.reduced_dt:.6g} {REDUCED_TIME}{whither}", *missing(scale, "epsilon", "mass")]
    return [f"  {these} {steps * dt / 1000:.6g} ps{whither}"]


def shown(lines: Sequence[str]) -> List[str]:
    """Commands as they are shown: of many of one kind in a row, only the first and the last."""
    told: List[str] = []
    for _, group in groupby(lines, lambda line: line.split(" ")[0]):
        alike = list(group)
        if len(alike) <= FEW:
            told += [f"  > {line}" for line in alike]
        else:
            told.append(f"  > {alike[0]} .. {alike[-1]} ({len(alike)} commands)")
    return told
