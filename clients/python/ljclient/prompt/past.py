"""The past of sessions: their motions since they were loaded, which give the inverse commands.

A motion is a number of steps, forward or back, or a tug. REVERSE exchanges the two frames, so n steps after it are n steps back,
and a tug after it moves the other frame. So the motions since the start, in order, and the direction of time give a state.
"""
from __future__ import annotations

from typing import Dict, Iterable, List, NamedTuple, Optional, Sequence, Tuple

from ..guards import RESERVED
from ..order import Place
from ..record import LOADS, Answer, Mark
from ..recording import Listener
from ..stepping import MAX_STEPS
from ..scalars import nano
from ..units import RING
from .sessions import STEP_AT

# The commands that change the state of a session, if they are granted.
CHANGING = ("ADVANCE", "START", "REVERSE", "TUG", "RESTORE")
HALF = RING // 2


class Steps(NamedTuple):
    """A number of steps: forward if it is above 0, and back if it is below."""

    number: int

    @property
    def inverse(self) -> "Steps":
        return Steps(-self.number)


class Tug(NamedTuple):
    """A displacement added to an atom, by its number at the server, in a step forward or, if `is_turned`, back."""

    is_turned: bool
    atom: int
    displacement: Tuple[int, ...]

    @property
    def inverse(self) -> "Tug":
        return self._replace(displacement=tuple(-part if part > -HALF else part for part in self.displacement))


class Origin:
    """The start of the motions of a session: where it was loaded, by this command, or the first state that this prompt knows.

    why  why nothing is known before it, if it is not where the session was loaded
    """

    def __init__(self, load: str = "", body: bytes = b"", why: str = ""):
        self.load = load
        self.body = body
        self.why = why

    def places(self) -> List[Place]:
        """The places of all atoms in the load, in ring units and in the server's order: `floor(q 2^32 / edge)`."""
        words = self.load.split()
        edge, lines, at = nano(words[2]), self.body.split(b"\n"), 0
        for _ in range(2 if words[-2] == "pair" else 1):
            at = next(number for number in range(at, len(lines)) if lines[number].split())
            rows = lines[at + 2 : at + 2 + int(lines[at].split()[0])]
            at += 2 + len(rows)
        parts = ([nano(word.decode()) * RING // edge % RING for word in row.split()[1:4]] for row in rows)
        return [(x, y, z) for x, y, z in parts]


class State(NamedTuple):
    """A session after these motions from its origin, with time reversed or not."""

    origin: Origin
    motions: Tuple["Steps | Tug", ...] = ()
    is_turned: bool = False

    @property
    def gone(self) -> int:
        """The number of steps made since its origin, forward and back."""
        return sum(abs(each.number) for each in self.motions if isinstance(each, Steps))

    def back_by(self, count: int) -> "State":
        """The state so many steps earlier on the same path. Before its origin, the path has only steps."""
        motions, left = list(self.motions), count
        while left and motions:
            last = motions.pop()
            if isinstance(last, Steps):
                taken = min(left, abs(last.number))
                left -= taken
                rest = last.number - taken if last.number > 0 else last.number + taken
                motions += [Steps(rest)] if rest else []
        motions += [Steps(left if self.is_turned else -left)] if left else []
        return State(self.origin, tuple(motions), self.is_turned)


class Done(NamedTuple):
    """A line that was typed and has changed a session: its number, the line, and the state before."""

    number: int
    line: str
    before: State


class Past(Listener):
    """Hears of all commands that the client sends for a session, and knows its state before each typed line.

    step   its step number at the server, once it is known
    lines  the commands that were granted since `begin`, in order
    below  another listener to the same commands, such as a record
    """

    def __init__(self, name: str, why: str, below: Optional[Listener] = None):
        self.name = name
        self._state = State(Origin(why=why))
        self.step: Optional[int] = None
        self.lines: List[str] = []
        self.done: List[Done] = []
        self.below = below
        self._before = self._state
        self._typed = (0, "")
        self._motions: List["Steps | Tug"] = []
        self._is_turned = False
        self._saved: Dict[str, State] = {}
        self._is_moved = False
        self._atoms = 0
        # The number of steps of each ADVANCE and START whose reply did not come.
        self._doubt = 0

    def begin(self, number: int, line: str) -> None:
        """Begins a typed line, with this number. Changes before it belong to the line before."""
        now = self.now()
        if now != self._before:
            self.done.append(Done(*self._typed, self._before))
        self._before, self._typed, self.lines, self._is_moved = now, (number, line), [], False

    def reach(self, state: State) -> None:
        """Sets the present state, since the commands that lead to it were done."""
        self._state, self._motions, self._is_turned = state, list(state.motions), state.is_turned

    def take_back(self) -> None:
        """Removes the last line, since it was undone."""
        done = self.done.pop()
        self.reach(done.before)
        self._before = done.before

    def renew(self, step: int, atoms: int) -> None:
        """Continues over a new connection, at which the session has so many atoms and this target step of the server."""
        doubt, self._doubt = self._doubt, 0
        if self.step is None:
            return
        gone = step - self.step
        if atoms != (self._atoms or atoms):
            self._lose(f"{self.name} had {self._atoms} atoms when this prompt saw it last, and has {atoms} now")
        elif abs(gone) > doubt:
            self._lose(f"{self.name} was at the server's step {self.step} when this prompt saw it last, and is at {step} now")
        else:
            self._add(Steps(-abs(gone) if self._is_turned else abs(gone)))
        self.step = step

    def answered(self, words: Sequence[bytes], answer: Answer) -> None:
        if self.below is not None:
            self.below.answered(words, answer)
        if answer.first.startswith(b"OK "):
            self._follow([word.decode() for word in words], answer)

    def unanswered(self, line: bytes) -> None:
        if self.below is not None:
            self.below.unanswered(line)
        verb, *words = line.decode().split()
        if verb in ("ADVANCE", "START"):
            self._doubt += int(words[1])
        elif verb in CHANGING:
            self._lose(f"the reply to `{line.decode()}` did not come")

    def told(self, mark: Mark) -> None:
        if self.below is not None:
            self.below.told(mark)
        if mark is Mark.MOVED:
            self._is_moved = True
            self._lose("the session has moved to a new program, since a million commands were nearly used up")

    def flush(self) -> None:
        if self.below is not None:
            self.below.flush()
            self.below = None if self.below.is_over else self.below

    def close(self) -> None:
        if self.below is not None:
            self.below.close()

    def now(self) -> State:
        """The present state."""
        self._state = State(self._state.origin, tuple(self._motions), self._is_turned)
        return self._state

    def _follow(self, words: List[str], answer: Answer) -> None:
        """Follows a command that was granted."""
        verb, *rest = words
        self.lines.append(" ".join(words))
        if verb.encode() in LOADS:
            self._atoms = int(answer.first.split(b" ")[-1])
            self._load(" ".join(words), answer.body)
        elif verb in ("ADVANCE", "START"):
            self._add(Steps(-int(rest[1]) if self._is_turned else int(rest[1])))
        elif verb == "REVERSE":
            self._is_turned = not self._is_turned
        elif verb == "TUG":
            self._motions.append(Tug(self._is_turned, int(rest[1]), tuple(map(int, rest[2:]))))
        elif verb == "BRANCH":
            self._saved[rest[1]] = self.now()
        elif verb == "FORGET":
            self._saved.pop(rest[1], None)
        elif verb == "RESTORE":
            self._restore(rest[1])
        elif verb == "DROP":
            self._lose(f"{self.name} was given up")
        if verb in STEP_AT:
            self.step = int(answer.first.split(b" ")[1 + STEP_AT[verb]])

    def _load(self, line: str, body: bytes) -> None:
        self.step, self._doubt, self._saved = 0, 0, {}
        if self._is_moved:
            return
        self.done = []
        self.reach(State(Origin(line, body)))
        self._before = self._state

    def _restore(self, branch: str) -> None:
        if branch in self._saved:
            self.reach(self._saved[branch])
        elif branch not in RESERVED:
            self._lose(f"`RESTORE {self.name} {branch}` has led to what another connection has saved")

    def _lose(self, why: str) -> None:
        """Forgets all that was done up to now, for this reason."""
        self.done, self._saved, self._doubt = [], {}, 0
        self.reach(State(Origin(why=why)))
        self._before = self._state

    def _add(self, steps: Steps) -> None:
        """Adds steps, merged with those that the same line has just made."""
        last = self._motions[-1] if len(self._motions) > len(self._before.motions) else None
        if isinstance(last, Steps):
            self._motions.pop()
            steps = Steps(last.number + steps.number)
        self._motions += [steps] if steps.number else []


def way(now: State, wanted: State) -> Optional[List["Steps | Tug"]]:
    """The motions that lead from one state to another: the inverses of those that only the first has, then those that only the
    other has. None if they have no common origin."""
    if now.origin is not wanted.origin:
        return None
    common = 0
    for one, other in zip(now.motions, wanted.motions):
        if one != other:
            break
        common += 1
    return merged([*(each.inverse for each in reversed(now.motions[common:])), *wanted.motions[common:]])


def merged(motions: Iterable["Steps | Tug"]) -> List["Steps | Tug"]:
    """The same motions, with consecutive steps merged."""
    found: List["Steps | Tug"] = []
    for each in motions:
        last = found[-1] if found else None
        if isinstance(each, Steps) and isinstance(last, Steps):
            found.pop()
            each = Steps(last.number + each.number)
        found += [each] if not isinstance(each, Steps) or each.number else []
    return found


def commands(name: str, motions: Iterable["Steps | Tug"], is_turned: bool, is_turned_then: bool) -> List[str]:
    """The commands that make these motions; `is_turned` and `is_turned_then`: whether time is reversed before and after."""
    lines: List[str] = []
    for each in motions:
        needed = each.number < 0 if isinstance(each, Steps) else each.is_turned
        lines += [f"REVERSE {name}"] if needed != is_turned else []
        lines += commands_of(name, each)
        is_turned = needed
    return [*lines, f"REVERSE {name}"] if is_turned != is_turned_then else lines


def commands_of(name: str, motion: "Steps | Tug") -> List[str]:
    """The commands of one motion, without the REVERSE that it may need."""
    if isinstance(motion, Tug):
        return [f"TUG {name} {motion.atom} " + " ".join(map(str, motion.displacement))]
    total = abs(motion.number)
    return [f"ADVANCE {name} {min(MAX_STEPS, total - made)}" for made in range(0, total, MAX_STEPS)]
