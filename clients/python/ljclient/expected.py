"""The state of a user's sessions by the replies so far, and how a command changes it: no frames, but numbers that distinguish two
states.

They are the step number, the direction, the saved simulations, and the drift: the sum of all atoms' displacements in the last step,
modulo 2^32 on each axis. Steps keep the drift, REVERSE negates it, and TUG adds to it, so one MEASURE is enough for long. Nothing
here does input or output.
"""
from __future__ import annotations

import re
from dataclasses import dataclass, replace
from typing import Dict, List, Mapping, NamedTuple, Optional, Sequence, Tuple

from .names import NAME
from .record import words_of
from .units import RING

Vector = Tuple[int, int, int]
MAX_STEP = 10**12
MAX_STEPS = 1_000_000
MAX_LINE = 256
NUMBER = re.compile(r"[0-9]{1,19}\Z")
DISPLACEMENT = re.compile(r"-?[0-9]{1,19}\Z")
LOADS = ("LOAD", "LOADMIX")
READS = ("MEASURE", "SHOW", "DUMP", "LIST")
# The forms of the words after a session's name, by command.
SHAPES: Mapping[str, Sequence["re.Pattern[str]"]] = {
    "ADVANCE": [NUMBER],
    "START": [NUMBER],
    "REVERSE": [],
    "BRANCH": [NAME],
    "RESTORE": [NAME],
    "FORGET": [NAME],
    "TUG": [NUMBER, DISPLACEMENT, DISPLACEMENT, DISPLACEMENT],
    "DROP": [],
}


@dataclass(frozen=True)
class Motion:
    """The step number, direction and drift of a simulation.

    step       the step number, after all pending steps
    direction  1 or -1: the change of the step number by the next step. None if unknown
    drift      the sum of the displacements of the last step, modulo 2^32 on each axis. None if unknown
    """

    step: int
    direction: Optional[int] = None
    drift: Optional[Vector] = None


@dataclass(frozen=True)
class Expected:
    """A session, according to the replies.

    atoms       how many; None for a load without a reply whose body does not give it
    motion      its step number, direction and drift
    saved       the saved simulations, by name in order of saving. None if only the count is known
    count       the number of saved simulations
    is_pending  whether steps may be pending
    """

    atoms: Optional[int]
    motion: Motion
    saved: Optional[Mapping[str, Motion]] = None
    count: int = 0
    is_pending: bool = True


# A user's sessions in order of loading.
Sessions = Dict[str, Expected]


class Words(NamedTuple):
    """The words of a command that the server recognizes: its verb, the name of its session, and the others."""

    verb: str
    name: str
    others: Sequence[str]


def parsed(line: str) -> Optional[Words]:
    """The words of a command that may change something. None for any other line, and for one whose form is refused."""
    words = [word.decode("latin-1") for word in words_of(line.encode())]
    if len(line.encode()) > MAX_LINE or len(words) < 2 or not NAME.match(words[1]):
        return None
    verb, name, *others = words
    shapes = SHAPES.get(verb, ())
    fit = verb in SHAPES and len(shapes) == len(others) and all(shape.match(word) for shape, word in zip(shapes, others))
    return Words(verb, name, others) if fit or verb in LOADS else None


def after(sessions: Sessions, line: str, body: bytes = b"") -> List[Sessions]:
    """The possible sessions after a command: one case, or two if the direction of its session is not known. A case is the same
    object if the command changes nothing, as one that reads or that is refused. A RESTORE always counts as a change.

    Refusals that cannot be known here, such as for lack of memory or quota, leave the sessions as they are too.
    """
    words = parsed(line)
    if words is None:
        return [sessions]
    here = sessions.get(words.name)
    if words.verb in LOADS:
        return [sessions] if here else [{**sessions, words.name: loaded(words, body)}]
    if here is None:
        return [sessions]
    if words.verb == "DROP":
        return [{name: each for name, each in sessions.items() if name != words.name}]
    return [sessions if each is here else {**sessions, words.name: each} for each in _changed(here, words)]


def loaded(words: Words, body: bytes) -> Expected:
    """A session after its load."""
    is_at_rest = words.others[-2:-1] == ["rest"]
    counts = [row.split()[0] for row in body.split(b"\n") if row.split()]
    atoms = int(counts[0]) if counts and NUMBER.match(counts[0].decode("latin-1")) else None
    return Expected(atoms, Motion(0, 1, (0, 0, 0) if is_at_rest else None), {}, is_pending=False)


def _changed(here: Expected, words: Words) -> List[Expected]:
    """The possible states of a session after one of its commands."""
    if words.verb in ("ADVANCE", "START", "REVERSE"):
        directions = (1, -1) if here.motion.direction is None else (here.motion.direction,)
        moved = [_moved(replace(here.motion, direction=each), words) for each in directions]
        return [here if each is None else replace(here, motion=each, is_pending=words.verb == "START") for each in moved]
    if words.verb == "TUG":
        return [_tugged(here, int(words.others[0]), [int(word) for word in words.others[1:]])]
    return [_with_saved(here, words.verb, words.others[0])]


def _moved(motion: Motion, words: Words) -> Optional[Motion]:
    """A motion of a known direction after steps or REVERSE. None if the steps are refused, or zero."""
    direction = motion.direction or 1
    if words.verb == "REVERSE":
        drift = None if motion.drift is None else vector([-part for part in motion.drift])
        return Motion(motion.step - direction, -direction, drift)
    count = int(words.others[0])
    step = motion.step + count * direction
    return None if count == 0 or count > MAX_STEPS or abs(step) > MAX_STEP else replace(motion, step=step)


def _tugged(here: Expected, atom: int, displacement: Sequence[int]) -> Expected:
    """A session after a tug. A tug by zero, of a missing atom, or outside the signed 32-bit range changes nothing."""
    is_granted = (here.atoms is None or atom < here.atoms) and all(-RING // 2 <= part < RING // 2 for part in displacement)
    if not is_granted or not any(displacement):
        return here
    drift = here.motion.drift
    return replace(here, motion=replace(here.motion, drift=drift and vector([sum(both) for both in zip(drift, displacement)])))


def _with_saved(here: Expected, verb: str, name: str) -> Expected:
    """A session after BRANCH, RESTORE or FORGET of a name."""
    saved = dict(here.saved or {})
    if (verb == "BRANCH") == (name in saved):
        return here
    if verb == "RESTORE":
        return replace(here, motion=saved[name])
    if verb == "BRANCH":
        saved[name] = here.motion
    else:
        del saved[name]
    return replace(here, saved=saved, count=len(saved))


def vector(parts: Sequence[int]) -> Vector:
    """Three numbers modulo 2^32."""
    x, y, z = (part % RING for part in parts)
    return x, y, z
