"""Plays records in parts, several at the same time: each part except the first begins at a checkpoint beside the record.

A checkpoint has the two frames of a session in ring units, which are its whole state. Each part plays the commands up to the next
checkpoints, which the session must equal there. So the first part, which begins with the load of the record, proves the
checkpoint at which the second part begins, and so on. All parts together prove the whole record.
"""
from __future__ import annotations

from dataclasses import dataclass, field, replace
from typing import Dict, Iterator, List, Optional, Sequence, Tuple

from . import record
from .exact import nano_of, text_in_box
from .files import Path
from .record import Answer, Entry, Mark
from .record_file import RecordFile
from .record_joints import Joints, Loaded, loaded_by, present_of
from .record_plan import Plan
from .record_playing import SPARE_ITEMS, Opener, Player, Stage, Trouble, parts_of, play_piece
from .state import State
from .units import RING
from .user import MAX_ITEMS, User

# The index of the step number in the words of the reply, for each command.
STEP_AT: Dict[bytes, int] = {
    **{verb: 3 for verb in (b"ADVANCE", b"START", b"REVERSE", b"MEASURE", b"SHOW", b"DUMP")},
    **{verb: 4 for verb in (b"BRANCH", b"RESTORE", b"TUG")},
}
STEP_COMMENT = b"step "


@dataclass(frozen=True)
class Checkpoint:
    """A checkpoint of a record, with the server's numbers.

    path   its file
    after  the SHA-256 of the record up to the command before it
    state  the state of the session there
    """

    path: str
    after: str
    state: State


@dataclass(frozen=True)
class Stop:
    """A position in a record that has checkpoints.

    checkpoints  the checkpoints there
    number       the line of the command before them
    load         the load of the session
    may_begin    whether a part may begin there
    steps        the number of steps requested up to there
    played       the number of commands played up to there, in each program
    """

    checkpoints: Sequence[Checkpoint]
    number: int
    load: Entry
    may_begin: bool
    steps: int
    played: Sequence[int]

    @property
    def cost(self) -> int:
        """The number of commands that read the session there."""
        return (2 * self.load.atoms + 4) * len(self.checkpoints)


@dataclass
class Part:
    """A part of a record.

    begin   where it begins; None for the first, which begins with the record
    stops   its positions with checkpoints; it ends at the last one, unless it is the last part
    is_end  whether the record ends with it
    played  the number of commands played, in each program
    """

    begin: Optional[Stop]
    stops: List[Stop] = field(default_factory=list)
    is_end: bool = False
    played: List[int] = field(default_factory=list)

    def has(self, number: int) -> bool:
        """Whether it has the command of this line."""
        return (self.begin is None or number > self.begin.number) and (self.is_end or number <= self.stops[-1].number)

    @property
    def items(self) -> int:
        """The most commands that a program takes for it."""
        return max(self.played) + sum(stop.cost for stop in self.stops) + SPARE_ITEMS


@dataclass
class Division:
    """How a record is played in parts.

    plan    the contents of the record
    parts   its parts, in order
    strays  the checkpoints that have no position in it
    """

    plan: Plan
    parts: List[Part]
    strays: List[str]


def divided(path: Path, checkpoints: Sequence[Checkpoint], most: int) -> Division:
    """A record in at most `most` parts, with about equal numbers of steps. Raises `Damaged` if it is not as it was written."""
    waiting: Dict[str, List[Checkpoint]] = {}
    for each in checkpoints:
        waiting.setdefault(each.after, []).append(each)
    plan, load, steps, stops = Plan(RecordFile(path)), Entry(Mark.END, 0), 0, []
    for entry in plan.file.entries():
        plan.take(entry)
        load = entry if entry.is_granted_of(*record.LOADS) else load
        steps += steps_of(entry)
        if found := waiting.pop(entry.sum, []):
            may_begin = plan.is_settled and can_begin(load, found[0].state)
            stops.append(Stop(found, entry.number, load, may_begin, steps, tuple(plan.played)))
    strays = [each.path for several in waiting.values() for each in several]
    return Division(plan, _parts(plan, stops, steps, most), strays)


def steps_of(entry: Entry) -> int:
    """The number of steps that a command makes or begins."""
    words = record.words_of(entry.line)
    return int(words[2]) if entry.is_granted_of(b"ADVANCE", b"START") and words[2].isdigit() else 0


def can_begin(load: Entry, state: State) -> bool:
    """Whether a session of this load can be loaded from a checkpoint in the same box, so that it is shown as in the record. In a box
    with an edge below 4.294967296 some places have no coordinate of their own."""
    try:
        is_wide = nano_of(record.words_of(load.line)[2]) >= RING
        return is_wide and is_alike(state, loaded_by(load)) and len(load.line) + len(b"1048576") <= record.MAX_COMMAND
    except ValueError:
        return False


def _parts(plan: Plan, stops: Sequence[Stop], steps: int, most: int) -> List[Part]:
    """The parts, each up to the first possible stop with 1/`most` of all steps, or half of the commands that a program takes."""
    parts, part, since = [], Part(None), 0
    for stop in stops:
        part.stops.append(stop)
        part.played = _between(part.begin, stop.played)
        is_full = (stop.steps - since) * most >= steps or 2 * part.items >= MAX_ITEMS
        if stop.may_begin and is_full and most > 1:
            parts.append(part)
            part, since = Part(stop), stop.steps
    part.is_end, part.played = True, _between(part.begin, plan.played)
    return [*parts, part]


def _between(begin: Optional[Stop], played: Sequence[int]) -> List[int]:
    """The number of commands that each program plays after a stop."""
    if begin is None:
        return list(played)
    programs = len(begin.played)
    return [played[programs - 1] - begin.played[-1], *played[programs:]]


class PartPlayer(Player):
    """Compares replies with a record that has other step numbers. Those of the replies are converted first.

    origin  the state that was loaded as step 0; None once the record loads the session
    """

    origin: Optional[State] = None

    def answered(self, words: Sequence[bytes], answer: Answer) -> None:
        if answer.first.startswith(b"OK ") and self.origin is not None and not self.is_done:
            if words[0] in record.LOADS:
                self.origin = None
            else:
                answer = shifted(answer, words[0], self.origin)
        super().answered(words, answer)

    def step_of(self, step: int) -> int:
        """The record's number for a step here."""
        return step if self.origin is None else self.origin.step + self.origin.direction * step

    @property
    def direction(self) -> int:
        return 1 if self.origin is None else self.origin.direction


def shifted(answer: Answer, verb: bytes, origin: State) -> Answer:
    """A reply with step numbers converted: 0 becomes the step of this state."""

    def told(word: bytes) -> bytes:
        return b"%d" % (origin.step + origin.direction * int(word))

    words, rest = answer.first.split(b" "), list(answer.rest)
    if verb in STEP_AT:
        words[STEP_AT[verb]] = told(words[STEP_AT[verb]])
    if verb == b"DUMP" and rest[1:2] and rest[1].startswith(STEP_COMMENT):
        rest[1] = STEP_COMMENT + told(rest[1][len(STEP_COMMENT) :])
    elif verb == b"LIST":
        rest = [b" ".join([name, told(step)]) for name, step in (line.split(b" ") for line in rest)]
    return answer._replace(first=b" ".join(words), rest=rest)


def play_part(plan: Plan, part: Part, opener: Opener, is_server: bool, player: PartPlayer) -> Tuple[Joints, List[str]]:
    """Plays a part of a record. Returns the count of its trajectories, and the report on checkpoints that differ from the session
    there. Raises Trouble if it cannot be played."""
    if part.items > MAX_ITEMS and not is_server:
        raise Trouble(f"cannot play {player.path}: it has {part.items} commands between two checkpoints, and a program takes {MAX_ITEMS}")
    costs = sum(stop.cost for stop in part.stops)
    stage = Stage(opener, is_server, replace(plan, played=[count + costs for count in part.played]), player)
    told: List[str] = []
    try:
        if part.begin is not None:
            _begin(part.begin, stage.user, plan.file.session, player)
        last = ""
        for piece in parts_of(_entries(plan, part), {*plan.arrives, *plan.leaves, *plan.looks, *(stop.number for stop in part.stops)}):
            play_piece(piece, plan, stage, player)
            last = piece[-1].sum
            told += [line for stop in part.stops if stop.number == piece[-1].number for line in _compare(stop, stage.user, plan, player)]
        if player.count != sum(part.played) or (not part.is_end and last != part.stops[-1].checkpoints[0].after):
            raise Trouble(f"cannot play {player.path}: it was changed while it was played")
    finally:
        stage.close()
    return stage.joints, told


def _entries(plan: Plan, part: Part) -> Iterator[Entry]:
    """The commands of a part, read from the file again. Raises Trouble if the file has changed."""
    again = RecordFile(plan.file.path)
    for entry in again.entries():
        if part.has(entry.number):
            yield entry
        elif part.begin is None or entry.number > part.begin.number:
            return
    if again.sum != plan.file.sum:
        raise Trouble(f"cannot play {plan.file.path}: it was changed while it was played")


def _begin(stop: Stop, user: User, name: str, player: PartPlayer) -> None:
    """Loads the session from a checkpoint, with the words of the record's load."""
    state, words = stop.checkpoints[0].state, record.words_of(stop.load.line)
    edge = nano_of(words[2])
    body = b"".join(text_in_box("checkpoint", state.symbols, places, edge) for places in (state.before, state.places))
    line = b" ".join([*words[:-2], b"pair", b"%d" % len(body)])
    user._ask_commands([(line.decode(), body)])
    player.origin, player.loaded = state, loaded_by(stop.load)


def _compare(stop: Stop, user: User, plan: Plan, player: PartPlayer) -> Iterator[str]:
    """The report on each checkpoint that differs from the session."""
    loaded = loaded_by(stop.load)
    present = present_of(user, plan.file.session, loaded)
    step, direction = player.step_of(present.step), player.direction * present.direction
    for each in stop.checkpoints:
        state = each.state
        if not is_alike(state, loaded):
            yield f"{each.path}: its atoms interact differently from those of {player.path}"
        elif (state.step, state.direction) != (step, direction):
            here = f"step {step} and direction {direction} by {player.path}"
            yield f"{each.path}: step {state.step} and direction {state.direction}, and {here}"
        else:
            yield from _first_apart(each, present.atoms, player.path)


def _first_apart(checkpoint: Checkpoint, atoms: Sequence[Tuple[str, Tuple[int, ...], Tuple[int, ...]]], path: str) -> Iterator[str]:
    """The report on the first atom that differs, if any."""
    state = checkpoint.state
    for number, (said, found) in enumerate(zip(zip(state.symbols, state.places, state.before), atoms)):
        if said != found:
            yield f"{checkpoint.path}: atom {number} at step {state.step} is {_told(*said)}, and {_told(*found)} by {path}"
            return


def _told(symbol: str, place: Tuple[int, ...], before: Tuple[int, ...]) -> str:
    return f"{symbol} at {' '.join(map(str, place))} from {' '.join(map(str, before))}"


def is_alike(state: State, loaded: Loaded) -> bool:
    """Whether a checkpoint has the same number of atoms as the load, with the same interactions."""
    mixture = state.mixture
    classes = tuple((each.sigma_on_ring, each.h, each.weight) for each in (mixture.classes if mixture else (state.scale,)))
    species = tuple(map(str.encode, mixture.species)) if mixture else ()
    return (species, classes, len(state.places)) == (loaded.species, loaded.classes, loaded.atoms)
