"""`python3 -m ljclient diff A B` shows where two records first differ: the command, the step and the atom."""
from __future__ import annotations

import argparse
import contextlib
import os
from typing import Any, Iterator, List, Optional, Tuple

from . import record
from .errors import ClientError, Damaged
from .files import Path
from .locate import find_program
from .prompt.starting import Parser
from .record import Entry, Mark, shown
from .record_file import RecordFile
from .record_joints import Present
from .record_moments import Moment, Replay, command_of, moments_of, reply_of
from .record_plan import Plan, plan_of
from .record_playing import Trouble
from .connecting import run
from .user import User
from .verify import SECONDS_OF_A_PROGRAM, complain, let_go, say

SAME, DIFFERS, TROUBLE = 0, 1, 2
# The most steps for which two sessions with different interactions are followed to the first atom that differs.
FOLLOWED_STEPS = 1000
ABOUT = """\
Tells where two records part, step by step: the first command that changes the session and is another one, the step, and the first
atom that is elsewhere there, or came from elsewhere. In which pieces steps are made, what is read on the way and how the session
is named makes no difference; what both have read at the same step has to be the same. Where commands differ both are played side
by side, since others may do the same.

Status 0: both have the same trajectory. 1: they part, or one is longer, and it is told up to where they agree. 2: one of them is
damaged, or could not be played.
"""


class Sides:
    """Both records, and programs that play them side by side when needed."""

    def __init__(self, plans: Tuple[Plan, Plan], program: Optional[str], stack: contextlib.ExitStack):
        self.names = [os.fspath(plan.file.path) for plan in plans]
        self._plans = plans
        self._program = program
        self._stack = stack
        self._replays: List[Replay] = []

    @property
    def is_playing(self) -> bool:
        """Whether both are played, since their commands have differed."""
        return bool(self._replays)

    def replays(self) -> List[Replay]:
        """The replays of both records, which the first call starts."""
        if not self._replays:
            self._program = self._program or find_program()
            self._replays = [Replay(plan.file.path, self._stack.enter_context(self._begun(plan))) for plan in self._plans]
        return self._replays

    def presents(self, moments: Tuple[Moment, Moment]) -> List[Optional[Present]]:
        """Both sessions after the changes of a moment."""
        replays = self.replays()
        for replay, moment in zip(replays, moments):
            replay.go(moment.made, len(moment.changes))
        return [replay.present() for replay in replays]

    def where(self, *entries: Entry) -> str:
        """The line of a command in each record."""
        return " and ".join(f"{name}, line {entry.number}" for name, entry in zip(self.names, entries))

    def _begun(self, plan: Plan) -> User:
        sessions, atoms, branches = plan.file.quota.numbers
        return run(self._program, sessions=sessions, atoms=atoms, branches=branches, timeout=SECONDS_OF_A_PROGRAM)


def pairs_of(sides: Sides) -> Iterator[Tuple[Moment, Moment]]:
    """The moments of both records with the same number of steps made, up to the end of one record. Where only one record has a
    moment, the other gets an empty one."""
    both = [moments_of(name) for name in sides.names]
    first, second = (next(each) for each in both)
    while True:
        made = min(first.made, second.made)
        pair = (first if first.made == made else Moment(made), second if second.made == made else Moment(made))
        yield pair
        if pair[0].is_end or pair[1].is_end:
            return
        first, second = next(both[0]) if pair[0] is first else first, next(both[1]) if pair[1] is second else second


def difference(sides: Sides) -> Tuple[int, List[str]]:
    """The exit status, and the report on both records."""
    told: List[str] = []
    for pair in pairs_of(sides):
        one, other = pair
        is_prefix = _is_prefix(one, other) or _is_prefix(other, one)
        unlike = None if is_prefix else _unlike(one, other)
        if not sides.is_playing and (fault := _replies_apart(sides, pair, unlike)):
            return DIFFERS, fault
        if unlike is not None or (sides.is_playing and not is_prefix and _restores(pair)):
            parted = _parted(sides, pair)
            if unlike is not None and (parted or not told):
                told += _told_commands(sides, pair, unlike)
            if parted:
                return DIFFERS, [*told, *parted]
            told += ["they do the same all the same"] if unlike is not None and told[-1:] != ["they do the same all the same"] else []
        if one.is_end or other.is_end:
            return _ended(sides, pair, told)
    raise AssertionError("each record has an end")


def _is_prefix(one: Moment, other: Moment) -> bool:
    """Whether one record ends here, with the first changes of the other."""
    count = len(one.changes)
    return one.is_end and count < len(other.changes) and [*map(command_of, one.changes)] == [*map(command_of, other.changes[:count])]


def _unlike(one: Moment, other: Moment) -> Optional[int]:
    """The index of the first change that differs between the records; None if none does."""
    mine, its = ([*map(command_of, moment.changes)] for moment in (one, other))
    if mine == its:
        return None
    return next((number for number, pair in enumerate(zip(mine, its)) if pair[0] != pair[1]), min(len(mine), len(its)))


def _restores(pair: Tuple[Moment, Moment]) -> bool:
    return any(entry.is_granted_of(b"RESTORE") for moment in pair for entry in moment.changes)


def _told_commands(sides: Sides, pair: Tuple[Moment, Moment], number: int) -> List[str]:
    """The report on the first command of a moment that differs between the records."""
    parts = []
    for name, moment in zip(sides.names, pair):
        if number < len(moment.changes):
            entry = moment.changes[number]
            parts.append(f"{name}, line {entry.number}: `{shown(entry.line)}`")
        else:
            parts.append(f"{name}: nothing of the kind there")
    return [f"the first command that differs, after {_steps(pair[0].made)}: {'; '.join(parts)}"]


def _steps(made: int) -> str:
    return f"{made} step{'' if made == 1 else 's'} made"


def _replies_apart(sides: Sides, pair: Tuple[Moment, Moment], unlike: Optional[int]) -> List[str]:
    """The report on the first common command with different replies, before the first change that differs."""
    one, other = pair
    before = list(zip(one.changes, other.changes))[:unlike]
    told = ((key, entry) for key, entry in one.told.items() if unlike is None or key[0] <= unlike)
    shared = [*before, *((entry, other.told[key]) for key, entry in told if key in other.told)]
    apart = [(mine, its) for mine, its in shared if reply_of(mine) != reply_of(its)]
    if not apart:
        return []
    mine, its = min(apart, key=lambda each: each[0].number)
    words = record.words_of(mine.line)
    atom = f" of atom {words[2].decode()}" if words[0] == b"SHOW" else ""
    replies = f"`{shown(mine.first)}` and `{shown(its.first)}`"
    if mine.first == its.first:
        replies = f"`{shown(mine.first)}` in both, and the lines below it are others"
    first = f"the first reply{atom} that differs, after {_steps(one.made)}, {sides.where(mine, its)}"
    return [f"{first}: `{shown(mine.line)}`: {replies}; `verify` tells which is false"]


def _parted(sides: Sides, pair: Tuple[Moment, Moment]) -> List[str]:
    """The report on both sessions, played up to here, if they differ."""
    presents = sides.presents(pair)
    replays = sides.replays()
    if None in presents:
        return [] if presents[0] is presents[1] else [f"the session is gone in {sides.names[presents.index(None)]} alone"]
    if told := _apart(sides, presents):
        return [told]
    if replays[0].loaded == replays[1].loaded:
        return []
    told = f"their atoms interact otherwise: {_interactions(replays[0])}, and {_interactions(replays[1])}"
    for _ in range(FOLLOWED_STEPS):
        for replay in replays:
            replay.step(1)
        if apart := _apart(sides, [replay.present() for replay in replays]):
            return [told, apart]
    return [told, f"no atom is elsewhere {FOLLOWED_STEPS} steps later"]


def _interactions(replay: Replay) -> str:
    classes: Any = replay.loaded.classes if replay.loaded else ()
    return ", ".join(f"sigma {sigma} ring units, h {h}, weight {weight}" for sigma, h, weight in classes)


def _apart(sides: Sides, presents: List[Optional[Present]]) -> str:
    """The report on the first atom that differs in its place, now or one step before. Empty if all agree, in any order."""
    one, other = (present for present in presents if present is not None)
    if sorted(one.atoms) == sorted(other.atoms) and (one.step, one.direction) == (other.step, other.direction):
        return ""
    if len(one.atoms) != len(other.atoms):
        return f"step {one.step}: {sides.names[0]} has {len(one.atoms)} atoms, and {sides.names[1]} {len(other.atoms)}"
    if (one.step, one.direction) != (other.step, other.direction):
        return f"step {one.step} and direction {one.direction}, and step {other.step} and direction {other.direction}"
    number, mine, its = next((number, *both) for number, both in enumerate(zip(one.atoms, other.atoms)) if both[0] != both[1])
    return f"the first atom that differs, at step {one.step}: atom {number}, {_told_atom(*mine)}, and {_told_atom(*its)}"


def _told_atom(symbol: str, place: Tuple[int, ...], before: Tuple[int, ...]) -> str:
    return f"{symbol} at {' '.join(map(str, place))} from {' '.join(map(str, before))}"


def _ended(sides: Sides, pair: Tuple[Moment, Moment], told: List[str]) -> Tuple[int, List[str]]:
    """The exit status and report where a record ends, or both."""
    one, other = pair
    if one.is_end and other.is_end and len(one.changes) == len(other.changes):
        return SAME, [*told, f"both have the same trajectory: {_steps(one.made)}"]
    is_first_longer = other.is_end and (not one.is_end or len(one.changes) > len(other.changes))
    longer, shorter = sides.names if is_first_longer else reversed(sides.names)
    return DIFFERS, [*told, f"they agree up to the end of {shorter}: {_steps(one.made)}; {longer} goes on"]


def first_unlike(first: Path, second: Path) -> str:
    """The report on the first lines of two records with different commands or replies. Empty if there are none."""
    both = ((entry for entry in RecordFile(path).entries() if entry.mark is Mark.REPLY) for path in (first, second))
    for one, other in zip(*both):
        if (command_of(one), reply_of(one)) != (command_of(other), reply_of(other)):
            return f"line {one.number}, `{shown(one.line)}`, and line {other.number}, `{shown(other.line)}`"
    return ""


def options_of_diff(words: List[str]) -> argparse.Namespace:
    """The options of the command line."""
    usage = "python3 -m ljclient diff A B [--program PROGRAM]"
    parser = Parser("ljclient", usage, ABOUT, formatter_class=argparse.RawDescriptionHelpFormatter, allow_abbrev=False)
    parser.add_argument("first", metavar="A", help="a record")
    parser.add_argument("second", metavar="B", help="another record")
    parser.add_argument("--program", metavar="PROGRAM", help="the program to play them over; else the one that ljclient.run starts")
    options, unknown = parser.parse_known_args(words)
    parser.refuse(unknown)
    if options.program == "":
        parser.error("--program must be the path of a program, got an empty one")
    return options


def compare(options: argparse.Namespace) -> int:
    """Compares two records, and prints the result."""
    first, second = plan_of(options.first), plan_of(options.second)
    for plan in (first, second):
        if not any(plan.played):
            raise Trouble(f"cannot compare {plan.file.path}: it has no command with a reply")
    with contextlib.ExitStack() as stack:
        status, told = difference(Sides((first, second), options.program, stack))
    if status == SAME and (unlike := first_unlike(options.first, options.second)):
        told.append(f"the first commands that are not the same: {unlike}")
    for line in told:
        say(line)
    return status


def main(words: List[str]) -> int:
    """Compares the records of the command line, and returns the exit status."""
    options = options_of_diff(words)
    try:
        return compare(options)
    except BrokenPipeError:
        let_go()
    except OSError as error:
        complain(f"cannot read {error.filename}: {error.strerror or error}" if not isinstance(error, ClientError) else str(error))
    except (ClientError, Damaged, Trouble, ValueError) as error:
        complain(str(error))
    except KeyboardInterrupt:
        complain("interrupted")
    return TROUBLE
