"""Whether a command was done if its reply was lost, from the sessions before it and what a new connection finds.

Commands are sent in batches, each of changes and then reads. Any two prefixes of the changes of a batch lead to different
replies to LIST, LIST of a session or MEASURE. So these replies show which prefix was done, and nothing is done twice. One exception is
RESTORE, which leads to the same state if it is repeated. A read is repeated, with the same reply.

Nothing here reads or writes: `ljclient.retrying` does.
"""
from __future__ import annotations

from dataclasses import dataclass, field, replace
from typing import Dict, Hashable, List, Mapping, NamedTuple, Optional, Sequence, Set, Tuple

from .errors import BadReply, Undecided, shown
from .expected import LOADS, READS, Expected, Motion, Sessions, Vector, after, parsed, vector
from .record import Answer
from .replies import fields, whole_number, whole_numbers
from .state import Command

# The most changes of a batch.
MOST_CHANGES = 256
# The changes that wait for the pending steps of their session.
WAITING = ("ADVANCE", "REVERSE", "BRANCH", "RESTORE", "TUG")
# Changes that the server may refuse for reasons of its own. Later commands depend on that, so each is sent alone.
ALONE = (*LOADS, "BRANCH")


@dataclass(frozen=True)
class Found:
    """What a connection finds.

    rows    step or target, atoms and number of branches of each session, in order of loading
    saved   name and step of each branch, for the sessions where this was asked for
    drifts  the drift of each session that was measured
    """

    rows: Mapping[str, Tuple[int, int, int]]
    saved: Mapping[str, Sequence[Tuple[str, int]]] = field(default_factory=dict)
    drifts: Mapping[str, Vector] = field(default_factory=dict)


class Done(NamedTuple):
    """What was done: the lost replies, one to each of the first commands of a batch, and the present sessions."""

    replies: List[bytes]
    sessions: Sessions


def is_read(line: str) -> bool:
    """Whether this is a reading command, refused or not."""
    return line.partition(" ")[0] in READS


def lacking(sessions: Sessions, line: str) -> Optional[str]:
    """The command that must be sent before this one: MEASURE before TUG, so that the drift is known, and LIST of a session before
    BRANCH, RESTORE and FORGET, so that its branches are known. None if nothing is lacking."""
    words = parsed(line)
    here = sessions.get(words.name) if words else None
    if words is None or here is None:
        return None
    if words.verb in ("BRANCH", "RESTORE", "FORGET") and here.saved is None:
        return f"LIST {words.name}"
    if words.verb == "TUG" and here.motion.drift is None and after(sessions, line)[0] is not sessions:
        return f"MEASURE {words.name}"
    return None


def batch_of(sessions: Sessions, lines: Sequence[str]) -> int:
    """How many of these commands may be under way together, from the first on. Nothing is lacking before the first."""
    keys: Set[Hashable] = {key_of(sessions)}
    changes = 0
    for count, line in enumerate(lines):
        if is_read(line):
            continue
        if count and lacking(sessions, line):
            return count
        cases = after(sessions, line)
        if cases[0] is sessions and len(cases) == 1:
            continue
        if count and not _may_follow(cases, line, keys, is_behind_read=changes < count):
            return count
        changes += 1
        keys.update(map(key_of, cases))
        is_last = len(cases) > 1 or parsed_verb(line) in ALONE or changes == MOST_CHANGES
        if is_last or not _is_known_alike(sessions, cases[0], line):
            return count + 1
        sessions = cases[0]
    return len(lines)


def _is_known_alike(sessions: Sessions, following: Sessions, line: str) -> bool:
    """Whether the drift of a session is known, or unknown, both before and after a command: else it cannot tell the two apart."""
    name = line.split()[1]
    both = [each[name].motion.drift is None for each in (sessions, following) if name in each]
    return len(set(both)) < 2


def _may_follow(cases: Sequence[Sessions], line: str, keys: Set[Hashable], is_behind_read: bool) -> bool:
    """Whether a change that leads to one of these cases may follow other commands in a batch."""
    return not is_behind_read and parsed_verb(line) not in (*ALONE, "RESTORE") and keys.isdisjoint(map(key_of, cases))


def key_of(sessions: Sessions) -> Hashable:
    """What a connection would find, as far as this is known."""
    return tuple((name, each.atoms, each.count, each.motion.step, each.motion.drift, _saved_key(each)) for name, each in sessions.items())


def _saved_key(session: Expected) -> Hashable:
    return None if session.saved is None else tuple((name, motion.step) for name, motion in session.saved.items())


def decide(sessions: Sessions, commands: Sequence[Command], found: Found) -> Done:
    """How many commands of a batch were done, from the sessions before it and what is found now.

    Raises `Undecided` if what is found fits neither the sessions before the batch nor those after any of its changes.
    """
    cases, replies = [sessions], []
    if (told := _fit(sessions, found)) is not None:
        return Done([], told)
    for line, body in commands:
        following = after(cases[-1], line, body)
        if following[0] is cases[-1]:
            break
        told = next((fit for fit in (_fit(case, found) for case in following) if fit is not None), None)
        replies.append(reply_of(line, told or following[0]))
        if told is not None:
            return Done(replies, told)
        cases += following
    raise _undecided(cases, [command for command, _ in commands], found)


def _fit(sessions: Sessions, found: Found) -> Optional[Sessions]:
    """These sessions, completed with what is found. None if what is found does not fit them."""
    if list(sessions) != list(found.rows):
        return None
    fits = {name: _fit_of(name, each, found) for name, each in sessions.items()}
    told = {name: each for name, each in fits.items() if each is not None}
    return told if len(told) == len(fits) else None


def _fit_of(name: str, session: Expected, found: Found) -> Optional[Expected]:
    step, atoms, count = found.rows[name]
    saved, drift = found.saved.get(name), found.drifts.get(name)
    if (step, count) != (session.motion.step, session.count) or session.atoms not in (None, atoms):
        return None
    if saved is not None and session.saved is not None and list(saved) != [(each, at.step) for each, at in session.saved.items()]:
        return None
    if drift is not None and session.motion.drift not in (None, drift):
        return None
    return replace(session, atoms=atoms)


def reply_of(line: str, sessions: Sessions) -> bytes:
    """The first line of the reply to a change that led to these sessions."""
    words = parsed(line)
    assert words is not None
    verb, name, others = words
    here = sessions.get(name)
    told: List[object] = [verb, name]
    if verb in ("BRANCH", "RESTORE", "FORGET"):
        told.append(others[0])
    elif verb == "TUG":
        told.append(int(others[0]))
    if here is not None and verb != "FORGET":
        told.append(here.motion.step)
    if here is not None and verb in LOADS:
        told.append(here.atoms)
    return " ".join(map(str, ["OK", *told])).encode()


def followed(sessions: Optional[Sessions], answer: Answer) -> Optional[Sessions]:
    """The sessions after a command and its reply. None if the reply does not fit what was known of them."""
    line, words = answer.line.decode(), answer.first.decode("ascii").split(" ")
    if is_read(line) or words[0] != "OK":
        return sessions_told(sessions, words, answer.rest) if words[0] == "OK" else sessions
    if sessions is None or parsed(line) is None:
        return sessions
    fits = [case for case in after(sessions, line, answer.body) if _is_told(line, case, words)]
    if not fits or (fits[0] is sessions and words[1] not in ("ADVANCE", "START", "TUG")):
        return None
    if words[1] in LOADS:
        return _with_atoms(fits[0], words)
    return _waited_for(fits[0], words) if words[1] not in ("START", "FORGET", "DROP") else fits[0]


def parsed_verb(line: str) -> str:
    """The first word of a command."""
    return (line.split() or [""])[0]


def _waited_for(sessions: Sessions, words: Sequence[str]) -> Sessions:
    """The sessions, with no pending steps in the session of a reply."""
    here = sessions[words[2]]
    return {**sessions, words[2]: replace(here, is_pending=False)} if here.is_pending else sessions


def _is_told(line: str, case: Sessions, words: Sequence[str]) -> bool:
    """Whether the words of a reply to a command are those expected in this case of the sessions."""
    wanted = reply_of(line, case).decode().split(" ")
    return wanted[:-1] == list(words[:-1]) if words[1] in LOADS else wanted == list(words)


def _with_atoms(sessions: Sessions, words: Sequence[str]) -> Sessions:
    return {**sessions, words[2]: replace(sessions[words[2]], atoms=whole_number(words[-1]))}


def sessions_told(sessions: Optional[Sessions], words: Sequence[str], rest: Sequence[bytes]) -> Optional[Sessions]:
    """The sessions, completed with the reply to a reading command."""
    lines = [line.decode("ascii") for line in rest]
    if words[1] == "LIST" and len(words) == 3:
        return _listed(sessions, rows_of(lines))
    here = None if sessions is None else sessions.get(words[2])
    if sessions is None or here is None:
        return sessions
    if words[1] == "LIST":
        if here.saved is None:
            here = replace(here, saved={name: Motion(step) for name, step in saved_of(lines)}, count=len(lines))
    elif words[1] == "MEASURE":
        here = replace(here, motion=replace(here.motion, drift=drift_of(words)))
    told = sessions if here is sessions[words[2]] else {**sessions, words[2]: here}
    return told if words[1] == "LIST" else _waited_for(told, words)


def _listed(sessions: Optional[Sessions], rows: Mapping[str, Tuple[int, int, int]]) -> Sessions:
    """The sessions in the reply to LIST, with what was known of them if that fits."""
    told = None if sessions is None else _fit(sessions, Found(rows))
    if told is not None:
        return told
    return {name: Expected(atoms, Motion(step), None if count else {}, count) for name, (step, atoms, count) in rows.items()}


def rows_of(lines: Sequence[str]) -> Dict[str, Tuple[int, int, int]]:
    """Step, number of atoms and number of branches of each session, from the lines of LIST."""
    rows = {}
    for line in lines:
        name, *numbers = fields(line, 4)
        step, atoms, count = whole_numbers(numbers, 3)
        rows[name] = (step, atoms, count)
    return rows


def saved_of(lines: Sequence[str]) -> List[Tuple[str, int]]:
    """Name and step of each branch of a session, from the lines of LIST."""
    return [(name, whole_number(step)) for name, step in (fields(line, 2) for line in lines)]


def drift_of(words: Sequence[str]) -> Vector:
    """The drift in the words of a reply to MEASURE, from `OK` on."""
    if len(words) != 10:
        raise BadReply(f"{' '.join(words)[:80]!r} is not a measurement")
    return vector([whole_number(word) for word in words[5:8]])


def asked_of(sessions: Sessions, commands: Sequence[Command], rows: Mapping[str, Tuple[int, int, int]]) -> List[str]:
    """The commands to send beside LIST, for `decide`: LIST of sessions whose branches were known, and MEASURE of sessions whose drift was
    known. A session with pending steps is measured only if a command of the batch waits for these. Commands that do not wait are
    distinguished without the drift."""
    words = [each for each in (parsed(line) for line, _ in commands) if each is not None]
    waiting = {each.name for each in words if each.verb in WAITING}
    names = [name for name in rows if name in sessions]
    lists = [f"LIST {name}" for name in names if rows[name][2] and sessions[name].saved is not None]
    known = [name for name in names if sessions[name].motion.drift is not None]
    return lists + [f"MEASURE {name}" for name in known if name in waiting or not sessions[name].is_pending]


def _undecided(cases: Sequence[Sessions], lines: Sequence[str], found: Found) -> Undecided:
    """The error that what is found fits no state that the commands lead to."""
    names = list(dict.fromkeys(name for each in (found.rows, *cases) for name in each))
    told = {name: _difference(name, [case.get(name) for case in cases], found) for name in names}
    states = [f"{name} is {text}" for name, text in told.items() if text]
    is_gone = bool(states) and all(name not in found.rows for name, text in told.items() if text)
    return Undecided(shown(lines[0]) if lines else "", states or [f"the sessions are {', '.join(found.rows)}, in another order"], is_gone)


def _difference(name: str, cases: Sequence[Optional[Expected]], found: Found) -> str:
    """The found and the expected state of a session, as text. Empty if it is as before the commands, or as one of them leaves it."""
    if name in found.rows and any(case is not None and _fit_of(name, case, found) for case in cases):
        return ""
    if name not in found.rows and None in cases:
        return ""
    step, atoms, count = found.rows.get(name, (0, 0, 0))
    there = f"at step {step} with {count} saved" if name in found.rows else "gone"
    wanted = ["gone" if case is None else f"at step {case.motion.step} with {case.count} saved" for case in cases]
    if there not in wanted:
        return f"{there}, and would be {' or '.join(dict.fromkeys(wanted))}"
    if all(case is None or case.atoms not in (None, atoms) for case in cases):
        return f"of {atoms} atoms"
    saved = ", ".join(f"{branch} at {at}" for branch, at in found.saved.get(name, ()))
    return f"{there}{f' ({saved})' if saved else ''}, changed otherwise"
