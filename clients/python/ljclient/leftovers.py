"""Repairs sessions that were being read, changed or replaced when a connection was lost, or warns of them.

A branch of a reserved name, or a note on this machine's disk, has the state of the session (`guards`). Another connection may have
advanced the session since then. So it is restored only if it is at most one step from that state after a look, or at the same step after a
change. Otherwise both are left as they are, and a warning says so.
"""
from __future__ import annotations

import contextlib
from typing import TYPE_CHECKING, Any, Dict, Iterable, List, Optional, Tuple

from . import arrays, reading
from .disk_notes import Note, notes_of, saved_files_of
from .guards import CHANGE, LOOK, REPLACING
from .order import Order, Place
from .refusals import NoSession
from .replacing import gone_of
from .replies import fields, number_after, whole_number
from .tugs import tugs_of
from .warning import warn_caller

if TYPE_CHECKING:
    from .loading import Loader


class LeftWarning(UserWarning):
    """A connection was lost while it changed or read a session. The message states what is left, and what you can do.

    If the quota has no room for another branch, the client writes a note to this machine's disk: step, direction and, for a change,
    the frame. Notes are in `~/.local/state/ljclient`, or in `ljclient` in `$XDG_STATE_HOME`. The next `connect` from this account to
    the same address restores the session from the note, if nobody else has changed the session. Other machines, accounts and clients
    cannot read the note: they may find the session a step forward or back, reversed, or with some of its atoms tugged. Without room
    for a branch, atoms that are kept in the order of space are not sorted again.

    `load(.., replace=True)`, `load_saved` and `copy` first load the new session as `ljclient-new`, so a bad file loses nothing. If the
    connection is lost between the DROP of the old session and the LOAD of the new one, `connect` warns that the old session is gone,
    and that the new one is there as `ljclient-new`: load your file once more. If the quota has no room for both, the client first
    saves the old session, without its branches, to a file in that folder, and the error names the file. The client must know the scale
    of the session for that.
    """


def put_right(user: "Loader") -> None:
    """Repairs all sessions of a user, and then warns of what was repaired and what was left."""
    rows = [fields(line, 4) for line in user.ask("LIST").lines]
    names, told = [name for name, *_ in rows], []
    if REPLACING in names:
        told.append(_replacement(user, names))
    steps = {name: whole_number(step) for name, step, _, branches in rows if name != REPLACING and whole_number(branches)}
    for name, saved in _saved_in(user, list(steps)):
        told += _branches(user, name, steps[name], saved)
    notes, damaged = notes_of(user.address, user.name or "")
    told += [_noted(user, note, note.owned.session in names) for note in notes]
    told += [f"{path} is no note of this client: delete it" for path in damaged]
    told += _saved_files(user, names)
    _tell(told)


def _saved_in(user: "Loader", names: List[str]) -> List[Tuple[str, List[str]]]:
    """The lines of LIST of each of these sessions, without sessions that the user's page in a class has dropped since."""
    lists = [f"LIST {name}" for name in names]
    with contextlib.suppress(NoSession):
        return [(name, reply.lines) for name, reply in zip(names, user.ask_all(lists))]
    found = []
    for name, line in zip(names, lists):
        with contextlib.suppress(NoSession):
            found.append((name, user.ask(line).lines))
    return found


def session(user: "Loader", name: str, step: int, saved: Iterable[str]) -> None:
    """Repairs a session from its branches, and warns of it. `saved` are the lines of its branches, and `step` is the server's step
    number after its pending steps."""
    _tell(_branches(user, name, step, saved))


def _tell(texts: Iterable[Optional[str]]) -> None:
    for text in texts:
        if text is not None:
            warn_caller(text, LeftWarning)


def _branches(user: "Loader", name: str, step: int, saved: Iterable[str]) -> List[str]:
    """Repairs a session from its branches, and returns the texts of the warnings."""
    steps: Dict[str, int] = {branch: whole_number(at) for branch, at in (fields(line, 2) for line in saved)}
    known, told = user._known_of(name), []
    known.left = frozenset()
    for branch, reach, what in ((LOOK, 1, "looked at it"), (CHANGE, 0, "changed the motion of its atoms")):
        if branch not in steps:
            continue
        lost = f"an earlier connection was lost while it {what}: {name} was at the server's step {steps[branch]}"
        if abs(step - steps[branch]) <= reach:
            user._ask_rows([f"RESTORE {name} {branch}", f"FORGET {name} {branch}"])
            told.append(f"{lost}, and is as it was there")
        else:
            known.left |= {branch}
            told.append(
                f"{lost}, and is at {step} now, so it was left: `RESTORE {name} {branch}` goes back to {steps[branch]}, and `FORGET "
                f"{name} {branch}` stays at {step}; use it at the prompt, or by user.ask"
            )
    return told


def _replacement(user: "Loader", names: List[str]) -> Optional[str]:
    """Drops the replacement of a session, unless the session is gone already. The replacement has a branch of the session's name."""
    gone = gone_of(user, names)
    if gone is None:
        user.ask(f"DROP {REPLACING}")
        return None
    return (
        f"an earlier connection was lost while {gone} was replaced, which is gone: what was to replace it is there as {REPLACING}. "
        f"Load {gone} once more"
    )


def _saved_files(user: "Loader", names: Iterable[str]) -> List[str]:
    """The warnings of sessions that are gone, and that were saved to files because they were to be replaced."""
    return [
        f"{name} is not there, and {path} has it as it was before an earlier connection replaced it: user.load_saved(..) loads it; "
        f"delete the file if it is not wanted"
        for name, path in saved_files_of(user.address, user.name or "")
        if name not in names
    ]


def _noted(user: "Loader", note: Note, is_there: bool) -> Optional[str]:
    """Repairs a session from a note on the disk, and returns the warning. A note of a session that is gone is deleted."""
    name = note.owned.session
    if not is_there:
        note.remove()
        return None
    wait = f"ADVANCE {name} 0"
    step = number_after(wait, user.ask(wait).words, 2)
    back = _turned_back if note.before is None else _changed_back
    lost = f"an earlier connection was lost while {name} was at the server's step {note.step}"
    if abs(step - note.step) <= 1 and back(user, note, step):
        note.remove()
        return f"{lost}, and it is as it was there"
    return f"{lost}, as {note.path} says; {name} is elsewhere now, so it was left: look at it, and delete that file"


def _turned_back(user: "Loader", note: Note, step: int) -> bool:
    """Brings a session back to the step and direction of a note, from where a look may have left it. Returns whether it was there; if not,
    the session stays as it was.

    With step n and direction d of the note, a look may leave the session at (n, d), (n + d, d), (n, -d) or (n - d, -d).
    """
    name, n = note.owned.session, note.step
    turn, on = f"REVERSE {name}", f"ADVANCE {name} 1"
    turned = number_after(turn, user.ask(turn).words, 2)
    now = step - turned
    # If only REVERSE was under way, the session is at (n, d) or (n - d, -d).
    d = note.direction if note.direction is not None else now if step == n else -now
    # The commands that lead back to the note, after the REVERSE above.
    ways: Dict[Tuple[int, int], List[str]] = {(n, d): [turn], (n + d, d): [on, turn], (n, -d): [turn, on, turn], (n - d, -d): []}
    way = ways.get((step, now))
    if way is not None:
        user._ask_rows(way)
        if [whole_number(word) for word in user.ask(f"MEASURE {name}").words[2:]] == list(note.measured):
            return True
        user._ask_rows([line for each in reversed(way) for line in ([turn, on, turn] if each == on else [turn])])
    user._ask_rows([turn])
    return False


def _changed_back(user: "Loader", note: Note, step: int) -> bool:
    """Moves the atoms to the places that a note has for one step before. Returns whether the session was the one of the note; if not,
    it stays as it was."""
    name, before = note.owned.session, note.before or ()
    turn = f"REVERSE {name}"
    if user._row(name).atoms != len(before):
        return False
    is_turned = step != note.step
    if is_turned and number_after(turn, user.ask(turn).words, 2) != note.step:
        user._ask_rows([turn])
        return False
    shows = reading.shows(name, len(before))
    rows = user._ask_rows([*shows, turn, *shows, turn])
    places, there = (_listed(each.places) for each in reading.both_of(name, len(before), rows))
    if places != [tuple(place) for place in note.places or ()]:
        user._ask_rows([turn] if is_turned else [])
        return False
    user._ask_rows(tugs_of(name, Order(), there, before))
    return True


def _listed(places: Any) -> List[Place]:
    return [(x, y, z) for x, y, z in arrays.listed(places)]
