"""A branch of a reserved name, which restores a session if the connection is lost while the session is read or changed.

A look makes steps and reverses the motion, and a change tugs many atoms one after the other. Both begin with BRANCH of a reserved
name, and end with FORGET. If the connection is lost in between, the next connection restores the branch (`leftovers`). If the
quota has no room for a branch, a note on this machine's disk has the state of the session (`disk_notes`). A program of its own
ends with its connection, so it needs neither.
"""
from __future__ import annotations

import contextlib
import dataclasses
from typing import TYPE_CHECKING, Collection, Iterator, List, NamedTuple, Optional, Sequence, Tuple

from .disk_notes import Note, Owned, noted
from .errors import ClientError, Refused
from .interrupts import held
from .names import checked_name
from .order import Place
from .refusals import BranchExists, Memory, QuotaBranches
from .replies import number_after, whole_number

if TYPE_CHECKING:
    from .loading import Loader

LOOK = "ljclient-look"
CHANGE = "ljclient-change"
# The name of a new session until it has replaced another one.
REPLACING = "ljclient-new"
RESERVED = frozenset((LOOK, CHANGE))
# The most commands that a guard adds to the guarded ones. All of them go over one connection.
MOST_OF_A_GUARD = 10
NO_PLACE = (BranchExists, QuotaBranches, Memory)


class Way(NamedTuple):
    """The commands that restore a session in a look.

    turned   after REVERSE
    stepped  after a step
    end      at the end, when it is restored
    """

    turned: Tuple[str, ...]
    stepped: Tuple[str, ...]
    end: Tuple[str, ...] = ()

    @staticmethod
    def by_turns(name: str) -> "Way":
        """By its own motion: n steps and REVERSE, done twice, lead back."""
        turn, step = f"REVERSE {name}", f"ADVANCE {name} 1"
        return Way((turn,), (turn, step, turn))

    @staticmethod
    def by_branch(name: str) -> "Way":
        """By the branch of the look."""
        restore = (f"RESTORE {name} {LOOK}",)
        return Way(restore, restore, (f"FORGET {name} {LOOK}",))


@contextlib.contextmanager
def look(user: "Loader", name: str, count: int) -> Iterator[Way]:
    """A look at a session by `count` commands, which leaves it as it was. Steps that were started before are waited for first;
    then an interrupt waits until the end.

    The block must send the commands of the yielded `Way`, and its `end` last.
    """
    with _begun(user, name, count):
        if not user._outlasts_connections:
            yield Way.by_turns(name)
        elif (step := _saved(user, name, LOOK)) is not None:
            with _put_back(user, name, LOOK, step):
                yield Way.by_branch(name)
        else:
            with _noted(user, name):
                yield Way.by_turns(name)


@contextlib.contextmanager
def change(user: "Loader", name: str, places: Sequence[Place], before: Sequence[Place]) -> Iterator[Tuple[str, ...]]:
    """A change of many atoms of a session by tugs. Places now and one step before are in the server's order.

    The yielded commands end the change, and must be the last ones that the block sends. An interrupt waits until then.
    """
    with _begun(user, name, len(before)):
        if not user._outlasts_connections:
            yield ()
        elif (step := _saved(user, name, CHANGE)) is not None:
            with _put_back(user, name, CHANGE, step):
                yield (f"FORGET {name} {CHANGE}",)
        else:
            with _noted(user, name, places, before):
                yield ()


@contextlib.contextmanager
def turning(user: "Loader", name: str, count: int) -> Iterator[Tuple[str, ...]]:
    """As `change`, for `count` commands that reverse a session or advance it by a step. It is guarded like a look.

    Raises a refusal of NO_PLACE, and changes nothing, if the quota has no room for the branch.
    """
    with _begun(user, name, count):
        if not user._outlasts_connections:
            yield ()
            return
        line = f"BRANCH {name} {LOOK}"
        with _forgotten(user, name, LOOK):
            step = number_after(line, user.ask(line).words, 3)
        with _put_back(user, name, LOOK, step):
            yield (f"FORGET {name} {LOOK}",)


@contextlib.contextmanager
def _begun(user: "Loader", name: str, count: int) -> Iterator[None]:
    """Lets `count` commands of a session use one connection, after steps that were started, and keeps its known direction. An
    interrupt waits until the end."""
    known = user._known_of(name)
    if known.is_started:
        user.ask(f"ADVANCE {name} 0")
        known.is_started = False
    with held(), user.lock:
        user._make_room(count + MOST_OF_A_GUARD)
        known = user._known_of(name)
        direction = known.direction
        try:
            yield
        finally:
            known.direction = direction


def _saved(user: "Loader", name: str, branch: str) -> Optional[int]:
    """Saves a session under a reserved name. Returns the server's step, or None if there is no room for it."""
    line = f"BRANCH {name} {branch}"
    try:
        with _forgotten(user, name, branch):
            return number_after(line, user.ask(line).words, 3)
    except NO_PLACE:
        return None


@contextlib.contextmanager
def _put_back(user: "Loader", name: str, branch: str, step: int) -> Iterator[None]:
    """Restores and forgets a reserved branch if the block fails. If the connection is lost, the error states the old step instead."""
    with _said_if_lost(user, name, step, user._known_of(name).direction), _forgotten(user, name, branch):
        yield


@contextlib.contextmanager
def _forgotten(user: "Loader", name: str, branch: str) -> Iterator[None]:
    """Restores the session at once if the block is interrupted or fails, and the connection is still open. A branch that an
    earlier connection has left stays."""
    try:
        yield
    except NO_PLACE:
        raise
    except BaseException:
        with contextlib.suppress(ClientError):
            if not user.closed and branch not in user._known_of(name).left and branch in branches_of(user, name):
                user._ask_rows([f"RESTORE {name} {branch}", f"FORGET {name} {branch}"])
        raise


@contextlib.contextmanager
def _noted(user: "Loader", name: str, places: Optional[Sequence[Place]] = None, before: Optional[Sequence[Place]] = None) -> Iterator[None]:
    """Keeps a note of the state of the session on the disk during the block. In a look, two REVERSE commands show its direction."""
    line = f"MEASURE {name}"
    measured = [whole_number(word) for word in user.ask(line).words[2:]]
    note = Note(Owned(user.address, user.name or "", name), measured, places=places, before=before)
    with _said_if_lost(user, name, note.step, user._known_of(name).direction, "the next connection from this machine"), noted(note) as keep:
        if before is None:
            back = user._ask_rows([f"REVERSE {name}", f"REVERSE {name}"]).split(b"\n")[0]
            keep(dataclasses.replace(note, direction=note.step - int(back.split(b" ")[-1])))
        yield


@contextlib.contextmanager
def _said_if_lost(user: "Loader", name: str, step: int, direction: Optional[int], whose: str = "the next connection") -> Iterator[None]:
    """Adds to the error of a lost connection the step and direction of the session before, and who restores it."""
    try:
        yield
    except ClientError as error:
        if user.closed and not isinstance(error, Refused):
            order = user._known_of(name).order
            turned = "" if direction is None else f", direction {order.direction * direction:+}"
            what = f"{name} was at step {order.step_of(step)}{turned} before that"
            error.more = f"{what}, and {whose} puts it back there unless all was done"
        raise


def checked_branch(name: str) -> str:
    """A name to save a simulation under. Raises ValueError for other values, and for reserved names."""
    return _checked(name, RESERVED)


def checked_session(name: str) -> str:
    """A name for a session. Raises ValueError for other values, and for reserved names."""
    return _checked(name, (REPLACING, *RESERVED))


def _checked(name: str, reserved: Collection[str]) -> str:
    if checked_name(name) in reserved:
        raise ValueError(f"a name must not be one that this client keeps for itself, got {name!r}; use another name")
    return name


def branches_of(user: "Loader", name: str) -> List[str]:
    """The names of all branches of a session, including the reserved ones."""
    return [line.split(" ")[0] for line in user.ask(f"LIST {name}").lines]
