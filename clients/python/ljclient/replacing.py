"""Replaces a session by another one of the same name: the old session stays until the server has accepted the new one.

The new session is first loaded under a reserved name. So its faults are reported while the old session is still there, and if
the connection is lost, the next connection finds what is left (`leftovers`). If the quota has no room for both, the old session
is saved to a file meanwhile.
"""
from __future__ import annotations

import contextlib
from typing import TYPE_CHECKING, Callable, Iterator, List, Optional, Sequence

from .disk_notes import Owned, saved_file_of
from .errors import ClientError, Refused
from .guards import REPLACING, RESERVED, branches_of
from .interrupts import held
from .later import Later
from .refusals import Memory, QuotaAtoms, QuotaBranches, QuotaSessions
from .state import Command

if TYPE_CHECKING:
    import pathlib

    from . import checkpoint
    from .loading import Loader
else:
    checkpoint = Later(".checkpoint")

# The most commands of a replacement, without those that read the old session. They all use one connection.
COMMANDS = 20
NO_PLACE = (QuotaSessions, QuotaAtoms, QuotaBranches, Memory)
# Returns the command that loads a session under a name.
CommandOf = Callable[[str], Command]


@contextlib.contextmanager
def replacing(user: "Loader", name: str, command_of: CommandOf, is_wanted: bool) -> Iterator[List[Command]]:
    """Lets the block load a session of this name by its command, after the yielded commands. If `is_wanted`, these drop an old
    session of that name. An interrupt waits until the end of the block.

    Raises the refusal, and changes nothing, if the server refuses the new session.
    """
    if not is_wanted and REPLACING not in user.session_names:
        yield []
        return
    with held(), user.lock:
        user._make_room(COMMANDS)
        rows = [row.name for row in user.sessions()]
        gone = gone_of(user, rows)
        if not is_wanted or name not in rows:
            yield []
            if name == gone:
                user.ask(f"DROP {REPLACING}")
            return
        if gone is not None:
            raise ValueError(f"cannot load: {gone} is gone, and what was to replace it is there as {REPLACING}; load {gone} first")
        if REPLACING in rows:
            user.ask(f"DROP {REPLACING}")
        with _replaced(user, name, command_of):
            yield [(f"DROP {name}", b"")]


def gone_of(user: "Loader", rows: Sequence[str]) -> Optional[str]:
    """The session that is gone because an earlier connection was lost while it was replaced, if there is one."""
    names = branches_of(user, REPLACING) if REPLACING in rows else []
    return next((name for name in names if name not in (*RESERVED, *rows)), None)


@contextlib.contextmanager
def _replaced(user: "Loader", name: str, command_of: CommandOf) -> Iterator[None]:
    """Keeps the new session under the reserved name, or the old one in a file, while the block drops the old and loads the new one."""
    if _is_taken(user, name, command_of):
        with _told(name, f"what was to replace it is there as {REPLACING}"):
            yield
            user.ask(f"DROP {REPLACING}")
        return
    path = _saved(user, name)
    with _told(name, f"as it was, but for what `branch` saved in it, it is in {path}, and user.load_saved(..) loads it"):
        yield
    path.unlink()


def _saved(user: "Loader", name: str) -> pathlib.Path:
    """Saves a session to a file, and returns its path. Raises ValueError or ClientError, and changes nothing, if that fails."""
    state = user._state_of(name)
    if state.mixture is None and len(set(state.symbols)) > 1:
        raise ValueError(
            f"cannot replace {name}: the quota has no room beside it, and how its species interact is not known; use drop first"
        )
    try:
        path = saved_file_of(Owned(user.address, user.name or "", name))
        checkpoint.write(state, path)
    except OSError as error:
        raise ClientError(
            f"cannot replace {name}: the quota has no room beside it, and it cannot be saved ({error}); use drop first"
        ) from error
    return path


def _is_taken(user: "Loader", name: str, command_of: CommandOf) -> bool:
    """Loads the new session under the reserved name, with a branch that has the name of the old one. Returns whether there is
    room for both."""
    try:
        user._ask_commands([command_of(REPLACING)])
    except NO_PLACE:
        return False
    except Refused as refusal:
        raise type(refusal)(command_of(name)[0], refusal.line, refusal.number, refusal.name, refusal.meaning) from None
    try:
        user.ask(f"BRANCH {REPLACING} {name}")
    except NO_PLACE:
        user.ask(f"DROP {REPLACING}")
        return False
    return True


@contextlib.contextmanager
def _told(name: str, where: str) -> Iterator[None]:
    """Adds to an error of the block where the session is."""
    try:
        yield
    except ClientError as error:
        error.more = f"if {name} is gone, {where}"
        raise
    except OSError as error:
        raise ClientError(f"{error}; if {name} is gone, {where}") from error
