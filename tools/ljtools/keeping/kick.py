"""Ends the connections of a user, by a file NAME.kick in the folder of a front or a note in its database, which the front removes."""
import contextlib
import json
import pathlib
import time
from typing import Callable

from ..user_files import Fault
from .place import KICK, STATUS, database_at, is_address, shown_place

SECONDS_TO_WAIT = 5.0


def kick(place: str, name: str) -> None:
    """Asks a user's front to end the user's connections, and waits for that. Raises Fault without such a front or user."""
    (kick_in_database if is_address(place) else kick_in_folder)(place, name)
    print(f"{name}: all connections are ended")


def kick_in_folder(place: str, name: str) -> None:
    asked = pathlib.Path(place, f"{name}{KICK}")
    try:
        if name not in json.loads(pathlib.Path(place, STATUS).read_text())["users"]:
            raise Fault(f"cannot end the connections of {name}: {place} has no such user")
        # Even for root, this follows no link that the folder's owner made.
        with contextlib.suppress(FileExistsError):
            asked.touch(0o600, exist_ok=False)
    except (OSError, ValueError, KeyError) as error:
        raise Fault(f"cannot use {place}: {getattr(error, 'strerror', None) or 'it has no status'}") from error
    if not comes_to_end(asked.exists):
        asked.unlink(missing_ok=True)
        raise Fault(f"cannot end the connections of {name}: no front uses {place}")


def kick_in_database(place: str, name: str) -> None:
    with contextlib.closing(database_at(place)) as base:
        if not base.ask_to_kick(name):
            raise Fault(f"cannot end the connections of {name}: no front of {shown_place(place)} has this user")
        if not comes_to_end(lambda: base.is_to_kick(name)):
            base.take_back_kick(name)
            raise Fault(f"cannot end the connections of {name}: the front of this user does not answer")


def comes_to_end(is_asked: Callable[[], bool]) -> bool:
    """Waits until `is_asked` returns False. Returns whether it did so in time."""
    end = time.monotonic() + SECONDS_TO_WAIT
    while is_asked():
        if time.monotonic() > end:
            return False
        time.sleep(0.05)
    return True
