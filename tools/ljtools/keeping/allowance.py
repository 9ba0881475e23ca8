"""The limit of the steps that a user may ask for in a day."""
import json
import time
from typing import Any, Container, Dict, Iterable, List, Optional

from .items import Words
from .sessions import MAX_STEPS

SECONDS_OF_A_DAY = 86400
Known = Dict[str, Any]


def today() -> int:
    """The number of the day, by UTC."""
    return int(time.time()) // SECONDS_OF_A_DAY


def steps_of(words: Words) -> int:
    """How many steps a command asks for, or 0 if a server cannot do it."""
    is_one = len(words) == 3 and words[0] in (b"ADVANCE", b"START") and words[2].isdigit()
    steps = int(words[2]) if is_one else 0
    return steps if steps <= MAX_STEPS else 0


class Allowance:
    """The steps that a user has asked for in a day, and their limit."""

    def __init__(self, most: int, day: int = 0, steps: int = 0, is_used_up: bool = False):
        """Begins at `steps` asked for on a `day`. It is used up once a command asked for too many."""
        self._most, self._day, self._steps, self._is_used_up = most, day, steps, is_used_up

    def takes(self, words: Words) -> bool:
        """Counts the steps of a command. Returns False if they are more than are left today. Unanswered commands count too."""
        steps = steps_of(words)
        if steps and self._day != today():
            self._day, self._steps, self._is_used_up = today(), 0, False
        if steps and self._steps + steps > self._most:
            return False
        self._steps += steps
        return True

    def gives_back(self, words: Words) -> None:
        """Subtracts the steps of a command that was refused."""
        self._steps = max(self._steps - steps_of(words), 0)

    def use_up(self) -> bool:
        """Notes that too many steps were asked for. Returns whether it is the first time on this day."""
        before, self._is_used_up = self._is_used_up, True
        return not before

    def known(self) -> Known:
        """Its entry in the status."""
        is_today = self._day == today()
        return {"day": self._day, "steps": self._steps, "is_used_up": self._is_used_up} if is_today else {}


class Allowances:
    """The allowances of all users, if there is a limit."""

    def __init__(self, most: Optional[int]):
        self._most = most
        self._by_name: Dict[str, Allowance] = {}

    def of(self, name: str, told: Iterable[str]) -> Optional[Allowance]:
        """The allowance of a user. It begins with the largest entry of the statuses."""
        if self._most is None:
            return None
        if name not in self._by_name:
            days: List[Known] = [{}, *(today_in(each, name) for each in told)]
            self._by_name[name] = Allowance(self._most, **max(days, key=lambda each: (each.get("day", 0), each.get("steps", 0))))
        return self._by_name[name]

    def known(self, users: Container[str]) -> Known:
        """The entries in the status of all but `users`, who have their own."""
        return {name: known for name, each in self._by_name.items() if name not in users and (known := each.known())}


def today_in(status: str, name: str) -> Known:
    """The entry for a user's steps in a status."""
    try:
        known = json.loads(status)
        return dict(known["users"].get(name, {}).get("today") or known["today"][name])
    except (ValueError, KeyError):
        return {}
