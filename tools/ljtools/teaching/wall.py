"""The contents of the wall of a class: who is in, and each student's sessions, last command and last refusal. For a student who is
looked at, also the last commands with their replies.

All of it is from what the front has heard. Typed commands are shown, but not those that a page sends by its buttons.
"""
import re
from collections import deque
from typing import Any, Deque, Dict, List, Mapping, Optional, Tuple

from ljclient.view.own import PREFIX
from ljclient.view.stage import NAMES

from ..keeping.items import Item
from ..keeping.sessions import KEPT
from ..keeping.user import User
from ..watching import Connection
from .pictures import Pictures, is_shown

MOST_SHOWN = 60
# Limits for a student who is looked at: commands, lines of a reply, characters of a line, and bytes of a reply.
MOST_COMMANDS, MOST_LINES, MOST_LONG, MOST_BYTES = 20, 6, 160, 2048
# Prefixes of names that the client uses for itself, and of sessions for pages.
OF_CLIENT, OF_PAGES = b"ljclient-", PREFIX.encode()
SECRET = re.compile(r"[A-Za-z0-9]{32,}")


class Heard:
    """What was heard of a student."""

    def __init__(self) -> None:
        self.refusal = ""
        self._last: Deque[Tuple[bytes, bytes]] = deque(maxlen=MOST_COMMANDS)

    def hear(self, item: Item, reply: bytes, is_typed: bool) -> None:
        """Takes in a command and its reply."""
        line = item.raw.partition(b"\n")[0]
        first = reply.partition(b"\n")[0]
        if is_typed and not any(word.startswith((OF_CLIENT, OF_PAGES)) for word in item.words):
            self._last.append((line, reply[:MOST_BYTES]))
            self.refusal = first.decode() if first.startswith(b"ERR ") else self.refusal

    @property
    def command(self) -> str:
        """The last command."""
        return shown(self._last[-1][0]) if self._last else ""

    def talk(self) -> List[Tuple[str, List[str]]]:
        """The last commands, each with the lines of its reply."""
        return [(shown(line, MOST_LONG), shown_reply(reply)) for line, reply in self._last]


def shown(line: bytes, most: int = MOST_SHOWN) -> str:
    """A command as others may see it: without tokens, and shortened if it is long."""
    text = SECRET.sub("..", line.decode("ascii", "replace").strip())
    text = "".join(letter if letter.isprintable() else "?" for letter in text)
    return text if len(text) <= most else f"{text[: most - 3]}..."


def shown_reply(reply: bytes) -> List[str]:
    """The first lines of a reply as others may see them."""
    lines = [shown(line, MOST_LONG) for line in reply.split(b"\n") if line]
    return lines if len(lines) <= MOST_LINES else [*lines[: MOST_LINES - 1], ".."]


class Wall:
    """What the front of a class has heard of all students."""

    def __init__(self) -> None:
        self._heard: Dict[str, Heard] = {}
        self.pictures = Pictures()

    def hear(self, user: User, item: Item, reply: bytes, is_typed: bool) -> None:
        """Takes in a command and its reply."""
        self.of(user.name).hear(item, reply, is_typed)
        if len(item.words) > 1 and item.words[0] in KEPT and reply.startswith(b"OK "):
            self.pictures.of(user.name).note_change(item.words[1])

    def of(self, name: str) -> Heard:
        return self._heard.setdefault(name, Heard())

    def rows(self, names: List[str], users: Mapping[str, User], seen: List[Connection], pages: Mapping[str, int]) -> List[Dict[str, Any]]:
        """The row of each student. `seen` are the connections that are open."""
        prompts = {each.user for each in seen if each.state == "in"}
        return [self._row(name, users.get(name), name in prompts, pages.get(name, 0)) for name in names]

    def _row(self, name: str, user: Optional[User], has_prompt: bool, pages: int) -> Dict[str, Any]:
        heard = self.of(name)
        known = {"name": name, "prompt": has_prompt, "pages": pages, "command": heard.command, "refusal": heard.refusal}
        has = {"sessions": [], "shown": None} if user is None else {"sessions": sessions_of(user), "shown": self._shown(user)}
        return {**known, **has, "why": user.stopped if user else ""}

    def _shown(self, user: User) -> Optional[int]:
        """The number of the session whose picture is shown."""
        return next((each.id for each in self.pictures.of(user.name).by_change(user.sessions.by_name)), None)

    def look(self, name: str) -> Dict[str, Any]:
        """The data of a student who is looked at, beside the row."""
        return {"name": name, "talk": self.of(name).talk()}


def sessions_of(user: User) -> List[Dict[str, Any]]:
    """The data of a student's sessions. Those of its pages have no name."""
    return [
        {
            "id": each.id,
            "name": "" if name.startswith(OF_PAGES) else name.decode(),
            "step": each.place.step,
            "direction": each.place.direction,
            "atoms": each.atoms,
            "saved": sum(branch.decode() not in NAMES for branch in each.branches),
        }
        for name, each in user.sessions.by_name.items()
        if is_shown(name)
    ]
