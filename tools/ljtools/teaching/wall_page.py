"""A wall that is open in a browser: the data that it has, and whom it looks at."""
from __future__ import annotations

import contextlib
import json
from typing import Collection, Dict, Iterator, List, Tuple

from .pictures import Picture
from .wall import Wall

# Limit of pictures in one message, so that those of a large class are sent in several messages.
MOST_AT_ONCE = 40


class WallPage:
    """The state of one wall."""

    def __init__(self, wall: Wall):
        self._wall = wall
        self._rows = self._look = ""
        self._pictures: Dict[Tuple[str, int], Picture] = {}
        self.looks_at = ""

    def hear(self, message: str, names: Collection[str]) -> None:
        """Takes in whom it looks at from now on: one of `names`, or else nobody."""
        with contextlib.suppress(ValueError, RecursionError):
            words = json.loads(message)
            name = words.get("look") if isinstance(words, dict) else None
            self.looks_at, self._look = name if isinstance(name, str) and name in names else "", ""

    def news(self, rows: str, now: float) -> Iterator[str]:
        """The messages to the wall, with these rows of all students."""
        if rows != self._rows:
            self._rows = rows
            yield rows
        if pictures := self._new_pictures():
            yield json.dumps({"pictures": [{"student": name, **picture.told(now)} for name, picture in pictures]})
        if self.looks_at and (look := json.dumps({"look": self._wall.look(self.looks_at)})) != self._look:
            self._look = look
            yield look

    def _new_pictures(self) -> List[Tuple[str, Picture]]:
        """Some pictures that it does not have yet."""
        told = {(name, picture.version[0]): picture for name, picture in self._wall.pictures}
        new = [key for key, picture in told.items() if self._pictures.get(key) is not picture][:MOST_AT_ONCE]
        self._pictures = {key: picture for key, picture in self._pictures.items() if key in told}
        self._pictures.update((key, told[key]) for key in new)
        return [(key[0], told[key]) for key in new]
