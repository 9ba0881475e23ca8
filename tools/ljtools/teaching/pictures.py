"""Small pictures of the sessions of a class. The front gets the frame of one session of a student at a time, by a DUMP between two
commands of that student.

It sends no DUMP while steps are pending, or while the session is looked at or changed as one unit. Of many atoms a part is shown.
"""
from __future__ import annotations

import base64
import contextlib
import re
import time
from array import array
from typing import Any, Collection, Dict, Iterator, List, Mapping, NamedTuple, Optional, Tuple

from ljclient.guards import RESERVED
from ljclient.view.own import PREFIX
from ljclient.view.scenes import edge_in_sigma

from ..keeping.sessions import Session, Task
from ..keeping.user import User
from .students import scale_of

SECONDS_BETWEEN_PICTURES = 3.0
# Limit of pictures asked for at once, so that those of a large class are spread in time.
MOST_AT_ONCE = 4
MOST_ATOMS = 256
# Resolution of places, and of the first place of an atom, which sets its colour.
PLACES, SHADES = 1 << 16, 32
LINES_BEFORE_ATOMS = 3
GUARDS = {name.encode() for name in RESERVED}
# Sessions that are not shown: the client's own ones, and second runs of pages.
HIDDEN = re.compile(rf"ljclient-.*|{PREFIX}(?:[0-9]+-2|own-[0-9]+)".encode())
# The number of a loaded session, and how often it was changed.
Version = Tuple[int, int]


class Picture(NamedTuple):
    """A session at a moment: its step and direction, and some of its atoms, each by three places and a shade."""

    version: Version
    step: int
    direction: int
    edge: float
    atoms: "array[int]"
    since: float

    def told(self, now: float) -> Dict[str, Any]:
        """The data for a page. It has an age, not a time, since clocks of machines differ."""
        drawn = base64.b64encode(self.atoms.tobytes()).decode()
        known = {"session": self.version[0], "step": self.step, "direction": self.direction, "edge": self.edge}
        return {**known, "age": round(now - self.since, 1), "drawn": drawn}


def is_shown(name: bytes) -> bool:
    """Whether a session of this name is shown."""
    return not HIDDEN.fullmatch(name)


def places_in(dump: bytes, edge: float) -> "array[int]":
    """The places in the reply to a DUMP, of the atoms that are shown. Raises ValueError if it is no such reply."""
    rows = dump.split(b"\n")[LINES_BEFORE_ATOMS:-1]
    shown = rows[:: -(-len(rows) // MOST_ATOMS) or 1]
    words = [float(word) for row in shown for word in row.split()[1:]]
    if not dump.startswith(b"OK DUMP ") or len(words) != 3 * len(shown):
        raise ValueError("the reply is no frame")
    return array("H", (int(word / edge * PLACES) % PLACES for word in words))


class Album:
    """The pictures of one student's sessions, by session number."""

    def __init__(self) -> None:
        self.pictures: Dict[int, Picture] = {}
        self.asked = 0.0
        # How often each session was changed since the class was begun. The one that was changed last is at the end.
        self._changes: Dict[bytes, int] = {}
        self._shades: Dict[int, List[int]] = {}

    def note_change(self, name: bytes) -> None:
        self._changes[name] = self._changes.pop(name, 0) + 1

    def by_change(self, sessions: Mapping[bytes, Session]) -> List[Session]:
        """The sessions that may have pictures, beginning with the one that was changed last."""
        unchanged = [name for name in sessions if name not in self._changes]
        names = [name for name in (*unchanged, *self._changes) if name in sessions and is_shown(name)]
        return [sessions[name] for name in reversed(names)]

    def due(self, sessions: Mapping[bytes, Session], is_looked_at: bool) -> Optional[Session]:
        """A session that needs a new picture, if any. If the student is not looked at, only the last changed one is checked."""
        shown = self.by_change(sessions)
        return next((each for each in (shown if is_looked_at else shown[:1]) if self._is_old(each)), None)

    def forget(self, sessions: Mapping[bytes, Session]) -> None:
        """Forgets what is known of sessions that are gone."""
        there = {each.id for each in sessions.values()}
        self.pictures = {id: picture for id, picture in self.pictures.items() if id in there}
        self._shades = {id: shades for id, shades in self._shades.items() if id in there}
        self._changes = {name: count for name, count in self._changes.items() if name in sessions}

    def _version(self, session: Session) -> Version:
        return session.id, self._changes.get(session.name, 0)

    def _is_old(self, session: Session) -> bool:
        picture = self.pictures.get(session.id)
        return picture is None or picture.version != self._version(session)

    def dumped(self, user: User, name: bytes) -> Task[None]:
        """Takes a picture of a session, if it exists when its turn comes, and no look or change is under way."""
        session = user.sessions.by_name.get(name)
        if session is None or not GUARDS.isdisjoint(session.branches):
            return
        (reply,) = yield [b"DUMP %s\n" % name]
        with contextlib.suppress(ValueError, ArithmeticError):
            self._take(session, reply)

    def _take(self, session: Session, reply: bytes) -> None:
        scale = scale_of(session.text)
        places = places_in(reply, scale.edge)
        shades = self._shades.setdefault(session.id, [place * SHADES // PLACES for place in places[::3]])
        atoms = array("H", (each for at, shade in enumerate(shades) for each in (*places[3 * at : 3 * at + 3], shade)))
        where = session.place.step, session.place.direction
        self.pictures[session.id] = Picture(self._version(session), *where, edge_in_sigma(scale), atoms, time.monotonic())


class Pictures:
    """The pictures of all students."""

    def __init__(self) -> None:
        self._albums: Dict[str, Album] = {}

    def of(self, name: str) -> Album:
        return self._albums.setdefault(name, Album())

    def ask(self, users: Mapping[str, User], looked_at: Collection[str]) -> None:
        """Asks for some due pictures, first of students who were asked longest ago."""
        now = time.monotonic()
        waiting = [user for user in users.values() if self.of(user.name).asked + SECONDS_BETWEEN_PICTURES <= now]
        left = MOST_AT_ONCE
        for user in sorted(waiting, key=self._asked):
            album = self.of(user.name)
            session = album.due(user.sessions.by_name, user.name in looked_at)
            if session is not None and left:
                album.forget(user.sessions.by_name)
                album.asked, left = now, left - 1
                user.read(album.dumped(user, session.name))

    def _asked(self, user: User) -> float:
        return self.of(user.name).asked

    def __iter__(self) -> Iterator[Tuple[str, Picture]]:
        """All pictures, each with the name of its student."""
        return ((name, picture) for name, album in self._albums.items() for picture in album.pictures.values())
