"""The requests of one page and their answers: which atoms it shows, and what is done with them."""
from __future__ import annotations

import contextlib
import json
from dataclasses import dataclass
from typing import Any, List, Optional, Sequence

from .. import ClientError, User
from ..refusals import NoSession
from .own import OwnSessions, Unknown
from .scenes import Scene
from .stage import KEPT, START, Lost, Stage
from .typed import replied, typed
from .wishes import Answer, Wish, number_in


@dataclass(frozen=True)
class Choice:
    """What pages can show.

    scenes  the atoms that can be loaded for a page
    own     the sessions of the user at a server, if there is one
    """

    scenes: Sequence[Scene]
    own: Optional[OwnSessions] = None


class Talk:
    """The conversation with a page. It begins with the first of the user's sessions, or else with the first scene.

    number  the number of the page, for the name of the session that is loaded for it
    """

    def __init__(self, choice: Choice, number: int):
        self._choice = choice
        self._loaded = f"view-{number}"
        self._stage: Optional[Stage] = None
        self._shared = ""
        self._has_loaded = False

    def begin(self, user: User) -> str:
        """The first message to the page."""
        names = self._own_names(user)
        return self._answered(user, {"do": "load", "session": names[0]} if names else {"do": "load", "scene": 0})

    def answer(self, user: User, message: str) -> str:
        """The answer to a message. A request that fails changes nothing."""
        try:
            wish = json.loads(message)
        except (ValueError, RecursionError) as error:
            return json.dumps({"error": str(error)})
        return self._answered(user, wish if isinstance(wish, dict) else {})

    def end(self, user: User) -> None:
        """Deletes what was loaded and saved for the page. If the connection ends meanwhile, it must be called again."""
        self._leave(user)
        if self._has_loaded:
            with contextlib.suppress(NoSession):
                user.ask(f"DROP {self._loaded}")
            self._has_loaded = False
        if self._choice.own is not None:
            self._choice.own.give_up(user)

    def lose(self) -> None:
        """Makes the next request find the session again: somebody else may have advanced it."""
        if self._stage is not None:
            self._stage.is_lost = True

    def typed(self, user: User, commands: Any) -> List[List[str]]:
        """The lines of the replies to typed commands."""
        return typed(commands, lambda line, body: replied(user, line, body.encode()))

    def left(self) -> List[str]:
        """What was to be deleted but may still be at the server, in words."""
        sessions = [self._shared] if self._shared else []
        sessions += [] if self._choice.own is None else self._choice.own.left()
        loaded = [f"the session {self._loaded}"] if self._has_loaded else []
        return [*loaded, *(f"the branches {START} and {KEPT} of {name}" for name in sessions)]

    def _answered(self, user: User, wish: Wish) -> str:
        try:
            if wish.get("do") == "load":
                return json.dumps(self._load(user, wish))
            if wish.get("do") == "commands":
                self.lose()
                return json.dumps({"told": self.typed(user, wish.get("commands")), **self._choices(user)})
            if self._stage is None:
                raise ValueError("cannot answer: no atoms are loaded yet; choose some first")
            return json.dumps(self._stage.answer(user, wish))
        except Unknown as unknown:
            return json.dumps({**unknown.asks(), "choice": self._choices(user)})
        except Lost as error:
            return json.dumps({"error": str(error), "lost": True, "choice": self._choices(user)})
        except (ClientError, ValueError) as error:
            return json.dumps({"error": str(error)})

    def _load(self, user: User, wish: Wish) -> Answer:
        """Switches to other atoms. The answer has their properties and their first frame."""
        session = wish.get("session")
        if session is None:
            number = number_in(wish, "scene", 0, len(self._choice.scenes) - 1)
            scene = self._choice.scenes[number].changed(wish)
            self._leave(user)
            self._stage = self._staged(user, scene)
            chosen = {"number": number, "session": None, "title": scene.title, "settings": scene.settings()}
        else:
            name = str(session)
            if self._choice.own is None or name not in self._own_names(user):
                raise ValueError(f"cannot show {name}: there is no session of this name; choose another")
            stage = self._choice.own.stage(user, name, wish)
            self._leave(user)
            self._stage, self._shared = stage, name
            chosen = {"number": None, "session": name, "title": name, "settings": None}
        assert self._stage is not None
        first = self._stage.shown(user)
        likeness = first.pop("likeness")
        return {**first, "scene": {**chosen, **self._choices(user), **likeness}}

    def _staged(self, user: User, scene: Scene) -> Stage:
        """A scene, loaded for this page."""
        self._has_loaded = True
        scene.begin(user, self._loaded)
        stage = Stage(user, self._loaded, scene.scale, True, f"{self._loaded}-2")
        stage.begin()
        return stage

    def _leave(self, user: User) -> None:
        """Stops showing atoms on the page."""
        stage, shared = self._stage, self._shared
        if stage is not None and not shared:
            stage.end_second_of(user)
        self._stage, self._shared = None, ""
        if shared and self._choice.own is not None:
            self._choice.own.leave(user, shared)

    def _own_names(self, user: User) -> List[str]:
        return [] if self._choice.own is None else self._choice.own.names(user)

    def _choices(self, user: User) -> Answer:
        """The scenes and sessions to choose from."""
        return {"titles": [scene.title for scene in self._choice.scenes], "sessions": self._own_names(user)}
