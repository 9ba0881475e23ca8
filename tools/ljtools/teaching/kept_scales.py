"""The scales of the sessions of a class, as prompts have noted them. Each is valid until its session is loaded again."""
from __future__ import annotations

import json
import os
import pathlib
from typing import Dict, Tuple

from ..keeping.sessions import Sessions

MAX_TEXT = 4 << 10
FOLDER = "scales"


class KeptScales:
    """A file for each student, in the folder of the class."""

    def __init__(self, folder: pathlib.Path):
        self._folder = folder / FOLDER

    def of(self, name: str, sessions: Sessions) -> Dict[str, str]:
        """The kept scales of these sessions, by session name."""
        return {session: text for session, (_, text) in self._kept(name, sessions).items()}

    def put(self, name: str, sessions: Sessions, session: str, text: str) -> bool:
        """Keeps a scale. Returns False if there is no session of this name, or the scale is longer than MAX_TEXT."""
        loaded = sessions.by_name.get(session.encode("utf-8", "replace"))
        if loaded is None or len(text) > MAX_TEXT:
            return False
        kept = {**self._kept(name, sessions), session: (loaded.id, text)}
        self._folder.mkdir(mode=0o700, exist_ok=True)
        partial = self._folder / f"{name}.part"
        partial.write_text(json.dumps(kept))
        os.replace(partial, self._folder / f"{name}.json")
        return True

    def _kept(self, name: str, sessions: Sessions) -> Dict[str, Tuple[int, str]]:
        """The entries of the file whose sessions have the same load records. Empty if it cannot be read."""
        loaded = {session.decode(): each.id for session, each in sessions.by_name.items()}
        try:
            told = json.loads((self._folder / f"{name}.json").read_text())
            return {session: (int(id), str(text)) for session, (id, text) in told.items() if loaded.get(session) == id}
        except (OSError, ValueError, TypeError, AttributeError):
            return {}
