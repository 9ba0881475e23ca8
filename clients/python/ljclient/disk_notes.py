"""Notes on this machine's disk: the state of a session before a look or a change that the server had no room to save.

They are files of the folder `ljclient` in the user's folder of state (`XDG_STATE_HOME`, else `~/.local/state`). A note, `.json`,
exists while the look or change may be incomplete. A session that is replaced is saved there meanwhile, `.saved`, if the quota has
no room for it beside the new one. Other machines have no access to either.
"""
from __future__ import annotations

import contextlib
import dataclasses
import os
import re
from typing import TYPE_CHECKING, Any, Callable, Dict, Iterator, List, Optional, Sequence, Tuple

from .errors import ClientError
from .files import write_whole
from .later import Later
from .order import Place

if TYPE_CHECKING:
    import hashlib
    import json
    import pathlib
    import secrets
else:
    hashlib, json, pathlib, secrets = map(Later, ("hashlib", "json", "pathlib", "secrets"))

FORMAT = "ljclient note 1"
THIS_MACHINE = ("127.0.0.1", "::1", "[::1]")
DIGITS = 16
MEASURED = 7
# The session's name, a hash of server, user and session, and for a saved session digits that make the file unique.
SHAPE = re.compile(rf"([A-Za-z0-9_-]{{1,16}}?)-[0-9a-f]{{{DIGITS}}}(?:-[0-9a-f]{{8}})?\.[a-z]+")


@dataclasses.dataclass(frozen=True)
class Owned:
    """The session that a file belongs to.

    server         the address as given, HOST:PORT
    user, session  their names
    """

    server: str
    user: str
    session: str

    def path(self, ending: str) -> pathlib.Path:
        """The path of its file with this ending."""
        host, _, port = self.server.rpartition(":")
        words = "\n".join(("localhost" if host in THIS_MACHINE else host, port, self.user, self.session))
        return folder() / f"{self.session}-{hashlib.sha256(words.encode()).hexdigest()[:DIGITS]}{ending}"


@dataclasses.dataclass(frozen=True)
class Note:
    """The state of a session, in the server's numbers.

    owned           its server, user and name
    measured        its reply to MEASURE: step, atoms, three of momentum, kinetic number and potential
    direction       1 or -1: the change of the step number by the next step. None if only REVERSE was under way
    places, before  for a change, the places of all atoms then and a step before; None for a look
    """

    owned: Owned
    measured: Sequence[int]
    direction: Optional[int] = None
    places: Optional[Sequence[Place]] = None
    before: Optional[Sequence[Place]] = None

    @property
    def step(self) -> int:
        return self.measured[0]

    @property
    def is_sound(self) -> bool:
        """Whether it has the form of a written note."""
        numbers = [*self.measured, *(part for place in (*(self.places or ()), *(self.before or ())) for part in place)]
        is_whole = len(self.measured) == MEASURED and all(type(number) is int for number in numbers)
        is_change = (self.places is None) == (self.before is None) and len(self.places or ()) == len(self.before or ())
        return is_whole and is_change and self.direction in (None, 1, -1)

    @property
    def path(self) -> pathlib.Path:
        return self.owned.path(".json")

    def write(self) -> None:
        """Writes it to the disk. Raises ClientError if this fails."""
        told = dataclasses.asdict(self)
        del told["owned"]
        try:
            made_folder()
            write_whole(self.path, json.dumps({"format": FORMAT, **told}).encode())
        except OSError as error:
            why = error.strerror or error
            text = f"the quota of branches is used up, and {self.path} cannot be written ({why}): forget a branch"
            raise ClientError(text) from error

    def remove(self) -> None:
        """Removes its file."""
        with contextlib.suppress(FileNotFoundError):
            self.path.unlink()


def folder() -> pathlib.Path:
    """The folder of these files."""
    state = os.environ.get("XDG_STATE_HOME") or os.path.join(os.path.expanduser("~"), ".local", "state")
    return pathlib.Path(state) / "ljclient"


def made_folder() -> None:
    """Makes the folder if it is missing."""
    folder().mkdir(mode=0o700, parents=True, exist_ok=True)


@contextlib.contextmanager
def noted(note: Note) -> Iterator[Callable[[Note], None]]:
    """Keeps a note on the disk within the block. The function that is given replaces it by another note of the same session. The
    note stays if the block raises."""
    note.write()
    yield Note.write
    note.remove()


def saved_file_of(owned: Owned) -> pathlib.Path:
    """The path of a new file, for a session that is to be replaced. OSError if the folder cannot be made."""
    made_folder()
    return owned.path(f"-{secrets.token_hex(4)}.saved")


def saved_files_of(server: str, user: str) -> List[Tuple[str, pathlib.Path]]:
    """The files of a user's sessions at a server that were to be replaced, each with the name of its session."""
    return _files_of(server, user, ".saved")


def notes_of(server: str, user: str) -> Tuple[List[Note], List[pathlib.Path]]:
    """The notes of a user's sessions at a server, and files of other form."""
    read = [(_read(Owned(server, user, name), path), path) for name, path in _files_of(server, user, ".json")]
    return [note for note, _ in read if note is not None], [path for note, path in read if note is None]


def _files_of(server: str, user: str, ending: str) -> List[Tuple[str, pathlib.Path]]:
    found = ((SHAPE.fullmatch(path.name), path) for path in sorted(folder().glob(f"*{ending}")))
    named = [(shape[1], path) for shape, path in found if shape]
    return [(name, path) for name, path in named if path.name.startswith(Owned(server, user, name).path("").name)]


def _read(owned: Owned, path: pathlib.Path) -> Optional[Note]:
    try:
        told: Dict[str, Any] = json.loads(path.read_text())
        if told.pop("format") != FORMAT:
            return None
        frames = {name: told[name] and [(x, y, z) for x, y, z in told[name]] for name in ("places", "before")}
        note = Note(owned, **{**told, **frames})
        return note if note.is_sound else None
    except (OSError, ValueError, TypeError, KeyError, AttributeError, RecursionError):
        return None
