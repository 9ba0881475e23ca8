"""Studies: folders with the records of all sessions, parameters, results, versions and the data of figures, and one manifest.

`python3 -m ljclient verify FOLDER` plays the records again, and checks that each file is unchanged.
"""
from __future__ import annotations

import contextlib
import dataclasses
import os
import platform
import re
import shutil
import threading
from types import TracebackType
from typing import TYPE_CHECKING, Any, Callable, Dict, List, Optional, Sequence, Set, Type

from . import checkpoint as checkpoints
from .files import Path, write_whole
from .interrupts import held
from .names import count_of, shortened, whole_of
from .record import FORMAT as RECORD
from .record_file import RecordFile
from .state import State
from .study_citation import citation_of
from .study_manifest import CITATION, FINISHED, KINDS, MANIFEST, OPEN, UNFINISHED, Manifest, listed_file
from .study_values import Values, figure_file
from .connecting import connect, run
from .user import User

if TYPE_CHECKING:
    from .session import Session

NAME = re.compile(r"[A-Za-z0-9_][A-Za-z0-9_.-]{0,63}\Z")
MOST_OF_WHY = 200
NOT_OPEN = "cannot add to a study that is not open; use it within `with study(folder) as s:`"


def study(folder: Path, title: str = "", authors: Sequence[str] = ()) -> "Study":
    """Starts a study in a folder. `with` begins and ends it.

    Parameters
    ----------
    folder : path
        A folder that does not exist yet, or is empty.
    title : str, optional
        The title in the citation. The default is the name of the folder.
    authors : sequence of str, optional
        The names of its authors, for the citation.

    Returns
    -------
    Study
        The study, for `with`.

    Raises
    ------
    ValueError
        At the start of `with`, if the folder is not empty or not a folder. It is left unchanged.

    Examples
    --------
    >>> import tempfile
    >>> from ljclient import state_points, study
    >>> with tempfile.TemporaryDirectory() as place:
    ...     with study(f"{place}/fluid") as s:
    ...         s.parameters["density"] = 0.2
    ...         fluid = s.run().load("fluid", state_points.lattice("fcc", density=0.2, atoms=32), sigma=1, h=4295)
    ...         s.keep("steps", fluid.advance(2, piece=2))
    ...     print(s.state, sorted(s.manifest.files))
    finished ['records/fluid.lj']
    """
    if isinstance(authors, str) or not all(isinstance(each, str) for each in (title, *authors)):
        raise TypeError(f"title must be a text and authors a list of texts, got {title!r} and {authors!r}")
    for text in (title, *authors):
        text.encode("utf-8")
    return Study(folder, title, authors)


class Study:
    """A study. `study` returns one. Within its `with` block, several threads may use it.

    Attributes
    ----------
    folder : str
        The folder. `study.json` in it lists each file.
    parameters : dict
        The parameters of the study: `s.parameters["density"] = 0.8`. Values are numbers, texts, arrays, and lists and dicts of them.
    results : dict
        The results, which `keep` stores.
    manifest : Manifest
        The contents of `study.json`.
    """

    def __init__(self, folder: Path, title: str = "", authors: Sequence[str] = ()):
        self.folder = os.fspath(folder)
        named = title or os.path.basename(os.path.abspath(self.folder))
        self.manifest = Manifest(title=named, authors=list(authors))
        self.parameters = Values(self.manifest.parameters, self._check_open, self._write)
        self.results = Values(self.manifest.results, self._check_open, self._write)
        self._lock = threading.RLock()
        self._is_open = False
        self._users: List[User] = []
        self._taken: Set[str] = set()

    def __repr__(self) -> str:
        return f"Study({self.folder!r}, {self.state})"

    @property
    def state(self) -> str:
        """`open`, `finished`, or `unfinished` if an error has ended the study."""
        return self.manifest.state

    @property
    def sum(self) -> str:
        """The SHA-256 of `study.json`, for a paper. Raises ValueError while the study is open."""
        if self.state == OPEN:
            raise ValueError("cannot give the SHA-256 of a study that is open: it is written at its end; use `sum` after `with`")
        return self.manifest.sum

    def __enter__(self) -> "Study":
        if self._is_open or self.state != OPEN or self._taken:
            raise ValueError(f"cannot begin {self.folder}: the study was begun already; use study(..) with another folder")
        _make(self.folder)
        for each in KINDS:
            os.mkdir(os.path.join(self.folder, each))
        self.manifest.versions = _versions()
        self._is_open = True
        self._write()
        return self

    def __exit__(self, kind: Optional[Type[BaseException]], error: Optional[BaseException], trace: Optional[TracebackType]) -> None:
        with held(), self._lock:
            try:
                self._close_users()
            except BaseException as other:
                self._end(other if error is None else error)
                raise
            self._end(error)

    def run(self, *words: Any, **named: Any) -> User:
        """Starts a program for one user, as `ljclient.run` does. It is closed with the study.

        Parameters
        ----------
        *words : object
            As in `ljclient.run`.
        **named : object
            As in `ljclient.run`.

        Returns
        -------
        User
            The user. Its sessions are recorded in the study, except those loaded with another `record`.
        """
        return self._recorded(lambda: run(*words, **named))

    def connect(self, *words: Any, **named: Any) -> User:
        """Connects a user to a server, as `ljclient.connect` does. The connection is closed with the study.

        Parameters
        ----------
        *words : object
            As in `ljclient.connect`.
        **named : object
            As in `ljclient.connect`.

        Returns
        -------
        User
            The user. Its sessions are recorded in the study, except those loaded with another `record`.
        """
        return self._recorded(lambda: connect(*words, **named))

    def keep(self, name: str, value: Any) -> None:
        """Keeps a result.

        Parameters
        ----------
        name : str
            Its name. A result with this name is replaced.
        value : object
            A number, a text, None, an array, or a list, dict, NamedTuple or dataclass of these, such as `analysis.Estimate`.

        Raises
        ------
        TypeError
            If the value has another type. Nothing is changed then.
        """
        self.results[name] = value

    def figure(self, name: str, data: Any) -> str:
        """Keeps the data of a figure: as CSV if they are columns of one length, else as arrays that `numpy.load` reads.

        Parameters
        ----------
        name : str
            The name of the file, without an ending: up to 64 letters, digits, `_`, `-` or `.`.
        data : dict, array or dataclass
            Columns or arrays by name; an array, of shape (n, 2) for x and y; or a result of `ljclient.analysis` or
            `ljclient.reversal`, whose arrays are kept.

        Returns
        -------
        str
            The path of the new file.

        Raises
        ------
        ValueError
            If a figure has this name, or if the name or the data are not valid.
        """
        ending, text = figure_file(name, data)
        return self._put("figures", f"{_checked(name)}{ending}", lambda place: write_whole(place, text))

    def add(self, path: Path, name: str = "") -> str:
        """Keeps a copy of a file, such as a script or a picture. A record is verified with the study.

        Parameters
        ----------
        path : path
            The file. Add a record after its run has ended, since lines that are written later are not copied.
        name : str, optional
            The name of the copy. The default is the name of the file.

        Returns
        -------
        str
            The path of the new copy.

        Raises
        ------
        ValueError
            If the study has a file of this name, the name is not valid, or the file is a damaged record.
        """
        with open(path, "rb") as file:
            is_record = file.read(len(RECORD)) == RECORD
        if is_record:
            for _ in RecordFile(path).entries():
                pass
        copied = name or os.path.basename(os.fspath(path))
        return self._put("records" if is_record else "files", _checked(copied), lambda place: _copy(path, place))

    def checkpoint(self, session: "Session") -> str:
        """Saves the whole state of a session, from which `verify` can play a part of its record.

        `verify` plays several parts at the same time, and compares the end of each part with the next checkpoint, so that all parts
        together prove the whole record. `checkpoint` waits for steps that were started. No part starts at a checkpoint if the session
        has a branch there, if the edge is below 4.294967296, or if `verify` plays over a server. Then the state is only compared.

        Parameters
        ----------
        session : Session
            A session of a user that `run` or `connect` of this study has returned.

        Returns
        -------
        str
            The path of the checkpoint, which `User.load_saved` reads. Atoms and steps in it have the server's numbers.

        Raises
        ------
        ValueError
            If the session has no record in this study.
        """
        user, name = session.user, session.name
        with self._lock, user.lock:
            self._check_open()
            record = user._record_of(name)
            path = None if record is None else self._path_of(record.path)
            if record is None or path is None:
                raise ValueError(f"cannot add {name}: it has no record in this study; use a user of s.run() or s.connect() to load it")
            with user.unrecorded(name):
                state = _of_server(user, name)
            more = {"record": path, "after": record.sum}
            stem = f"{os.path.splitext(os.path.basename(path))[0]}."
            return self._put("checkpoints", self._free("checkpoints", stem, ".saved"), lambda place: checkpoints.write(state, place), more)

    def advance(self, session: "Session", n: int, every: int, progress: Any = False) -> int:
        """Advances a session, and saves a checkpoint after every `every` steps.

        Parameters
        ----------
        session : Session
            As in `checkpoint`.
        n, every : int
            The number of steps, and the number of steps between two checkpoints.
        progress : bool or callable, optional
            As in `Session.advance`, for each stretch.

        Returns
        -------
        int
            The new step number.
        """
        total, stretch = count_of(n, "the number of steps"), whole_of(every, "every")
        if stretch < 1:
            raise ValueError(f"every must be at least 1, got {every}")
        step = session.get_step()
        for made in range(0, total, stretch):
            step = session.advance(min(stretch, total - made), progress=progress)
            self.checkpoint(session)
        return step

    def _recorded(self, begin: Callable[[], User]) -> User:
        with self._lock:
            self._check_open()
            user = begin()
            user._record_for = self._record_for
            self._users.append(user)
            programs = self.manifest.versions["program"]
            told = user._versions() or ["a program that tells no version"]
            programs += [line for line in told if line not in programs]
            self._write()
            return user

    def _record_for(self, name: str) -> str:
        """A new file for the record of a session."""
        with self._lock:
            self._check_open()
            file = f"{name}.lj" if self._is_free("records", f"{name}.lj") else self._free("records", f"{name}.", ".lj", 2)
            path = self._take("records", file)
            self.manifest.files[path] = {"kind": "record", "sha256": None, "bytes": None}
            self._write()
            return self._place(path)

    def _put(self, kind: str, file: str, write: Callable[[str], None], more: Optional[Dict[str, str]] = None) -> str:
        """Writes a new file of the study, and lists it. Returns its path."""
        with self._lock:
            self._check_open()
            path = self._take(kind, file)
            try:
                write(self._place(path))
            except BaseException:
                self._taken.discard(path.lower())
                raise
            self.manifest.files[path] = listed_file(self.folder, path, more)
            self._write()
            return self._place(path)

    def _take(self, kind: str, file: str) -> str:
        if not self._is_free(kind, file):
            raise ValueError(f"cannot add {kind}/{file}: the study has it already; use another name")
        self._taken.add(f"{kind}/{file}".lower())
        return f"{kind}/{file}"

    def _is_free(self, kind: str, file: str) -> bool:
        """Whether no file has this name, ignoring case."""
        return f"{kind}/{file}".lower() not in self._taken

    def _free(self, kind: str, stem: str, ending: str, number: int = 1) -> str:
        while not self._is_free(kind, f"{stem}{number}{ending}"):
            number += 1
        return f"{stem}{number}{ending}"

    def _place(self, path: str) -> str:
        return os.path.join(self.folder, *path.split("/"))

    def _path_of(self, place: str) -> Optional[str]:
        """The path within the study of the record written to this place; None for other places."""
        wanted = os.path.realpath(place)
        return next((path for path in self.manifest.of_kind("record") if os.path.realpath(self._place(path)) == wanted), None)

    def _check_open(self) -> None:
        if not self._is_open:
            raise ValueError(NOT_OPEN)

    def _write(self) -> None:
        with self._lock:
            write_whole(os.path.join(self.folder, MANIFEST), self.manifest.text)

    def _close_users(self) -> None:
        with contextlib.ExitStack() as stack:
            for user in self._users:
                stack.callback(user.close)

    def _end(self, error: Optional[BaseException]) -> None:
        """Lists the records, which are complete now, and writes how the study ended."""
        self._is_open = False
        manifest = self.manifest
        for path in manifest.of_kind("record"):
            if os.path.exists(self._place(path)):
                manifest.files[path] = listed_file(self.folder, path)
            else:
                del manifest.files[path]
        manifest.state = FINISHED if error is None else UNFINISHED
        manifest.why = "" if error is None else f"{type(error).__name__}: {error}"[:MOST_OF_WHY].rstrip(": ")
        self._write()
        if error is None:
            write_whole(os.path.join(self.folder, CITATION), citation_of(manifest, manifest.sum))


def _make(folder: str) -> None:
    """Makes a folder, or takes an empty one. Raises ValueError for anything else."""
    if os.path.lexists(folder) and not os.path.isdir(folder):
        raise ValueError(f"cannot make the study {folder}: it exists and is not a folder; use another name")
    os.makedirs(folder, exist_ok=True)
    if os.listdir(folder):
        raise ValueError(f"cannot make the study {folder}: the folder is not empty (nothing was changed); use another, or empty it first")


def _versions() -> Dict[str, Any]:
    from . import __version__, arrays

    numpy: Any = arrays.numpy
    return {"ljclient": __version__, "python": platform.python_version(), "numpy": numpy and numpy.__version__, "program": []}


def _checked(name: str) -> str:
    """A valid name of a file of a study. Raises ValueError for any other."""
    if not (isinstance(name, str) and NAME.match(name)):
        raise ValueError(
            f"a name must be 1 to 64 letters, digits, `_`, `-` or `.`, with a letter, digit or `_` first, got {shortened(name)}"
        )
    return name


def _copy(path: Path, place: str) -> None:
    shutil.copyfile(path, place)


def _of_server(user: User, name: str) -> State:
    """The state of a session with the server's numbers of atoms and steps, as in its record."""
    state, order = user._state_of(name), user._known_of(name).order
    frames = (tuple(order._for_server(each)) for each in (state.symbols, state.places, state.before))
    symbols, places, before = frames
    step, direction = order.direction * (state.step - order.step), order.direction * state.direction
    return dataclasses.replace(state, step=step, direction=direction, symbols=symbols, places=places, before=before, is_sorted=False)
