"""Studies that tests make, change and verify."""
import contextlib
import hashlib
import io
import json
import os
import pathlib
from typing import Any, Callable, Dict, Iterator, List, Tuple
from unittest import mock

from ljclient import study, verify
from support import PROGRAM, dimer


@contextlib.contextmanager
def begun(folder: pathlib.Path, **words: Any) -> Iterator[Tuple[Any, Any]]:
    """A study, and a user of a program whose sessions it records."""
    with study(folder, **words) as s:
        yield s, s.run(PROGRAM)


def made(folder: pathlib.Path, steps: int = 12, every: int = 3) -> Any:
    """A study of two atoms, with checkpoints, a second record, and data of both kinds."""
    with begun(folder, title="Two atoms", authors=["A. Author"]) as (s, user):
        s.parameters["steps"] = steps
        a, b = dimer(user), dimer(user, "b")
        a.tug(1, (7, -5, 2**20))
        s.advance(a, steps, every)
        b.advance(2, piece=1)
        a.places()
        a.dump()
        s.keep("last", a.measure())
        s.figure("column", {"x": [0, 1], "y": [0.1, 0.2]})
    return s


def sha(path: pathlib.Path) -> str:
    return hashlib.sha256(path.read_bytes()).hexdigest()


def said(folder: pathlib.Path) -> Dict[str, Any]:
    told: Dict[str, Any] = json.loads((folder / "study.json").read_text())
    return told


def say(folder: pathlib.Path, told: Dict[str, Any]) -> str:
    """Writes another manifest, and returns its SHA-256."""
    (folder / "study.json").write_text(json.dumps(told, sort_keys=True, indent=1) + "\n")
    return sha(folder / "study.json")


def renewed(folder: pathlib.Path) -> None:
    """Has the manifest and the citation say of each file what it is now, as somebody does who knows how."""
    before, told = sha(folder / "study.json"), said(folder)
    for path, each in told["files"].items():
        each["sha256"], each["bytes"] = sha(folder / path), (folder / path).stat().st_size
    after, citation = say(folder, told), folder / "CITATION.cff"
    citation.write_text(citation.read_text().replace(before, after))


def verified(folder: Any, *words: Any, jobs: int = 2) -> Tuple[int, List[str], List[str]]:
    """The status of verify, the lines that it writes, and those on standard error."""
    return told_by(verify.main, folder, "--jobs", jobs, *words)


def told_by(main: Callable[[List[str]], int], *words: Any) -> Tuple[int, List[str], List[str]]:
    """The status of a command of the client, the lines that it writes, and those on standard error."""
    told, faults = io.StringIO(), io.StringIO()
    with mock.patch.dict(os.environ, LJSERVE=PROGRAM), contextlib.redirect_stdout(told), contextlib.redirect_stderr(faults):
        status = main([*map(str, words)])
    return status, told.getvalue().splitlines(), faults.getvalue().splitlines()
