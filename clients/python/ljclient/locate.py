"""Finds the program that `run` starts, and builds the one of the repository."""
from __future__ import annotations

import os
import subprocess
import sys
from typing import TYPE_CHECKING, Dict, List, Optional

from .errors import CannotStart
from .later import Later
from .tokens import environment_without_token

if TYPE_CHECKING:
    import pathlib
    import shutil
else:
    pathlib, shutil = Later("pathlib"), Later("shutil")

BUILD_SECONDS = 3600.0
VERSION_SECONDS = 30.0
NONE_FOUND = "cannot find ljserve; use run(program), set LJSERVE, install the wheel ljserve beside ljclient, or put it on the PATH"


def find_program() -> str:
    """The program that `run` starts by default.

    It is the program that LJSERVE names, else the one of the wheel `ljserve` beside this package, else bin/ljserve of the
    repository that contains this package, else the one of the wheel wherever it is installed, else `ljserve` on the PATH.
    """
    if named := os.environ.get("LJSERVE"):
        return named
    package = pathlib.Path(__file__).resolve().parent
    beside = [str(package.parent)]
    found = _of_wheel(beside) or _of_repository(package) or _of_wheel(sys.path) or shutil.which("ljserve")
    if found is None:
        raise CannotStart(NONE_FOUND)
    return found


def _of_wheel(folders: List[str]) -> Optional[str]:
    """The program of the wheel `ljserve`, if that is installed in one of these folders of modules."""
    from importlib import metadata

    for wheel in metadata.distributions(name="ljserve", path=folders):
        # `pip install --target` records a path that differs from the program's actual path.
        told = [str(file) for file in wheel.files or [] if file.name == "ljserve"]
        for file in [*told, "bin/ljserve"]:
            path = os.path.realpath(str(wheel.locate_file(file)))
            if os.path.isfile(path) and os.access(path, os.X_OK):
                return path
    return None


def _of_repository(package: pathlib.Path) -> Optional[str]:
    """The program of the repository, or of the release, that contains the package. It is built if needed."""
    for folder in package.parents:
        script = folder / "bin" / "ljserve"
        if script.is_file() and any((folder / name).is_file() for name in ("crates.txt", "VERSION")):
            _build(script)
            return str(script)
    return None


def _build(script: pathlib.Path) -> None:
    """Builds the repository's program if needed; the script says on standard error that this takes minutes."""
    words, env = [str(script), "--version"], environment_without_token()
    try:
        done = subprocess.run(words, stdin=subprocess.DEVNULL, stdout=subprocess.DEVNULL, timeout=BUILD_SECONDS, env=env)
    except (OSError, subprocess.TimeoutExpired) as error:
        raise CannotStart(f"cannot start {script}: {error}") from error
    if done.returncode != 0:
        raise CannotStart(f"cannot build by {script}: it ended with status {done.returncode}")


def version_of(program: str, env: Optional[Dict[str, str]] = None) -> List[str]:
    """The lines of a program's version, none if it prints none."""
    words, env = [program, "--version"], environment_without_token(env)
    try:
        done = subprocess.run(words, stdin=subprocess.DEVNULL, capture_output=True, timeout=VERSION_SECONDS, env=env)
    except (OSError, subprocess.TimeoutExpired):
        return []
    return done.stdout.decode("ascii", "replace").splitlines() if done.returncode == 0 else []
