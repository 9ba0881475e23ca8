"""Copies of the commands of bin/ in folders of their own, and the version that they print."""
import os
import re
import shutil
import subprocess
from pathlib import Path
from typing import Sequence

from shared.program import SECONDS, TOP, Ended, contents


def newest_version() -> str:
    """The version of the first changes in CHANGELOG.md."""
    found: str = re.findall(r"^## (\S+) - ", contents("CHANGELOG.md").decode(), re.MULTILINE)[0]
    return found


def launched(folder: Path, words: Sequence[str], path: str = os.environ["PATH"], source: str = "bin/ljserve") -> Ended:
    """The exit status and both outputs of a copy of a command in a folder's bin/."""
    launcher = folder / "bin" / os.path.basename(source)
    if not launcher.exists():
        launcher.parent.mkdir(parents=True, exist_ok=True)
        shutil.copy(os.path.join(TOP, source), launcher)
    done = subprocess.run([launcher, *words], input=b"LIST\n", capture_output=True, timeout=SECONDS, env={"PATH": path})
    return done.returncode, done.stdout, done.stderr


def put(text: str, path: Path, mode: int = 0o644) -> None:
    """Writes a file, and makes its folder."""
    path.parent.mkdir(parents=True, exist_ok=True)
    path.write_text(text)
    path.chmod(mode)
