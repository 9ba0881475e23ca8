"""Where the blocks of documents are run: a folder of their own, with the program that LJSERVE names."""
import os
import pathlib
import subprocess
import sys
from typing import Any

import pytest

TOP = pathlib.Path(__file__).resolve().parents[2]
CLIENT = TOP / "clients" / "python"
sys.path[:0] = [str(CLIENT), str(CLIENT / "tests")]

SECONDS = 120


class Folder:
    """A folder that looks like the top of the repository, with the program in `bin`. What is written there is lost."""

    def __init__(self, path: pathlib.Path, program: str) -> None:
        self.path = path
        for each in TOP.iterdir():
            if each.name != "bin":
                (path / each.name).symlink_to(each)
        (path / "bin").mkdir()
        (path / "bin" / "ljserve").symlink_to(os.path.abspath(program))
        self.put("python/python3", f'#!/bin/sh\nexec "{sys.executable}" "$@"\n')
        kept = {name: value for name, value in os.environ.items() if name not in ("LJSERVE_TOKEN", "PYTHONPATH")}
        words = os.pathsep.join([str(path / "python"), str(path / "bin"), os.environ["PATH"]])
        no_traces = {"PYTHONDONTWRITEBYTECODE": "1", "LJCLIENT_HISTORY": os.devnull}
        self.environment = {**kept, **no_traces, "PATH": words, "LJSERVE": str(path / "bin" / "ljserve")}

    def put(self, name: str, text: str) -> None:
        """Writes a file that can be begun."""
        file = self.path / name
        file.parent.mkdir(exist_ok=True)
        file.write_text(text)
        file.chmod(0o755)

    def printed(self, words: Any, given: str = "", client: bool = True) -> Any:
        """What a command prints that ends with status 0."""
        environment = {**self.environment, "PYTHONPATH": "clients/python"} if client else self.environment
        done = subprocess.run(words, cwd=self.path, env=environment, input=given, capture_output=True, text=True, timeout=SECONDS)
        assert done.returncode == 0, done
        return done.stdout

    def shell(self, commands: Any, given: str = "", client: bool = True) -> Any:
        return self.printed(["sh", "-ec", commands], given, client)

    def python(self, text: Any) -> Any:
        """The lines that Python code prints as a file."""
        self.put("block.py", text)
        return self.printed([sys.executable, "block.py"]).splitlines()


@pytest.fixture
def folder(tmp_path: pathlib.Path) -> Any:
    """Such a folder. The program is not built for it, so LJSERVE has to name one."""
    program = os.environ.get("LJSERVE")
    if not program or not os.access(program, os.X_OK):
        pytest.fail("set LJSERVE to the built program")
    return Folder(tmp_path, program)
