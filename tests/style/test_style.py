"""All Python here is laid out by black, and flake8 and mypy find nothing in it: files ending in .py, and scripts that say so in their
first line. The settings are those of pyproject.toml and .flake8."""
from __future__ import annotations

import fcntl
import importlib.util
import os
import pathlib
import re
import shutil
import subprocess
import sys
from collections import defaultdict
from typing import Dict, List

import pytest

TOP = pathlib.Path(__file__).resolve().parents[2]
SECONDS = 600
# Where modules are searched by which the scripts of a folder stand.
SEARCHED = {
    "bench": "tests clients/python conformance tools bin",
    "bench/book": "bench tests bin",
    "bench/lammps": "bench tests clients/python bin",
    "clients/python/tests": "clients/python tests bench tools conformance bin",
    "conformance": "tests",
    "conformance/random": "conformance tests",
    "docs/api": "clients/python",
    "examples": "clients/python",
    ".": "tests",
    "tests": "conformance",
    "tests/bench": "bench tests bin clients/python clients/python/tests conformance",
    "tests/client": "tests clients/python clients/python/tests bench tools conformance",
    "tests/conformance": "tests clients/python clients/python/tests bench tools conformance",
    "tests/containers": "bench tests clients/python conformance tools",
    "tests/documents": "bin clients/python clients/python/tests conformance tests",
    "tests/faults": "tests conformance",
    "tests/gate": "bin",
    "tests/packaging": "packaging tests clients/python clients/python/tests bench tools conformance bin",
    "tests/tools": "tests clients/python clients/python/tests bench tools conformance bin",
    "tests/wasm": "tests conformance bin clients/python/tests clients/python",
    "tests/protocol": "tests conformance",
    "tests/replay": "tests conformance",
    "tests/server": "tests conformance",
    "tools": "clients/python",
}
OF_TESTS = "tests clients/python conformance"  # those of the other folders of tests/
# Files by whose names others of their folder would find another module than they do when they run.
ALONE = ("bench/shared/__init__.py", "conformance/random")


def is_python(path: pathlib.Path) -> bool:
    """Whether a file is Python, by its ending or its first line."""
    if path.suffix or not path.is_file():
        return path.suffix == ".py" and path.is_file()
    with path.open("rb") as file:
        return re.match(rb"#!.*\bpython3?$", file.readline(100).rstrip()) is not None


def python_files() -> List[str]:
    """All Python of the repository, what is not committed yet too; none where this is no clone."""
    words = ["git", "-C", str(TOP), "ls-files", "-z", "--cached", "--others", "--exclude-standard"]
    done = subprocess.run(words, capture_output=True, text=True)
    return sorted({path for path in done.stdout.split("\0") if path and is_python(TOP / path)})


def group_of(path: str) -> str:
    """The folder from which a file is imported, or the file itself where it is looked at alone."""
    folder = pathlib.PurePath(path).parent
    while (TOP / folder / "__init__.py").exists():
        folder = folder.parent
    return path if path in ALONE else str(folder)


def groups() -> Dict[str, List[str]]:
    """The files by groups, in each of which a module has a name of its own."""
    found: Dict[str, List[str]] = defaultdict(list)
    for path in FILES:
        found[group_of(path)].append(path)
    return found


FILES = python_files()
GROUPS = groups()


def told(tool: str, *words: str, **variables: str) -> str:
    """What a tool says of all that it finds; the test is skipped where there is no such tool, or no clone."""
    if not FILES:
        pytest.skip("this is no clone, by whose list of files Python is found")
    if importlib.util.find_spec(tool) is None:
        pytest.skip(f"{tool} is not installed")
    environment = {**os.environ, **variables}
    done = subprocess.run([sys.executable, "-m", tool, *words], cwd=TOP, env=environment, capture_output=True, text=True, timeout=SECONDS)
    return done.stdout + done.stderr if done.returncode else ""


def test_scripts_without_an_ending_are_found() -> None:
    if not FILES:
        pytest.skip("this is no clone")
    assert {"bench/ratio", "bin/gate", "bin/kit.py", "conformance/run", "examples/load", "packaging/debian/manual"} <= set(FILES)
    assert not {"bin/ljserve", "bin/try", "README.md", "examples/small_client.mjs"} & set(FILES)


def test_black_changes_nothing() -> None:
    assert told("black", "--config", "pyproject.toml", "--check", "--quiet", "--diff", *FILES) == ""


def test_flake8_finds_nothing() -> None:
    assert told("flake8", *FILES) == ""


@pytest.mark.parametrize("group", GROUPS)
def test_mypy_finds_nothing(group: str) -> None:
    """In a group with its cache outside of the repository, which processes have in turn."""
    if importlib.util.find_spec("numpy") is None:
        pytest.skip("numpy is not installed, whose types are needed")
    cache = pathlib.Path(os.environ.get("XDG_CACHE_HOME") or "~/.cache").expanduser() / "ljserve-mypy"
    cache.mkdir(parents=True, exist_ok=True)
    folders = SEARCHED.get(group, OF_TESTS if group.startswith("tests/") else "").split()
    searched = os.pathsep.join(str(TOP / folder) for folder in folders)
    words = ["--strict", "--follow-imports=silent", "--no-error-summary", "--cache-dir", str(cache)]
    words += [] if group in ALONE else ["--scripts-are-modules"]
    with (cache / "lock").open("w") as lock:
        fcntl.flock(lock, fcntl.LOCK_EX)
        found = told("mypy", *words, *GROUPS[group], MYPYPATH=searched)
        if "Traceback" in found:  # mypy fails over what it kept of a tree whose modules had other names
            shutil.rmtree(cache / f"{sys.version_info.major}.{sys.version_info.minor}", ignore_errors=True)
            found = told("mypy", *words, *GROUPS[group], MYPYPATH=searched)
        assert found == ""
