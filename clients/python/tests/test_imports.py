"""What is imported when: a name of the package where it is first asked for, numpy, which takes as long as all else, where an array is,
and executors with an ensemble."""
import inspect
import json
import os
import pathlib
import subprocess
import sys
from types import ModuleType
from typing import Any, Dict

import ljclient
import pytest

from support import DIMER, PROGRAM, SECONDS, TOP

LOADED = f"""
from ljclient import run
user = run({PROGRAM!r})
a = user.load("a", {DIMER!r}, edge=256, sigma=1, h=131072)
"""
HEAVY = {"numpy", "ase", "tqdm", "difflib", "concurrent.futures", "logging", "pickle", "readline", "webbrowser", "http.server"}


def imported(text: Any) -> Any:
    """The modules that Python has imported after this."""
    environment: Dict[str, Any] = {**os.environ, "PYTHONPATH": str(TOP / "clients" / "python"), "PYTHONDONTWRITEBYTECODE": "1"}
    command = [sys.executable, "-c", f"{text}\nimport json, sys\nprint(json.dumps(list(sys.modules)))"]
    done = subprocess.run(command, env=environment, capture_output=True, text=True, timeout=SECONDS)
    assert done.returncode == 0, done
    return set(json.loads(done.stdout.splitlines()[-1]))


# What takes the most time of what Python has, and modules that a user needs for some things alone.
OF_PYTHON = {"dataclasses", "hashlib", "inspect", "ipaddress", "json", "pathlib", "re", "secrets", "shutil", "socket", "tempfile", "typing"}
FOR_SOME_THINGS = {
    *("centred", "checkpoint", "ensemble", "equilibrating", "heating", "leftovers", "migrate", "notes", "pressure", "saving"),
    *("record_diff", "record_parts", "snapshots", "study", "study_manifest", "study_verifying", "trajectories", "verify"),
}


def test_the_package_alone() -> None:
    """It imports nothing that takes long, and none of its modules. What Python itself imports at its start does not count."""
    new = imported("import ljclient") - imported("pass")
    assert {name for name in new if name.startswith("ljclient")} == {"ljclient"}
    assert not new & OF_PYTHON and len(new) <= 2


def test_a_user_needs_a_part_of_the_package() -> None:
    new = imported("from ljclient import connect, run, units") - imported("pass")
    assert not {f"ljclient.{name}" for name in FOR_SOME_THINGS} & new
    assert not {"hashlib", "json", "pathlib", "secrets", "shutil", "tempfile"} & new
    assert len({name for name in new if name.startswith("ljclient")}) <= 60


@pytest.mark.parametrize("name", ljclient.__all__)
def test_each_name_of_the_package(name: str) -> None:
    """It is the one of its module, and is kept."""
    found = getattr(ljclient, name)
    assert found is getattr(ljclient, name) and name in dir(ljclient)
    module = inspect.getmodule(found)
    assert isinstance(module, ModuleType) and module.__name__.startswith("ljclient.")
    assert module is found or getattr(module, name) is found


@pytest.mark.parametrize(
    "text",
    [
        "import ljclient, ljclient.ensemble\nensemble = ljclient.ensemble",
        "from ljclient.ensemble import Job\nfrom ljclient import ensemble",
        "from ljclient import ensemble, Job",
        "from ljclient import *",
        "import ljclient\nljclient.Job\nensemble = ljclient.ensemble",
    ],
)
def test_ensemble_is_the_function_however_its_module_was_imported(text: Any) -> None:
    imported(f"{text}\nimport sys\nassert ensemble is sys.modules['ljclient.ensemble'].ensemble")


def test_modules_are_names_of_the_package() -> None:
    imported("import ljclient\nassert ljclient.units.RING == 2**32 and ljclient.session.Session is ljclient.Session")


@pytest.mark.parametrize("name", ["nothing", "_nothing", "units_", "Session_"])
def test_a_name_that_the_package_has_not(name: str) -> None:
    with pytest.raises(AttributeError, match=f"module 'ljclient' has no attribute '{name}'"):
        getattr(ljclient, name)
    with pytest.raises(ImportError, match=f"cannot import name '{name}' from 'ljclient'"):
        exec(f"from ljclient import {name}")


def test_a_name_may_be_another_one(monkeypatch: pytest.MonkeyPatch) -> None:
    """As where a test puts something in its place."""
    with monkeypatch.context() as patched:
        other: Any = len
        patched.setattr(ljclient, "ensemble", other)
        assert ljclient.ensemble is other
    assert ljclient.ensemble.__name__ == "ensemble"


def test_the_package_and_the_prompt() -> None:
    assert not HEAVY & imported("import ljclient, ljclient.prompt")


@pytest.mark.parametrize(
    "work",
    [
        "a.advance(600)",
        "a.measure()",
        "a.place(0)",
        "a.reverse(); a.branch('b'); a.restore('b')",
        "a.tug(0, (1, 0, 0))",
    ],
)
def test_work_without_arrays(work: Any) -> None:
    assert "numpy" not in imported(f"{LOADED}{work}\nuser.close()")


@pytest.mark.parametrize(
    "work",
    [
        "a.places()",
        "a.positions()",
        "a.sample(every=1, frames=2)",
        "import ljclient; ljclient.distance([], [])",
    ],
)
def test_arrays(work: Any) -> None:
    pytest.importorskip("numpy", reason="numpy is not installed")
    assert "numpy" in imported(f"{LOADED}{work}\nuser.close()")


def test_where_numpy_is_missing(tmp_path: pathlib.Path) -> None:
    (tmp_path / "numpy.py").write_text("raise ImportError('none')\n")
    before = f"import sys; sys.path.insert(0, {str(tmp_path)!r})"
    imported(f"{before}\n{LOADED}assert a.places() == [(0, 0, 0), (25165824, 0, 0)]\nuser.close()")


def test_an_attribute_that_is_not_there() -> None:
    from ljclient import arrays

    with pytest.raises(AttributeError, match="module 'ljclient.arrays' has no attribute 'nothing'"):
        arrays.nothing
