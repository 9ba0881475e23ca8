"""The types of the package and of the Python in both READMEs and in the reference, held strictly by mypy."""
import importlib.util
import os
import pathlib
import subprocess
import sys
from typing import Any, Dict, Tuple

import pytest

from support import TOP, python_blocks

pytest.importorskip("mypy", reason="mypy is not installed")

with_types = pytest.mark.skipif(importlib.util.find_spec("numpy") is None, reason="numpy is not installed")

CLIENT = TOP / "clients" / "python"
SUBSTANCE = """\
from ljclient import run, units

krypton = units.Substance(sigma=3.65, epsilon=164 * units.kelvin, mass=83.798)
with run() as user:
    argon = user.load("argon", "argon_256.xyz", edge=21.04, dt=10, order="space", **units.ARGON)
    user.load("krypton", "argon_256.xyz", edge=21.04, dt=10, replace=True, **krypton)
    user.session("argon", edge=21.04, dt=10, **units.ARGON)
"""

WITHOUT_TYPES = "[mypy]\n[mypy-ase.*,MDAnalysis.*]\nignore_missing_imports = True\n"


def told(folder: Any, *words: Any) -> Tuple[Any, Any]:
    """The status of mypy and what it says, in a folder where no settings are but those of the words."""
    environment: Dict[str, Any] = {**os.environ, "MYPYPATH": str(CLIENT)}
    command = [sys.executable, "-m", "mypy", "--strict", "--config-file=", f"--cache-dir={folder / 'cache'}", *words]
    done = subprocess.run(command, cwd=folder, env=environment, capture_output=True, text=True, timeout=300)
    return done.returncode, done.stdout + done.stderr


def test_the_package(tmp_path: pathlib.Path) -> None:
    status, text = told(tmp_path, "-p", "ljclient")
    assert status == 0, text


WITH_PYTHON = [path for path in [TOP / "README.md", CLIENT / "README.md", *(TOP / "docs" / "api").glob("*.md")] if python_blocks(path)]


def test_documents_have_python() -> None:
    assert {"README.md", "loading.md", "steps.md"} <= {path.name for path in WITH_PYTHON}


@pytest.mark.parametrize("path", WITH_PYTHON, ids=lambda path: f"{path.parent.name}_{path.stem}")
def test_each_block_of_a_document(tmp_path: pathlib.Path, path: Any) -> None:
    blocks = python_blocks(path)
    files = []
    for number, text in enumerate(blocks, 1):
        files.append(f"block_{number}.py")
        (tmp_path / files[-1]).write_text(text)
    (tmp_path / "libraries.ini").write_text(WITHOUT_TYPES)
    status, text = told(tmp_path, "--config-file=libraries.ini", *files)
    assert status == 0, text


ARRAYS = """\
from numpy import float64, int64
from numpy.typing import NDArray

from ljclient import Session, distance, least_images


def told(session: Session) -> float:
    reals: "list[NDArray[float64]]" = [session.positions(), session.velocities(), session.forces(), session.displacements()]
    wholes: "list[NDArray[int64]]" = [session.places(), least_images(session.places(), session.places())]
    for frame in session.frames(every=1, n=2):
        reals += [frame.positions, frame.velocities, frame.forces, frame.displacements]
        wholes += [frame.places]
        print(frame.temperature + 1.0)
    session.tug(0, wholes[0][0])
    print(session.sample(every=1, frames=2).frames.shape, reals[0].mean(axis=0))
    return distance(wholes[0], wholes[1])
"""


@with_types
def test_arrays_have_types(tmp_path: pathlib.Path) -> None:
    (tmp_path / "good.py").write_text(ARRAYS)
    status, text = told(tmp_path, "good.py")
    assert status == 0, text


@with_types
@pytest.mark.parametrize(
    "wrong", ["session.positions().men()", "session.positions() + 'x'", "session.sample(1, 2).frames.no", "len(session.forces().T.no)"]
)
def test_what_arrays_have_not_is_an_error(tmp_path: pathlib.Path, wrong: Any) -> None:
    (tmp_path / "bad.py").write_text(f"from ljclient import Session\n\n\ndef told(session: Session) -> None:\n    print({wrong})\n")
    status, text = told(tmp_path, "bad.py")
    assert status == 1 and text.startswith("bad.py:5: error:"), text


def test_substances_are_words_of_load(tmp_path: pathlib.Path) -> None:
    (tmp_path / "good.py").write_text(SUBSTANCE)
    status, text = told(tmp_path, "good.py")
    assert status == 0, text


def test_a_substance_that_lacks_its_mass_is_an_error(tmp_path: pathlib.Path) -> None:
    (tmp_path / "bad.py").write_text(SUBSTANCE.replace(", mass=83.798", ""))
    status, text = told(tmp_path, "bad.py")
    assert (status, text.splitlines()[0][:34]) == (1, 'bad.py:3: error: Missing key "mass')
