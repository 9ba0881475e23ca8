"""The wheel of the modules of the tools, as pip makes it of tools/."""
import importlib.metadata
import os
import pathlib
import re
import shutil
import subprocess
import sys
import zipfile
from email.message import Message
from email.parser import HeaderParser
from typing import List

import pytest

import ljclient
from support import SECONDS, TOP, present

# Not by looking for the modules: where pip is looked for, setuptools cannot be imported any more in the same process.
for needed in ("pip", "setuptools", "wheel"):
    try:
        importlib.metadata.version(needed)
    except importlib.metadata.PackageNotFoundError:
        pytest.skip(f"{needed} is not installed", allow_module_level=True)

MADE = shutil.ignore_patterns("build", "__pycache__", "*.egg-info")
IMPORTED = "import importlib, sys; import ljtools; print(ljtools.__file__); [importlib.import_module(name) for name in sys.argv[1:]]"
NEEDS = {
    ("class", "ljclient"),
    ("pages", "aiohttp"),
    ("pages", "ljclient"),
    ("postgresql", "psycopg2"),
    ("slips", "qrcode"),
    ("slips", "reportlab"),
}


def printed(*words: object, **environment: str) -> str:
    """What Python prints."""
    command = [sys.executable, *map(str, words)]
    done = subprocess.run(command, env={**os.environ, **environment}, capture_output=True, text=True, timeout=10 * SECONDS)
    assert done.returncode == 0, done
    return done.stdout


@pytest.fixture(scope="module")
def wheel(tmp_path_factory: pytest.TempPathFactory) -> pathlib.Path:
    """The wheel, which is made of a copy of the folder, since setuptools leaves files there."""
    folder = tmp_path_factory.mktemp("wheel")
    shutil.copytree(TOP / "tools", folder / "tools", ignore=MADE)
    words = ["wheel", "--no-deps", "--no-build-isolation", "--no-index", "--wheel-dir", folder / "made", folder / "tools"]
    printed("-m", "pip", "--isolated", *words)
    (made,) = (folder / "made").iterdir()
    return made


def told_by(wheel: pathlib.Path) -> Message:
    """What a wheel tells of itself."""
    with zipfile.ZipFile(wheel) as archive:
        (name,) = [name for name in archive.namelist() if name.endswith(".dist-info/METADATA")]
        return HeaderParser().parsestr(archive.read(name).decode())


def modules() -> List[str]:
    """The names of all modules of the package."""
    paths = [path.relative_to(TOP / "tools").with_suffix("") for path in (TOP / "tools" / "ljtools").rglob("*.py")]
    return [".".join(path.parts) for path in paths if path.name != "__init__"]


def test_it_has_all_files_of_the_package_and_no_others(wheel: pathlib.Path) -> None:
    paths = [path for path in (TOP / "tools" / "ljtools").rglob("*") if path.is_file() and path.parent.name != "__pycache__"]
    with zipfile.ZipFile(wheel) as archive:
        found = {name for name in archive.namelist() if ".dist-info/" not in name}
    assert found == {path.relative_to(TOP / "tools").as_posix() for path in paths}
    assert {"ljtools/keeping/front.py", "ljtools/teaching/files/wall.html", "ljtools/teaching/files/class.css"} <= found


def test_what_it_tells_of_itself(wheel: pathlib.Path) -> None:
    told = told_by(wheel)
    assert (told["Name"], told["Version"], told["License"]) == ("ljserve-tools", ljclient.__version__, "MIT")
    needs = [present(re.fullmatch(r"(\w+).*; *extra == ['\"](\w+)['\"]", line)) for line in told.get_all("Requires-Dist", [])]
    assert {(each[2], each[1]) for each in needs} == NEEDS


def test_what_needs_only_python_is_imported(wheel: pathlib.Path, tmp_path: pathlib.Path) -> None:
    with zipfile.ZipFile(wheel) as archive:
        archive.extractall(tmp_path)
    names = [name for name in modules() if not name.startswith("ljtools.teaching.") and name != "ljtools.keeping.postgres"]
    assert len(names) > 25
    assert printed("-c", IMPORTED, *names, PYTHONPATH=str(tmp_path)).startswith(f"{tmp_path}/ljtools/")
