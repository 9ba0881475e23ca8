"""The examples in docstrings, each as it stands."""
import doctest
import importlib
import os
import pathlib
import re
import shutil
import subprocess
import sys
import textwrap
from typing import Any, List

import pytest

from support import EXAMPLES, PROGRAM
from terminals import environment

pytest.importorskip("numpy", reason="numpy is not installed")

MODULES = ["configurations", "johnson", "reversal", "state_points", "study"]
SECONDS = 600


@pytest.mark.parametrize("name", MODULES)
def test_examples(name: str, monkeypatch: pytest.MonkeyPatch) -> None:
    monkeypatch.setenv("LJSERVE", PROGRAM)
    module: Any = importlib.import_module(f"ljclient.{name}")
    failed, tried = doctest.testmod(module)
    assert failed == 0 and tried > 0


def script_of(name: str) -> str:
    """The script in the docstring of a module: its indented lines."""
    module: Any = importlib.import_module(f"ljclient.{name}")
    lines = re.findall(r"^(?: {4}.*)?\n", module.__doc__, re.M)
    return textwrap.dedent("".join(lines))


def printed(name: str, folder: pathlib.Path) -> List[str]:
    """The lines that the script of a module prints, beside a crystal."""
    shutil.copy(EXAMPLES / "argon_256.xyz", folder)
    script = folder / "script.py"
    script.write_text(script_of(name))
    env = environment(LJSERVE=os.path.abspath(PROGRAM))
    done = subprocess.run([sys.executable, script], cwd=folder, env=env, capture_output=True, text=True, timeout=SECONDS)
    assert done.returncode == 0, done
    return done.stdout.splitlines()


def test_the_script_of_asyncio(tmp_path: pathlib.Path) -> None:
    assert [line.split()[0] for line in printed("aio", tmp_path)] == ["1000", "1010", "1020", "1030", "1040", "1040"]


def test_the_script_of_echoes(tmp_path: pathlib.Path) -> None:
    (echo,) = printed("reversal", tmp_path)
    assert echo.startswith("1000 steps there and back, with atom 0 kicked by (1, 0, 0): ")


def test_the_script_of_the_calculator(tmp_path: pathlib.Path) -> None:
    """The last column of ASE's log is the largest force."""
    pytest.importorskip("ase", reason="ASE is not installed")
    *_, last = printed("calculator", tmp_path)
    assert float(last.split()[-1]) < 0.01


def test_the_script_of_mdanalysis(tmp_path: pathlib.Path) -> None:
    """Both files have the frames, as the library reads them. The first frame is the crystal."""
    mda = pytest.importorskip("MDAnalysis", reason="MDAnalysis is not installed")
    assert printed("mdanalysis", tmp_path) == []
    way = mda.Universe(str(tmp_path / "argon.gro"), str(tmp_path / "argon.xtc")).trajectory
    crystal = mda.Universe(str(EXAMPLES / "argon_256.xyz")).atoms.positions
    assert len(way) == 5 and way[0].dimensions[0] == pytest.approx(21.04)
    assert abs((way[0].positions - crystal + 10.52) % 21.04 - 10.52).max() < 0.02
