"""The examples that ask the program by the Python client, and the notebook."""
import json
import os
import subprocess
import sys
from pathlib import Path
from typing import Any, Dict, List, Tuple

import pytest
from shared.program import SECONDS, TOP, Program, contents

NOTEBOOK: Dict[str, Any] = json.loads(contents("examples", "ljserve.ipynb"))
CELLS: List[Dict[str, Any]] = [cell for cell in NOTEBOOK["cells"] if cell["cell_type"] == "code"]


def told_by(program: Program, name: str, *words: str) -> Tuple[int, bytes]:
    """The exit status and the output of an example that asks this program."""
    command = [sys.executable, os.path.join(TOP, "examples", name), *words]
    done = subprocess.run(command, capture_output=True, timeout=10 * SECONDS, env={**os.environ, "LJSERVE": program.path})
    return done.returncode, done.stdout + done.stderr


@pytest.mark.parametrize(
    "name, steps, last",
    [
        ("there_and_back.py", "400", b"\n256 of 256 atoms are back at their places, bit for bit\n"),
        ("butterfly.py", "400", b"\nboth runs are back where they began, bit for bit\n"),
        ("unmixing.py", "300", b"\n729 of 729 atoms are back at their places, bit for bit\n"),
    ],
)
def test_an_example_ends_where_it_began(program: Program, name: str, steps: str, last: bytes) -> None:
    status, out = told_by(program, name, "--steps", steps)
    assert (status, out.endswith(last)) == (0, True), out


def test_energies_are_told(program: Program) -> None:
    status, out = told_by(program, "energy.py", "--steps", "200")
    assert (status, out.count(b" epsilon per atom at first")) == (0, 4), out


def test_eight_copies_are_told_by_their_temperature(program: Program) -> None:
    status, out = told_by(program, "temperatures.py", "--steps", "100")
    told = [float(line.split()[1]) for line in out.decode().splitlines()[1:]]
    assert (status, len(told)) == (0, 8) and all(one < other for one, other in zip(told, told[1:])), out


@pytest.mark.parametrize("name", ["there_and_back.py", "butterfly.py", "energy.py", "unmixing.py", "temperatures.py"])
def test_steps_that_are_no_pieces_are_refused(program: Program, name: str) -> None:
    status, out = told_by(program, name, "--steps", "7")
    assert status == 2 and b"--steps is a multiple of" in out, out


def test_a_picture_is_drawn(program: Program, tmp_path: Path) -> None:
    pytest.importorskip("matplotlib", reason="matplotlib is not installed")
    status, out = told_by(program, "there_and_back.py", "--steps", "80", "--plot", str(tmp_path / "x.png"))
    assert status == 0, out
    assert (tmp_path / "x.png").read_bytes()[:8] == b"\x89PNG\r\n\x1a\n"


def test_the_form_of_the_notebook() -> None:
    assert (NOTEBOOK["nbformat"], NOTEBOOK["nbformat_minor"]) == (4, 5)


@pytest.mark.parametrize("cell", CELLS, ids=lambda cell: str(cell["id"]))
def test_a_cell_of_the_notebook(cell: Dict[str, Any]) -> None:
    """It is Python, and stored without outputs."""
    compile("".join(line for line in cell["source"] if not line.startswith("%")), cell["id"], "exec")
    assert cell["outputs"] == []
