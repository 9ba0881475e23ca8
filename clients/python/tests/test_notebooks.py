"""The lessons of examples/notebooks: each is stored as it ran, and runs, and what it finds is what others find."""
import json
import math
import os
import re
import shutil
from typing import Any, Dict, List
from unittest import mock

import pytest

from support import EXAMPLES, PROGRAM, TOP

nbformat = pytest.importorskip("nbformat", reason="nbformat is not installed")
FOLDER = EXAMPLES / "notebooks"
NAMES = ["argon", "echo", "mixture"]
# A third of what a lesson is to take at most, as it is on a machine that does nothing else.
MOST_BYTES, MOST_CELLS = 300_000, 16
NUMBER = r"(-?[0-9.]+) \+- ([0-9.]+)"


def stored(name: str) -> Any:
    return nbformat.read(str(FOLDER / f"{name}.ipynb"), as_version=4)


def texts(book: Any) -> str:
    """All that its cells have printed."""
    outputs = [output for cell in book.cells if cell.cell_type == "code" for output in cell.outputs]
    return "".join(output.text for output in outputs if output.output_type == "stream" and output.name == "stdout")


def numbers(pattern: str, text: str) -> List[float]:
    """The numbers that a line tells, the first that is so."""
    found = re.search(pattern, text)
    assert found is not None, (pattern, text)
    return [float(each) for each in found.groups()]


@pytest.mark.parametrize("name", NAMES)
def test_it_is_stored_with_what_it_has_printed_and_drawn(name: str) -> None:
    book = stored(name)
    nbformat.validate(book)
    assert len((FOLDER / f"{name}.ipynb").read_bytes()) <= MOST_BYTES and len(book.cells) <= MOST_CELLS
    cells = [cell for cell in book.cells if cell.cell_type == "code"]
    assert [cell.execution_count for cell in cells] == list(range(1, len(cells) + 1))
    kinds = {output.output_type for cell in cells for output in cell.outputs}
    assert kinds == {"stream", "display_data"} and texts(book)
    assert not [output for cell in cells for output in cell.outputs if output.get("name") == "stderr"]
    assert sum("image/png" in output.get("data", {}) for cell in cells for output in cell.outputs) >= 2


@pytest.mark.parametrize("name", NAMES)
def test_it_names_no_machine(name: str) -> None:
    text = (FOLDER / f"{name}.ipynb").read_text()
    assert not re.search(r"/(work|tmp|home|root|usr)/", text)
    assert set(json.loads(text)["metadata"]) <= {"kernelspec", "language_info"}


def test_no_lesson_is_left_out() -> None:
    assert sorted(path.stem for path in FOLDER.iterdir() if path.suffix == ".ipynb") == NAMES


@pytest.fixture(scope="module")
def ran(tmp_path_factory: pytest.TempPathFactory) -> Any:
    """What gives a lesson as it runs now, once."""
    nbclient = pytest.importorskip("nbclient", reason="nbclient is not installed")
    pytest.importorskip("ipykernel", reason="ipykernel is not installed")
    for module in ("numpy", "matplotlib"):
        pytest.importorskip(module, reason=f"{module} is not installed")
    folder = tmp_path_factory.mktemp("notebooks")
    kept: Dict[str, Any] = {}
    words = {"LJSERVE": os.path.abspath(PROGRAM), "PYTHONPATH": str(TOP / "clients" / "python"), "MPLCONFIGDIR": str(folder)}

    def run_lesson(name: str) -> str:
        if name not in kept:
            shutil.copy(FOLDER / f"{name}.ipynb", folder)
            book = nbformat.read(str(folder / f"{name}.ipynb"), as_version=4)
            with mock.patch.dict(os.environ, words):
                nbclient.NotebookClient(book, timeout=600, resources={"metadata": {"path": str(folder)}}).execute()
            kept[name] = texts(book)
        return str(kept[name])

    return run_lesson


@pytest.mark.parametrize("name", NAMES)
def test_it_runs_as_it_is_stored(ran: Any, name: str) -> None:
    """What it prints is the same: a run is the same bit for bit, and means are those of other sums of the same numbers."""
    now, then = (re.split(r"(-?[0-9]+(?:\.[0-9]+)?(?:e-?[0-9]+)?)", text) for text in (ran(name), texts(stored(name))))
    assert now[::2] == then[::2]
    for one, other in zip(map(float, now[1::2]), map(float, then[1::2])):
        assert math.isclose(one, other, rel_tol=2e-2, abs_tol=1e-2), (one, other)


def test_argon_is_that_of_others(ran: Any) -> None:
    """Rahman has the maximum at 3.7 angstrom and a diffusion of 2.43, LAMMPS a maximum of 2.80 and 2.51 (864 atoms). With 256 atoms
    it is 0.1 less, by the law of Yeh and Hummer (2004) for the viscosity of liquid argon, 0.27 mPa s."""
    text = ran("argon")
    (kelvin, kelvin_error), (height, height_error, at) = numbers(rf"temperature {NUMBER} K", text), numbers(
        rf"maximum {NUMBER} at ([0-9.]+)", text
    )
    assert abs(kelvin - 94.4) < 4 and kelvin_error < 2
    assert abs(height - 2.80) < 4 * height_error + 0.1 and abs(at - 3.7) < 0.1
    for way in ("slope", "velocities"):
        diffusion, error = numbers(rf"D by {way}: {NUMBER}", text)
        assert abs(diffusion - 2.4) < 3 * error + 0.1 * abs(kelvin - 94.4), (diffusion, error)
        assert error < 0.5
    assert re.search(r"back within 0\.0 units", text) and numbers(r"([0-9.]+) Å away", text)[0] > 1


def test_the_echo_and_its_exponent(ran: Any) -> None:
    """Without a kick it is back bit for bit. The exponent of 256 atoms is 3.58, by 64 runs (`examples/lyapunov.py`)."""
    text = ran("echo")
    assert "2000 steps there and back, without a kick: 0 sigma from the start, bit for bit" in text
    (far,) = numbers(r"kicked by \(1, 0, 0\): ([0-9.]+) sigma from the start", text)
    assert 0.1 < far < 3
    exponent, error = numbers(rf"Lyapunov exponent {NUMBER} per sigma", text)
    assert abs(exponent - 3.58) < 4 * error + 0.2 and error < 0.3
    assert "the same values on both ways: True" in text
    assert "potential" in re.findall(r"what tells the direction: (.*)", text)[0]


def test_the_entropy_of_mixing(ran: Any) -> None:
    """Of 8 layers the middle third of the box has 2, one of A and one of B: 2/8 ln 2 at the start. A random mixture lacks half of chi
    squared with 26 degrees of freedom, over 256 atoms."""
    text = ran("mixture")
    start, turn, end, random = numbers(
        r"entropy of mixing ([0-9.]+) at the start, ([0-9.]+) after 4000 steps and ([0-9.]+) back at the start, .* \(([0-9.]+) of", text
    )
    assert abs(start - 2 / 8 * math.log(2)) < 0.005 and end == start
    spread = math.sqrt(2 * 26) / (2 * 256)
    assert abs(random - (math.log(2) - 26 / (2 * 256))) < 4 * spread / math.sqrt(20) + 0.005
    assert abs(turn - random) < 4 * spread
    assert "both ways have the same entropies, bit for bit: True" in text


def test_unlike_atoms_part(ran: Any) -> None:
    """Hot, an atom has like and unlike neighbours nearly at random. Cold, its kind has half of the box, where g(r) is twice the 2.5 to
    3 of a liquid, but at the border."""
    text = ran("mixture")
    rows = {}
    for when in ("hot", "cold"):
        rows[when] = numbers(rf"{when}: first maximum of AA {NUMBER}, AB there {NUMBER}", text)
    like, like_error, unlike, unlike_error = rows["cold"]
    assert 3 < like < 6 and unlike + 2 * unlike_error < 1.3
    assert like - rows["hot"][0] > 4 * math.hypot(like_error, rows["hot"][1])
    assert rows["hot"][2] - unlike > 4 * math.hypot(unlike_error, rows["hot"][3])
