"""The pictures of the examples: what their axes and legends say, where they are drawn into, and which files are told as bad."""
import json
import os
import pathlib
import subprocess
import sys
from typing import Any, Tuple

import pytest
from support import EXAMPLES, PROGRAM, SECONDS

SCRIPTS = ["there_and_back.py", "butterfly.py", "energy.py", "temperatures.py", "unmixing.py", "lyapunov.py"]
NO_PROGRAM = "/no/such/program"


def ran(*words: Any, program: Any = PROGRAM) -> Any:
    """What an example does with these words, or Python with them among the examples."""
    command, environment = [sys.executable, *map(str, words)], {**os.environ, "LJSERVE": program, "PYTHONDONTWRITEBYTECODE": "1"}
    return subprocess.run(command, cwd=EXAMPLES, env=environment, capture_output=True, timeout=4 * SECONDS)


def told(*words: Any, program: Any = PROGRAM) -> Tuple[Any, str, str]:
    """The status, what is printed and what goes to standard error."""
    done = ran(*words, program=program)
    return done.returncode, done.stdout.decode(), done.stderr.decode()


def drawn(code: Any) -> Any:
    """What Python code tells of a drawing, as JSON: it prints that last."""
    pytest.importorskip("matplotlib")
    begin = "import json\nfrom shared import pyplot\nfigure, axes = pyplot().subplots()\n"
    status, out, error = told("-c", begin + code)
    assert status == 0, error
    return json.loads(out.splitlines()[-1])


@pytest.mark.parametrize(
    "script, name, why",
    [
        *((script, "missing/x.png", "No such file or directory") for script in SCRIPTS),
        ("energy.py", "folder.png", "Is a directory"),
        ("energy.py", "x.bmp", "the name of a picture ends with .png, .svg or .pdf"),
        ("energy.py", "x", "the name of a picture ends with .png, .svg or .pdf"),
    ],
)
def test_a_bad_file_is_told_before_the_run(script: Any, name: Any, why: Any, tmp_path: pathlib.Path) -> None:
    (tmp_path / "folder.png").mkdir()
    path = tmp_path / name
    assert told(script, "--plot", path, program=NO_PROGRAM) == (1, "", f"{script}: --plot {path}: {why}\n")
    assert os.listdir(tmp_path) == ["folder.png"]


def test_a_run_that_fails_leaves_files_as_they_were(tmp_path: pathlib.Path) -> None:
    pytest.importorskip("matplotlib")
    (tmp_path / "old.png").write_bytes(b"old")
    for name in ["old.png", "new.png"]:
        status, out, error = told("energy.py", "--plot", tmp_path / name, program=NO_PROGRAM)
        assert (status, out) == (1, "")
        assert NO_PROGRAM in error
    assert os.listdir(tmp_path) == ["old.png"]
    assert (tmp_path / "old.png").read_bytes() == b"old"


def test_what_reversal_makes_possible(tmp_path: pathlib.Path) -> None:
    pytest.importorskip("matplotlib")
    path = tmp_path / "x.svg"
    status, out, error = told("reversal.py", "echo", "--steps", "4", "--melting", "1", "--plot", path)
    assert (status, error) == (0, "")
    assert "4 steps there and back, without a kick: 0 sigma from the start, bit for bit\n" in out
    assert "with atom 0 kicked by (1024, 0, 0): " in out and path.read_bytes().startswith(b"<?xml")
    assert told("reversal.py", "arrow", "--steps", "0")[::2] == (1, "reversal.py: steps must be at least 1, got 0\n")


@pytest.mark.parametrize("name, begin", [("x.png", b"\x89PNG\r\n\x1a\n"), ("x.SVG", b"<?xml"), ("x.pdf", b"%PDF")])
def test_the_ending_says_what_is_drawn(name: Any, begin: Any, tmp_path: pathlib.Path) -> None:
    pytest.importorskip("matplotlib")
    done = ran("there_and_back.py", "--steps", "80", "--plot", tmp_path / name)
    assert done.returncode == 0, done
    assert f"drawn: {tmp_path / name}\n".encode() in done.stdout
    assert (tmp_path / name).read_bytes().startswith(begin)


def test_a_picture_that_cannot_be_written_at_the_end(tmp_path: pathlib.Path) -> None:
    """Its folder is gone."""
    pytest.importorskip("matplotlib")
    path = str(tmp_path / "gone" / "x.png")
    seen = told("-c", f"from shared import save_picture\nsave_picture(lambda axes: axes.plot([1, 2]), {path!r})")
    assert seen == (1, "", f"-c: --plot {path}: No such file or directory\n")


def test_the_change_of_the_energy_over_the_time() -> None:
    """Each run has its own time step, the square root of h / 2^32: 2^-8 for h = 65536 and 2^-7 for h = 262144."""
    told_of = (
        "import energy\n"
        "energy.draw(axes, {65536: ([0, 256, 512], [-4.0, -3.0, -5.0]), 262144: ([0, 256], [-2.0, -1.5])})\n"
        "lines = [[list(map(float, each)) for each in line.get_data()] for line in axes.lines]\n"
        "print(json.dumps([lines, axes.get_xscale(), axes.get_yscale(), axes.get_xlabel(), axes.get_ylabel()]))"
    )
    lines, across, up, time, change = drawn(told_of)
    assert lines == [[[1, 2], [0.25, 0.25]], [[2], [0.25]]]
    assert (across, up) == ("log", "log")
    assert time.startswith("time / ")
    assert "E - E_0" in change


def test_temperatures_in_reduced_units() -> None:
    label = drawn("import temperatures\ntemperatures.draw(axes, [(1, -4, 0.5)])\nprint(json.dumps(axes.get_xlabel()))")
    assert "k_B T / ε" in label


def test_the_species_have_a_legend() -> None:
    told_of = (
        "import unmixing\n"
        "unmixing.save_figure = lambda figure, path: print(json.dumps(\n"
        "    [[text.get_text() for text in axes.get_legend().get_texts()] for axes in figure.axes if axes.get_legend()]))\n"
        "unmixing.draw('x.png', [[(0, 0, 0), (1, 1, 1)]] * 3, [0, 1], [0, 1, 2], [0.5, 0.4, 0.5])"
    )
    assert drawn(told_of)[0] == ["species A", "species B"]


@pytest.mark.parametrize(
    "words, why",
    [
        (["missing.xyz", "a", "8", "1", "1"], "missing.xyz: No such file or directory"),
        ([".", "a", "8", "1", "1"], ".: Is a directory"),
        (["--sorted", "argon_256.xyz", "a", "21,04", "3.4", "1"], "the edge 21,04 is no number from 0.001 to 1000000"),
        (["--sorted", "argon_256.xyz", "a", "0", "3.4", "1"], "the edge 0 is no number from 0.001 to 1000000"),
        (["--sorted", "argon_256.xyz", "a", "nan", "3.4", "1"], "the edge nan is no number from 0.001 to 1000000"),
        (["--sorted=missing/order", "argon_256.xyz", "a", "21.04", "3.4", "1"], "missing/order: No such file or directory"),
    ],
)
def test_a_file_or_a_number_that_cannot_be_loaded(words: Any, why: Any) -> None:
    assert told("load", *words) == (1, "", f"load: {why}\n")


def test_a_coordinate_that_is_no_number_is_not_sorted(tmp_path: pathlib.Path) -> None:
    (tmp_path / "x.xyz").write_text("1\nc\nAr nan 0 0\n")
    line = f"load: {tmp_path}/x.xyz has no whole frame: line 3 is no atom, or too few lines follow\n"
    assert told("load", "--sorted", tmp_path / "x.xyz", "a", "8", "1", "1") == (1, "", line)
