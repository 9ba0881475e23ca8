"""Studies as a scientist makes them, in a short form: examples whose figures are held against those of others, a long way and
back, a server that ends on the way, and a notebook."""
import json
import os
import pathlib
import re
import subprocess
import sys
from typing import Any, Dict

import pytest

from ljclient import connect, run, units
from support import EXAMPLES, PROGRAM, TOKEN, Server, listed, present

STEPS = int(os.environ.get("LJ_STEPS", "3000"))  # a million takes some minutes


def told(*words: Any) -> Any:
    """What an example prints."""
    environment: Dict[str, Any] = {**os.environ, "LJSERVE": PROGRAM, "PYTHONDONTWRITEBYTECODE": "1", "MPLBACKEND": "Agg"}
    command = [sys.executable, "-W", "ignore", *words]
    done = subprocess.run(command, cwd=EXAMPLES, env=environment, capture_output=True, text=True, timeout=600)
    assert done.returncode == 0, done
    return done.stdout


def needs(*modules: Any) -> None:
    for module in modules:
        pytest.importorskip(module, reason=f"{module} is not installed")


def test_liquid_argon(tmp_path: pathlib.Path) -> None:
    """Rahman has the first maximum at 3.7 angstrom, and a diffusion of 2.43; LAMMPS has a maximum of 2.8."""
    needs("ase", "numpy", "matplotlib")
    text = told("argon.py", "--steps", "10000", "--plot", str(tmp_path / "x.png"))
    found = re.match(
        r"([0-9.]+) \+- \S+ K, first maximum ([0-9.]+) at ([0-9.]+) Å\ndiffusion ([0-9.]+) .* ([0-9.]+) \+- .* by velocities", text
    )
    kelvin, highest, at, *diffusions = map(float, present(found).groups())
    assert abs(kelvin - 94.4) < 6, text
    assert (abs(highest - 2.8) < 0.15, abs(at - 3.7) < 0.15) == (True, True), text
    assert all(abs(each - 2.43) < 0.8 for each in diffusions), text
    assert (tmp_path / "x.png").read_bytes()[:4] == b"\x89PNG"


def test_the_study_of_argon_is_short() -> None:
    assert len((EXAMPLES / "argon.py").read_text().splitlines()) <= 40


def test_kob_and_andersen(tmp_path: pathlib.Path) -> None:
    """After so few steps the lattice has melted, and the liquid has not quite come to rest."""
    needs("numpy", "matplotlib")
    text = told("kob_andersen.py", "--steps", "1000", "--plot", str(tmp_path / "x.png"))
    energy, by_lammps = map(float, present(re.search(r"energy (-[0-9.]+) .*, by LAMMPS (-[0-9.]+)", text)).groups())
    assert abs(energy - by_lammps) < 0.6, text
    for highest, by_lammps in re.findall(r"maximum ([0-9.]+), by LAMMPS ([0-9.]+)", text)[:2]:
        assert abs(float(highest) - float(by_lammps)) < 0.5, text
    assert (tmp_path / "x.png").read_bytes()[:4] == b"\x89PNG"


def test_a_long_way_and_back() -> None:
    """The atoms are sorted anew on the way and back, and come to their places bit for bit."""
    with run(PROGRAM) as user:
        argon = user.load("argon", EXAMPLES / "argon_256.xyz", edge=21.04, dt=2, order="space", **units.ARGON)
        argon.heat(180)
        start, energy = listed(argon.places()), argon.measure()
        for _ in range(2):
            argon.advance(STEPS)
            argon.reverse()
        assert (listed(argon.places()), argon.measure(), argon.get_step()) == (start, energy, 0)


def test_a_server_that_ends_on_the_way(tmp_path: pathlib.Path) -> None:
    """What was saved goes on at another server as it would have gone on at the first."""
    path = tmp_path / "argon.saved"
    words: Dict[str, Any] = {"edge": 21.04, "dt": 2, **units.ARGON}
    with run(PROGRAM) as user:
        alone = user.load("argon", EXAMPLES / "argon_256.xyz", **words)
        alone.advance(600)
        wanted = listed(alone.places())
    with Server() as first, connect("127.0.0.1", first.port, "ann", TOKEN) as user:
        argon = user.load("argon", EXAMPLES / "argon_256.xyz", **words)

        def end(done: Any, total: Any) -> None:
            if done >= 300:
                first.end()

        with pytest.raises(ConnectionError):
            argon.advance(600, progress=end, piece=100, save=path, seconds=0)
    with Server() as second, connect("127.0.0.1", second.port, "ann", TOKEN) as user:
        argon = user.load_saved(path)
        assert 0 < argon.get_step() < 600
        argon.advance(600 - argon.get_step())
        assert listed(argon.places()) == wanted


def test_the_notebook_runs() -> None:
    needs("matplotlib")
    cells = json.loads((EXAMPLES / "ljserve.ipynb").read_text())["cells"]
    lines = [line for cell in cells if cell["cell_type"] == "code" for line in [*cell["source"], "\n"]]
    code = "".join(line for line in lines if not line.startswith("%"))
    text = told("-c", code.replace("energies(user, h)", "energies(user, h, 400)"))
    assert "back at the crystal, bit for bit: True" in text
    assert "both are back, bit for bit: True" in text
