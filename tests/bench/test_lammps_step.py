"""What bench/lammps/step measures: the same liquid by LAMMPS and by the program."""
import pathlib
import re
import shutil
import subprocess
import sys
from typing import Any, List

import pytest

from support import PROGRAM, SECONDS, TOP

if shutil.which("lmp") is None:
    pytest.skip("LAMMPS is not installed", allow_module_level=True)
STEP = TOP / "bench" / "lammps" / "step"
# The command is loaded in a process of its own, since its modules and those of other tests have the same names.
TRIED = """
import pathlib, sys
from importlib.machinery import SourceFileLoader
from importlib.util import module_from_spec, spec_from_loader

loader = SourceFileLoader("step", sys.argv[1])
step = module_from_spec(spec_from_loader("step", loader))
loader.exec_module(step)
liquid = step.made(pathlib.Path())
step.compare_energies(sys.argv[2], liquid)
space, shuffled = liquid.in_space(), liquid.shuffled()
for one in (space, shuffled):
    pairs = list(zip(one.before, one.present))
    print(pairs != list(zip(liquid.before, liquid.present)), sorted(pairs) == sorted(zip(liquid.before, liquid.present)))
for way in step.ways_of(sys.argv[2], liquid):
    print(way.seconds(1) > 0, way.name)
step.compare_energies(sys.argv[2], liquid._replace(energy=liquid.energy + 0.01))
"""


def test_both_have_the_same_liquid(tmp_path: pathlib.Path) -> None:
    """The energies differ by what the program's table is off, and by no more; a liquid of another energy is noticed."""
    words: List[Any] = [sys.executable, "-B", "-c", TRIED, STEP, PROGRAM]
    done = subprocess.run(words, cwd=tmp_path, capture_output=True, text=True, timeout=20 * SECONDS)
    assert done.returncode == 1 and done.stderr.startswith("step: the energies must agree within 0.005, got ")
    energies, *lines, _ = done.stdout.splitlines()
    by_lammps, ours, temperature = map(float, re.findall(r"-?\d+\.\d+", energies))
    assert abs(by_lammps - ours) < 0.0025 and abs(temperature - 0.69) < 0.02
    assert lines == [
        "True True",
        "True True",
        "True LAMMPS, lj/cut",
        "True LAMMPS, lj/cut/opt",
        "True ljserve run, atoms sorted in space",
        "True ljserve run, atoms shuffled",
        'True Python client with order="space"',
    ]


def test_without_lammps(tmp_path: pathlib.Path) -> None:
    words: List[Any] = [sys.executable, "-B", STEP, PROGRAM]
    done = subprocess.run(words, env={"PATH": str(tmp_path)}, capture_output=True, text=True, timeout=SECONDS)
    assert (done.returncode, done.stdout, done.stderr) == (
        69,
        "",
        "step: cannot measure: lmp is not installed; use apt-get install lammps\n",
    )
