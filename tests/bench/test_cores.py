"""What bench/lammps/cores measures: each way, with the threads of each server."""
from __future__ import annotations

import json
import os
import pathlib
import shutil
import subprocess
import sys
from importlib.machinery import SourceFileLoader
from types import ModuleType
from typing import Any, Dict, List

import pytest
from shared.program import Program

BENCH = pathlib.Path(__file__).resolve().parents[2] / "bench"
CORES = BENCH / "lammps" / "cores"
SECONDS = 300
TOOLS = {"lmp": "lammps", "mpirun": "openmpi-bin"}


def ended(*words: str, **variables: str) -> "subprocess.CompletedProcess[str]":
    environment = {**os.environ, "PYTHONDONTWRITEBYTECODE": "1", **variables}
    return subprocess.run([sys.executable, str(CORES), *words], env=environment, capture_output=True, text=True, timeout=SECONDS)


@pytest.mark.skipif(not all(map(shutil.which, TOOLS)), reason="LAMMPS or mpirun is not installed")
def test_each_way_is_kept(program: Program, tmp_path: pathlib.Path) -> None:
    """A liquid of 216 atoms, one step in two rounds, of which the better is told."""
    words = [program.path, program.path, "--rounds=2", "--steps=1", "--cells=6", f"--json={tmp_path}/cores.json"]
    done = ended(*words)
    assert (done.returncode, done.stderr) == (0, "")
    told: Dict[str, Any] = json.loads((tmp_path / "cores.json").read_text())
    steps = {each["name"]: each for each in told["figures"] if each["unit"] == "ms per step"}
    most = len(os.sched_getaffinity(0))
    lammps = [f"LAMMPS, lj/cut{style}, {count}" for style in ("", "/opt") for count in (1, 2, 4) if count <= most]
    servers = [f"{cpu}, {pool}, {count}" for cpu in ("v2", "v3") for pool in ("lock", "queue") for count in (1, 2, 3, 4) if count <= most]
    assert list(steps) == [*lammps, *servers]
    assert all(len(each["rounds"]) == 2 and 0 < each["value"] == min(each["rounds"]) for each in steps.values())
    spent = {each["name"]: each["value"] for each in told["figures"] if each["unit"] == "ms of processor time per step"}
    for name in servers:
        threads = ["program", *(f"worker {number}" for number in range(1, int(name[-1]) + 1)), "connection"]
        assert [each for each in spent if each.startswith(f"{name}, ")] == [f"{name}, {thread}" for thread in threads]
        assert spent[f"{name}, connection"] > 0 and spent[f"{name}, worker 1"] >= 0
    assert all(name in done.stdout for name in servers) and "| ms per step, by processes or workers |" in done.stdout


@pytest.mark.parametrize("names, has_v3, count", [([], False, 1), (["cores"], False, 1), ([], True, 2), (["cores"], True, 2)])
def test_the_program_for_v3_is_measured_where_it_is_asked_for(names: List[str], has_v3: bool, count: int) -> None:
    speeds: Any = ModuleType("bench_speeds")
    SourceFileLoader("bench_speeds", str(BENCH / "speeds")).exec_module(speeds)
    chosen = speeds.chosen(names, has_v3)
    assert chosen["cores"].split() == ["bench/lammps/cores", speeds.PROGRAM, speeds.PROGRAM_V3][: 1 + count]
    assert ("v3_lammps" in chosen) == (has_v3 and not names)
    assert speeds.chosen(["v3_lammps"], has_v3) == {"v3_lammps": f"bench/lammps/step {speeds.PROGRAM_V3} --steps 400"}


@pytest.mark.parametrize("tool", TOOLS)
def test_without_a_tool(tmp_path: pathlib.Path, tool: str) -> None:
    folder = tmp_path / "tools"
    folder.mkdir()
    for other in TOOLS.keys() - {tool}:
        (folder / other).write_text("#!/bin/sh\n")
        (folder / other).chmod(0o755)
    words: List[str] = [sys.executable]
    done = ended(*words, PATH=str(folder))
    line = f"cores: cannot measure: {tool} is not installed; use apt-get install {TOOLS[tool]}\n"
    assert (done.returncode, done.stdout, done.stderr) == (69, "", line)
