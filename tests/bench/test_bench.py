"""What the scripts of bench/ say of themselves and of wrong words, and how rounds are timed and kept."""
from __future__ import annotations

import ast
import json
import math
import os
import pathlib
import shutil
import subprocess
import sys
from typing import List

import pytest
from shared.launching import newest_version
from shared.program import Program

TOP = pathlib.Path(__file__).resolve().parents[2]
BENCH = TOP / "bench"
sys.path.insert(0, str(BENCH))
import parting  # noqa: E402
import serving  # noqa: E402
import timing  # noqa: E402

SECONDS = 120
FILES = [path for path in sorted([*BENCH.iterdir(), *(BENCH / "book").iterdir(), *(BENCH / "lammps").iterdir()]) if path.is_file()]
SCRIPTS = [path for path in FILES if path.suffix in ("", ".py") and os.access(path, os.X_OK)]
KEPT_AS_JSON = (
    "client",
    "keep",
    "lammps/cores",
    "lammps/step",
    "lines",
    "memory",
    "order",
    "page",
    "prompt",
    "ratio",
    "reader",
    "scale",
    "server",
    "shards",
    "species",
    "start",
    "tiles",
    "view",
)


def ended(script: pathlib.Path, *words: str) -> "subprocess.CompletedProcess[str]":
    environment = {**os.environ, "PYTHONDONTWRITEBYTECODE": "1"}
    return subprocess.run([sys.executable, str(script), *words], env=environment, capture_output=True, text=True, timeout=SECONDS)


def named(script: pathlib.Path) -> str:
    return str(script.relative_to(BENCH))


@pytest.mark.parametrize("script", SCRIPTS, ids=named)
def test_help_says_what_is_measured(script: pathlib.Path) -> None:
    about = (ast.get_docstring(ast.parse(script.read_text(encoding="utf-8"))) or "").split("\n")[0]
    done = ended(script, "--help")
    assert (done.returncode, done.stderr) == (0, "") and about in done.stdout and done.stdout.startswith("usage: ")
    assert ("--json" in done.stdout) == (named(script) in KEPT_AS_JSON)


@pytest.mark.parametrize("script", SCRIPTS, ids=named)
def test_wrong_words_are_told_in_a_line(script: pathlib.Path) -> None:
    done = ended(script, "--no-such-word")
    assert (done.returncode, done.stdout, done.stderr.count("\n")) == (2, "", 1)
    assert done.stderr.startswith(f"{script.name}: ")


@pytest.mark.parametrize(
    "words, line",
    [
        (["ratio", "--", "64"], "ratio: a program must stand before the `--`"),
        (["ratio", "no/such/program", "run", "--", "64"], "ratio: a program must stand before the `--`, got no/such/program"),
        (["ratio", "sh", "--", "0"], "ratio: argument n: must be a whole number from 1 on, got 0"),
        (["lines", "sh", "run", "900"], "lines: the words of the program must be followed by `--`"),
        (["lines", "sh", "--", "--beside=no/such/program"], "lines: argument --beside: must be a program, got no/such/program"),
        (["scale", "sh", "--beside", "no/such/program"], "scale: argument --beside: must be a program, got no/such/program"),
        (["tiles", "no/such/program"], "tiles: argument program: must be a program, got no/such/program"),
        (["species", "sh", "sh", "--seconds=0"], "species: --seconds must be above 0, got 0"),
        (["order", "sh", "--rounds=x"], "order: argument --rounds: must be a whole number from 1 on, got x"),
        (["accuracy", "gas"], "accuracy: WORD must be one of forces, drift, pairs, back, growth, chaos, crystal, liquid, mixture, got gas"),
        (["accuracy", "--steps=9"], "accuracy: --steps must be at least 2000, got 9"),
        (["keep", "kills", "some", "sh"], "keep kills: argument kills: invalid int value: 'some'"),
    ],
)
def test_what_is_wrong_is_named(words: List[str], line: str) -> None:
    done = ended(BENCH / words[0], *words[1:])
    assert (done.returncode, done.stdout, done.stderr) == (2, "", f"{line}\n")


def test_how_fast_runs_part_is_told_below_a_bin_and_above() -> None:
    """Runs that part by exp(r t) up to 1/256 of sigma and by exp(3 t) from there on, each at its own time."""
    times = [(rate, [(number - passed) / 20 for number in range(100)]) for rate, passed in ((9, 40), (11, 60))]
    runs = [[math.exp((rate if time < 0 else 3) * time) / 256 for time in row] for rate, row in times]
    below, above = (parting.rate_of(runs, 1 / 20, *within) for within in parting.RANGES.values())
    assert (str(below), str(above)) == ("10.00 ± 1.00", "3.00 ± 0.00")


def test_the_distance_of_two_frames_is_the_nearer_way_round_the_box() -> None:
    assert parting.distance([(1, 0, 0), (5, 5, 5)], [(9, 0, 0), (5, 5, 5)], 10) == math.sqrt(2)


def test_ways_run_in_turn() -> None:
    ran: List[str] = []

    def way(name: str) -> int:
        ran.append(name)
        return len(ran)

    assert timing.in_turn({"a": lambda: way("a"), "b": lambda: way("b")}, 2) == {"a": [1, 3], "b": [2, 4]}
    ran.clear()
    assert timing.in_turn({"a": lambda: way("a"), "b": lambda: way("b")}, 3, to_and_fro=True) == {"a": [1, 4, 5], "b": [2, 3, 6]}


def test_findings_are_kept_with_the_program_and_the_machine(program: Program, tmp_path: pathlib.Path) -> None:
    found = timing.Findings(program.path)
    assert found.add_best("steps", "ms", [3.0, 1.5, 2.0]) == 1.5
    found.add("ratio", "", 1.25)
    found.write(str(tmp_path / "found.json"))
    found.write(None)
    told = json.loads((tmp_path / "found.json").read_text())
    assert told["figures"] == [
        {"name": "steps", "unit": "ms", "value": 1.5, "rounds": [3.0, 1.5, 2.0]},
        {"name": "ratio", "unit": "", "value": 1.25},
    ]
    assert set(told) == {"command", "began", "program", "machine", "figures"}
    assert told["program"] == {"version": newest_version(), "commit": None, "sources": {}}  # (since it is no command of bench/)
    assert set(told["machine"]) == {"processor", "cores", "load_before", "load_after", "steal"}
    assert told["machine"]["cores"] == len(os.sched_getaffinity(0)) and 0 <= told["machine"]["steal"] <= 1


@pytest.mark.skipif(shutil.which("cc") is None, reason="cc is not installed")
def test_the_twin_beside_itself(tmp_path: pathlib.Path) -> None:
    """The plain C twin is a program too: its replies are its own, and each figure is the best of its rounds."""
    (program,) = timing.twin("plain", str(tmp_path))
    done = ended(BENCH / "ratio", program, "--", "64", "3", "--mix=equal", "--rounds=2", f"--json={tmp_path}/ratio.json")
    assert (done.returncode, done.stderr) == (0, "") and done.stdout.startswith("64 atoms, 3 steps: program ")
    told = json.loads((tmp_path / "ratio.json").read_text())
    assert f"ratio {program} -- 64 3 --mix=equal" in told["command"]
    of_rounds = [each for each in told["figures"] if "rounds" in each]
    assert [each["name"] for each in of_rounds] == ["program, 3 steps", "plain, 3 steps", "program, 0 steps", "plain, 0 steps"]
    assert all(len(each["rounds"]) == 2 and each["value"] == min(each["rounds"]) for each in of_rounds)


@pytest.mark.skipif(shutil.which("valgrind") is None, reason="valgrind is not installed")
def test_a_program_takes_as_many_instructions_as_itself(program: Program, tmp_path: pathlib.Path) -> None:
    path = program.path
    done = ended(BENCH / "lines", path, "run", "--", "--instructions", f"--beside={path}", f"--json={tmp_path}/lines.json")
    assert (done.returncode, done.stderr) == (0, "") and done.stdout.endswith("\nratio 1.000\n")
    ours, theirs = json.loads((tmp_path / "lines.json").read_text())["figures"]
    assert (ours["name"], theirs["name"], ours["unit"]) == ("a SHOW by the program", "a SHOW by the old program", "instructions")
    assert ours["value"] == theirs["value"] and 100 < ours["value"] < 10_000


def test_a_server_is_told_beside_runs_and_another_program(program: Program, tmp_path: pathlib.Path) -> None:
    """Each figure of a server is there for both programs, with its rounds where it is the best of some; calls where they are counted."""
    words = ["--beside", program.path, "--pool=queue", "--only=512", "--rounds=2", f"--json={tmp_path}/scale.json"]
    done = ended(BENCH / "scale", program.path, *words)
    assert (done.returncode, done.stderr) == (0, "") and done.stdout.count("beside the old program: ") == 1
    figures = {each["name"]: each for each in json.loads((tmp_path / "scale.json").read_text())["figures"]}
    for who in ("", "old program, "):
        server = f"8 x 512 atoms, {who}queue, 4 workers"
        timed = [f"8 x 512 atoms, {who}four runs", f"8 x 512 atoms, {who}one run", server]
        timed += [f"{server}, {what}" for what in ("processor time", "connections", "workers")]
        assert all(len(figures[name]["rounds"]) == 2 and figures[name]["value"] > 0 for name in timed)
        counted = [f"{server}, {kind}, {word}" for kind in ("connections", "workers") for word in ("holds", "wakes")]
        assert [name in figures for name in counted] in ([True] * 4, [False] * 4)


def test_threads_are_told_apart_by_when_they_begin() -> None:
    """A server's own thread begins first, then its workers', and then its connections'. A `run` has one."""
    assert serving.by_kind("pwwwcc", 2) == {"program": "p", "workers": "www", "connections": "cc"}
    assert serving.by_kind("p", 1) == {"program": "p", "workers": "", "connections": ""}
    with subprocess.Popen(["sh", "-c", "read word"], stdin=subprocess.PIPE) as child:
        assert serving.threads_of(child) == [f"/proc/{child.pid}/task/{child.pid}"]
        assert serving.beginning_of(f"/proc/{child.pid}/task/{child.pid}")[1] == child.pid


def test_calls_are_counted_by_thread() -> None:
    told = """12  futex(0x7f01, FUTEX_WAIT_PRIVATE, 2, NULL <unfinished ...>
13  futex(0x7f01, FUTEX_WAKE_PRIVATE, 1) = 1
12  <... futex resumed>)             = 0
12  futex(0x7f02, FUTEX_WAIT_BITSET_PRIVATE|FUTEX_CLOCK_REALTIME, 0, NULL, FUTEX_BITSET_MATCH_ANY) = -1 EAGAIN
13  futex(0x7f02, FUTEX_WAKE_PRIVATE, 2147483647) = 0
"""
    assert serving.calls_in(told) == {12: serving.Calls(2, 0), 13: serving.Calls(0, 2)}
