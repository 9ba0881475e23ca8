"""Tables of speeds: each is made of what a measurement has kept, and says its command, its program, its day and the load. Where the
sources have changed since, it is stale."""
import json
import os
import re
import subprocess
import sys
from importlib.machinery import SourceFileLoader
from pathlib import Path
from types import ModuleType
from typing import Any, Dict, List, Optional, Tuple

import pytest
from blocks import TOP

sys.path.insert(0, str(TOP / "bin"))
import measured  # noqa: E402
import sources  # noqa: E402
import speed_tables  # noqa: E402

PAGE = (TOP / "docs" / "SPEED.md").read_text()
NAMES = sorted(path.stem for path in (TOP / "docs" / "speed").glob("*.json"))


def kept(
    folder: Path, name: str, command: str, figures: Dict[str, float], unit: str = "ms", program: Optional[Dict[str, Any]] = None
) -> None:
    machine = {"load_before": 0.25, "load_after": 1.5}
    found: List[Dict[str, Any]] = [{"name": each, "unit": unit, "value": value} for each, value in figures.items()]
    told = {"command": command, "began": "2026-01-02T03:04:05Z", "machine": machine, "figures": found}
    told |= {} if program is None else {"program": program}
    (folder / f"{name}.json").write_text(json.dumps(told))


@pytest.fixture
def folder(tmp_path: Path, monkeypatch: pytest.MonkeyPatch) -> Path:
    monkeypatch.setattr(speed_tables, "FOLDER", tmp_path)
    return tmp_path


def measurements_of(kind: str, words: List[str]) -> List[str]:
    """Those of a mark: a table of steps names what the measurements of all liquids begin with."""
    return [f"{word}_{liquid}" for word in words for liquid in speed_tables.LIQUIDS] if kind == "steps" else words


@pytest.mark.parametrize("name", NAMES)
def test_each_measurement_is_told(name: str) -> None:
    marks = [line.split() for line in PAGE.splitlines() if line.startswith("<!-- made by bin/documents: begin speed ")]
    assert [each for words in marks for each in measurements_of(words[6], words[7:-1]) if each == name] == [name]


@pytest.mark.parametrize("name", NAMES)
def test_what_is_kept_names_no_place_of_a_machine(name: str) -> None:
    words = speed_tables.Found(name).words
    assert words[0].startswith("bench/") and any(word.startswith("PROGRAM") for word in words)
    assert [word for word in words if word.startswith("/")] in ([], ["/dev/shm"])


def test_a_step_beside_its_twin(folder: Path, monkeypatch: pytest.MonkeyPatch) -> None:
    """A row for each liquid, and two columns for each program."""
    monkeypatch.setattr(speed_tables, "LIQUIDS", {"64": "64 atoms", "8": "8 atoms, sorted"})
    for name, program in (("a", "ljserve"), ("b", "v3/ljserve")):
        for liquid, ours, plain in ((64, 0.5, 2.0), (8, 1.0, 3.0)):
            command = f"bench/ratio crates/ljserve/out/{program} run -- {liquid} 9 --rounds 7 --json a.json"
            kept(folder, f"{name}_{liquid}", command, {"program, per step": ours, "plain, per step": plain})
    assert speed_tables.speed("steps", "a", "b").splitlines() == [
        "Source: `bench/ratio PROGRAM run -- ..` (2026-01-02, load 0.2 to 1.5) and "
        "`bench/ratio PROGRAM_V3 run -- ..` (2026-01-02, load 0.2 to 1.5):",
        "",
        "| Liquid | `PROGRAM`: ms per step | divided by the twin's time | `PROGRAM_V3`: ms per step | divided by the twin's time |",
        "|---|---|---|---|---|",
        "| 64 atoms | 0.500 | 0.25 | 0.500 | 0.25 |",
        "| 8 atoms, sorted | 1.00 | 0.33 | 1.00 | 0.33 |",
    ]


def test_a_step_beside_lammps(folder: Path) -> None:
    kept(folder, "a", "bench/lammps/step X --json a.json", {"plain": 4.0, "OPT": 2.0, "run": 3.0}, "ms per step")
    kept(folder, "b", "bench/lammps/step Y --json b.json", {"plain": 5.0, "OPT": 3.0, "run": 2.0}, "ms per step")
    rows = speed_tables.speed("lammps", "a", "b").splitlines()
    moment = "(2026-01-02, load 0.2 to 1.5)"
    assert rows[0] == f"Source: `bench/lammps/step X` {moment} and `bench/lammps/step Y` {moment}:"
    assert rows[2] == "| Program | `X`: ms per step | divided by the time of lj/cut | `Y`: ms per step | divided by the time of lj/cut |"
    assert rows[4:] == [
        "| plain | 4.00 | 1.00 | 5.00 | 1.00 |",
        "| OPT | 2.00 | 0.50 | 3.00 | 0.60 |",
        "| run | 3.00 | 0.75 | 2.00 | 0.40 |",
    ]


def test_workers_beside_processes_of_lammps(folder: Path) -> None:
    """A column for each number of them, and behind a step what the connection of a server takes."""
    steps = {"LAMMPS, 1": 4.0, "LAMMPS, 2": 2.0, "v2, lock, 1": 3.0, "v2, lock, 3": 1.5}
    kept(folder, "a", "bench/lammps/cores X --json a.json", steps, "ms per step")
    told = json.loads((folder / "a.json").read_text())
    spent = {"v2, lock, 1, connection": 0.25, "v2, lock, 3, connection": 0.5, "v2, lock, 1, worker 1": 2.5, "v2, lock, 1, stolen": 0.1}
    told["figures"] += [{"name": name, "unit": "ms of processor time per step", "value": value} for name, value in spent.items()]
    (folder / "a.json").write_text(json.dumps(told))
    assert speed_tables.speed("cores", "a").splitlines()[2:] == [
        "| ms per step (connection's processor time in ms), by number of processes or workers | 1 | 2 | 3 |",
        "|---|---|---|---|",
        "| LAMMPS | 4.00 | 2.00 | - |",
        "| v2, lock | 3.00 (0.250) | - | 1.50 (0.500) |",
    ]


def test_lines_beside_the_twin(folder: Path) -> None:
    kept(folder, "a", "bench/lines X --json a.json", {"program": 4.0, "plain C": 2.0})
    assert speed_tables.speed("lines", "a").splitlines()[-1] == "| 4,000,000 | 2,000,000 | 0.50 |"


def test_a_pool_beside_four_runs(folder: Path) -> None:
    figures: Dict[str, float] = {}
    for crowd, four, queue, lock in (("1 x 4096", 800, 400, 80), ("8 x 512", 1000, 900, 300)):
        rates = {"four runs": four, "one run": four / 4, "queue, 4 workers": queue, "lock, 4 workers": lock}
        figures |= {f"{crowd} atoms, {what}": rate for what, rate in rates.items()}
    for pool in ("queue", "lock"):
        what = f"1 x 4096 atoms, {pool}, 4 workers"
        figures |= {
            f"1 x 4096 atoms, {pool}, 1 workers": 160,
            f"{what}, processor time": 1.5,
            f"{what}, connections": 0.875,
            f"{what}, workers": 2.25,
        }
    kept(folder, "a", "bench/scale X --json a.json", figures, "")
    assert speed_tables.speed("scale", "a").splitlines()[4:] == [
        "| one session of 4,096 atoms | 0.50 | 0.10 | 4.00 |",
        "| 8 users of 512 atoms each | 0.90 | 0.30 | 4.00 |",
        "",
        "| One session of 4,096 atoms | `--pool queue` | `--pool lock` |",
        "|---|---|---|",
        "| time of a step with one worker, divided by the time of a step of `ljserve run` | 1.25 | 1.25 |",
        "| time of a step with 4 workers, in ms | 2.50 | 12.5 |",
        "| processor time of a step with 4 workers, divided by the processor time of a step of `ljserve run` | 1.50 | 1.50 |",
        "| with 4 workers: processor time of the connection's thread, in µs per pair of 64-atom blocks | 0.88 | 0.88 |",
        "| with 4 workers: processor time of all workers together, in µs per pair of 64-atom blocks | 2.25 | 2.25 |",
    ]


def test_commands_one_at_a_time(folder: Path) -> None:
    kept(
        folder,
        "a",
        "bench/keep cost X --json a.json",
        {"without the tool, SHOW": 11, "without the tool, TUG": 12, "--sync group, SHOW": 101, "--sync group, TUG": 1234},
        "us",
    )
    assert speed_tables.speed("keep", "a").splitlines()[2:] == [
        "| Median time in µs | `SHOW` | `TUG` |",
        "|---|---|---|",
        "| without `tools/keep` | 11.0 | 12.0 |",
        "| through `tools/keep --sync group` | 101 | 1,234 |",
    ]


def test_a_table_names_what_is_measured(folder: Path, monkeypatch: pytest.MonkeyPatch) -> None:
    monkeypatch.setattr(speed_tables, "ABOUT", {"a": "The memory of a server."})
    kept(folder, "a", "bench/memory X --json a.json", {"no users": 23.4}, "MB")
    assert speed_tables.speed("figures", "a").splitlines() == [
        "The memory of a server. Source: `bench/memory X` (2026-01-02, load 0.2 to 1.5):",
        "",
        "| Measured | Figure |",
        "|---|---|",
        "| no users | 23.4 MB |",
    ]


def test_a_load_that_stayed_the_same_is_shown_once(folder: Path) -> None:
    kept(folder, "a", "bench/one X --json a.json", {})
    told = json.loads((folder / "a.json").read_text())
    told["machine"]["load_after"] = 0.15
    (folder / "a.json").write_text(json.dumps(told))
    assert speed_tables.moment(speed_tables.Found("a")) == "2026-01-02, load 0.2 to 0.1"
    told["machine"]["load_after"] = 0.25
    (folder / "a.json").write_text(json.dumps(told))
    assert speed_tables.moment(speed_tables.Found("a")) == "2026-01-02, load 0.2"


@pytest.mark.parametrize("pattern", speed_tables.NAMES)
def test_a_name_that_is_shown_otherwise_is_that_of_a_figure(pattern: str) -> None:
    figures = {figure for name in NAMES for figure in speed_tables.Found(name).figures}
    assert any(re.fullmatch(pattern, row) for figure in figures for row in (figure, figure.split(": ")[0]))


def test_figures_are_shown_by_other_names(folder: Path) -> None:
    kept(folder, "a", "bench/page X --json a.json", {"a step of 8 atoms by the page": 1.5, "a step of 8 atoms by the programs": 2.5})
    assert speed_tables.speed("figures", "a").splitlines()[4:] == [
        "| time of a step of 8 atoms in the page | 1.50 ms |",
        "| a step of 8 atoms by the programs | 2.50 ms |",
    ]
    kept(folder, "a", "bench/view X --json a.json", {"processor time of a sent frame: 8 atoms": 1.5})
    assert speed_tables.speed("grid", "a").splitlines()[4:] == ["| processor time of the view and its program per frame | 1.50 ms |"]


def test_figures_in_rows_and_columns(folder: Path) -> None:
    figures = {"frames sent: 256 atoms": 752.0, "time: 256 atoms": 1.04, "frames sent: 1000 atoms": 214.0, "time: 1000 atoms": 4.1}
    kept(folder, "a", "bench/view X --json a.json", figures, "us")
    assert speed_tables.speed("grid", "a").splitlines()[2:] == [
        "| Measured | 256 atoms | 1000 atoms |",
        "|---|---|---|",
        "| frames sent | 752 µs | 214 µs |",
        "| time | 1.04 µs | 4.10 µs |",
    ]


@pytest.mark.parametrize("value, text", [(0.0111, "0.0111"), (4.94, "4.94"), (99.94, "99.9"), (99.97, "100"), (66312.4, "66,312")])
def test_three_digits(value: float, text: str) -> None:
    assert speed_tables.shown(value) == text


def test_a_table_names_the_program(folder: Path) -> None:
    """By its version and commit, as far as they are known; several where it is made of several measurements."""
    for name, commit in (("a", "01234567"), ("b", "01234567"), ("c", "89abcdef, with changes"), ("d", None)):
        kept(folder, name, "bench/one X --json a.json", {}, program={"version": "1.1.0", "commit": commit, "sources": {}})

    def moment(*names: str) -> str:
        return speed_tables.moment(*map(speed_tables.Found, names))

    assert moment("a", "b") == "1.1.0, commit 01234567, 2026-01-02, load 0.2 to 1.5"
    assert moment("c") == "1.1.0, commit 89abcdef, with changes, 2026-01-02, load 0.2 to 1.5"
    assert moment("a", "d") == "1.1.0, commit 01234567, 1.1.0, 2026-01-02, load 0.2 to 1.5"


# What is stale.

RATTLE = """//! A head.
ghost use Rattle.std.specs.Prelude.{◌≡◌};

/// Returns the number after this one.
pub fn after(number: u8) -> u8
    requires { number < 255 }
    ensures next { result ≡ (record {
        number = number + 1 }).number }
{
    // A comment.
    number + 1
}
"""
PYTHON = '''"""A head."""
# A comment.
import os


def cores() -> int:
    """How many processors may be used."""
    return len(os.sched_getaffinity(0))
'''


@pytest.fixture
def tree(folder: Path, monkeypatch: pytest.MonkeyPatch) -> Path:
    """A folder of sources with one crate, a module, and a measurement that depends on both."""
    for source, text in (("crates/lj_one/src/lib.rt", RATTLE), ("client/one.py", PYTHON)):
        (folder / source).parent.mkdir(parents=True)
        (folder / source).write_text(text)
    for module in (measured, sources):
        monkeypatch.setattr(module, "TOP", folder)
    monkeypatch.setattr(measured, "HOT", {"bench/one": ("crates/lj_one/src", "client/one.py")})
    (folder / "crates.txt").write_text("# crates\nlj_one: thiserror\n")
    return folder


def edited(path: Path, old: str, new: str) -> None:
    text = path.read_text()
    assert text.count(old) == 1
    path.write_text(text.replace(old, new))


def hashes(tree: Path) -> Dict[str, str]:
    return {source: measured.hash_of(source) for source in measured.HOT["bench/one"]}


@pytest.mark.parametrize(
    "old, new",
    [
        ("A head.", "Another head."),
        ("the number after", "the next number after"),
        ("number < 255", "number < 254"),
        ("number = number + 1 })", "number = 1 + number })"),
        ("A comment.", "Another comment."),
        ("{◌≡◌}", "{◌≡◌, ◌<◌}"),
    ],
)
def test_comments_and_contracts_make_nothing_stale(tree: Path, old: str, new: str) -> None:
    before = hashes(tree)
    edited(tree / "crates/lj_one/src/lib.rt", old, new)
    assert hashes(tree) == before


@pytest.mark.parametrize("old, new", [("    number + 1\n", "    1 + number\n"), ("pub fn after", "#[inline(always)]\npub fn after")])
def test_code_makes_its_crate_stale(tree: Path, old: str, new: str) -> None:
    before = hashes(tree)
    edited(tree / "crates/lj_one/src/lib.rt", old, new)
    assert [source for source, found in hashes(tree).items() if found != before[source]] == ["crates/lj_one/src"]


@pytest.mark.parametrize("name", ["other.rt", "under/lib.rt"])
def test_another_file_makes_its_crate_stale(tree: Path, name: str) -> None:
    before = hashes(tree)
    (tree / "crates/lj_one/src" / name).parent.mkdir(exist_ok=True)
    (tree / "crates/lj_one/src/lib.rt").rename(tree / "crates/lj_one/src" / name)
    assert hashes(tree)["crates/lj_one/src"] != before["crates/lj_one/src"]


@pytest.mark.parametrize(
    "old, new, is_same", [("A head", "B", True), ("A comment", "B", True), ("How many", "B", True), ("len", "sum", False)]
)
def test_docstrings_make_no_module_stale(tree: Path, old: str, new: str, is_same: bool) -> None:
    before = hashes(tree)
    edited(tree / "client/one.py", old, new)
    assert (hashes(tree) == before) == is_same


def built(tree: Path, *lines: str) -> Path:
    """A program in the place of the built one."""
    program = tree / "crates" / "ljserve" / "out" / "ljserve"
    program.parent.mkdir(parents=True)
    program.write_text("\n".join(["#!/bin/sh", *lines]) + "\n")
    program.chmod(0o755)
    return program


def test_a_measurement_keeps_what_it_measured(tree: Path) -> None:
    program = built(tree, "echo ljserve 7.8.9")
    git = ["git", "-c", "user.name=A", "-c", "user.email=a@example.org"]
    for words in (["init", "-q"], ["add", "client", "crates/lj_one"], ["commit", "-q", "-m", "All"]):
        subprocess.run([*git, *words], cwd=tree, check=True)
    commit = subprocess.run(["git", "rev-parse", "HEAD"], cwd=tree, check=True, capture_output=True, text=True).stdout[:8]
    assert measured.what_is_measured(str(program), "bench/one") == {"version": "7.8.9", "commit": commit, "sources": hashes(tree)}
    edited(tree / "client/one.py", "len", "sum")
    assert measured.what_is_measured(str(program), "bench/one")["commit"] == f"{commit}, with changes"


def test_of_another_program_the_version_alone_is_known(tree: Path) -> None:
    """One of another folder, and one that was built before the code was as it is."""
    program = built(tree, "echo ljserve 7.8.9")
    other = tree / "ljserve"
    other.write_bytes(program.read_bytes())
    other.chmod(0o755)
    unknown: Dict[str, Any] = {"version": "7.8.9", "commit": None, "sources": {}}
    assert measured.what_is_measured(str(other), "bench/one") == unknown
    os.utime(program, (0, 0))
    assert measured.what_is_measured(str(program), "bench/one") == unknown


@pytest.mark.parametrize("lines", [["echo another"], ["exit 1"], ["echo ljserve 1.1.0", "exit 1"]])
def test_what_tells_no_version(tree: Path, lines: List[str]) -> None:
    assert measured.what_is_measured(str(built(tree, *lines)), "bench/one")["version"] is None


def test_where_there_is_no_program(tree: Path) -> None:
    assert measured.what_is_measured("no/such/program", "bench/one") == {"version": None, "commit": None, "sources": {}}


def speeds_in(tree: Path, capsys: pytest.CaptureFixture[str], *words: str) -> Tuple[int, List[str]]:
    """The status and the lines of bin/speeds."""
    command = ModuleType("speeds")
    SourceFileLoader("speeds", str(TOP / "bin" / "speeds")).exec_module(command)
    status = command.main(list(words))
    return status, capsys.readouterr().out.splitlines()


def test_measurements_are_told_by_what_they_measured(tree: Path, capsys: pytest.CaptureFixture[str]) -> None:
    program = {"version": "1.1.0", "commit": "01234567", "sources": hashes(tree)}
    for name, has_kept in (("a", True), ("b", True), ("c", False)):
        kept(tree, name, "bench/one X --json a.json", {}, program=program if has_kept else None)
    as_they_are = "1.1.0, commit 01234567, 2026-01-02, sources as they are: a b"
    not_known = "stale: 2026-01-02, sources not known: c"
    assert speeds_in(tree, capsys) == (0, [as_they_are, not_known])
    assert speeds_in(tree, capsys, "--stale") == (1, [not_known])
    edited(tree / "crates/lj_one/src/lib.rt", "    number + 1\n", "    1 + number\n")
    changed = "stale: 1.1.0, commit 01234567, 2026-01-02, before changes of crates/lj_one/src: a b"
    assert speeds_in(tree, capsys, "--stale") == (1, [changed, not_known])
    (tree / "c.json").unlink()
    edited(tree / "crates/lj_one/src/lib.rt", "    1 + number\n", "    number + 1\n")
    assert speeds_in(tree, capsys, "--stale") == (0, [])


def test_a_source_that_is_gone_or_new_makes_it_stale(tree: Path, monkeypatch: pytest.MonkeyPatch) -> None:
    told = {"command": "bench/one X", "program": {"sources": hashes(tree)}}
    assert measured.changes_since(told) == []
    (tree / "client/one.py").unlink()
    assert measured.changes_since(told) == ["client/one.py"]
    monkeypatch.setattr(measured, "HOT", {"bench/one": ("crates/lj_one/src", "client/two.py")})
    (tree / "client/two.py").write_text("")
    assert measured.changes_since(told) == ["client/two.py", "client/one.py"]


@pytest.mark.parametrize("name", NAMES)
def test_what_a_measurement_depends_on_is_there(name: str) -> None:
    hot = measured.HOT[speed_tables.Found(name).told["command"].split()[0]]
    assert len(hot) > 1 and all((TOP / source).exists() and measured.files_of(source) for source in hot)


def test_no_code_of_crates_is_taken_for_a_contract() -> None:
    """No clause is left in what is hashed, and each line that is not of one is: as many functions as before."""
    for path in sorted(TOP.glob("crates/lj_*/src/**/*.rt")):
        text = path.read_text()
        code = measured.code_of(path)
        assert not {"requires", "ensures", "ghost", "≡", "≤"} & set(code.split())
        assert code.count(" fn ") == "\n".join(line for line in text.splitlines() if not line.lstrip().startswith("//")).count(" fn ")
