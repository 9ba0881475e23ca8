"""Studies: what is kept in their folder, and that it is verified."""
import dataclasses
import json
import math
import os
import pathlib
import signal
import subprocess
import sys
import threading
from typing import Any, List, NamedTuple, Tuple

import pytest

from ljclient import checkpoint, refusals, run, study
from ljclient.study_manifest import manifest_in
from record_texts import commands
from study_folders import begun, made, said, sha, verified
from support import DIMER, DIMER_SCALE, PROGRAM, SECONDS, Server, TOKEN, dimer, listed
from terminals import environment

numpy = pytest.importorskip("numpy", reason="numpy is not installed")


@pytest.fixture
def folder(tmp_path: pathlib.Path) -> pathlib.Path:
    return tmp_path / "two"


def test_a_study_is_listed_file_by_file(folder: pathlib.Path) -> None:
    s = made(folder)
    told = said(folder)
    files = {str(path.relative_to(folder)) for path in folder.rglob("*") if path.is_file()}
    assert files - set(told["files"]) == {"study.json", "CITATION.cff"} and set(told["files"]) < files
    for path, each in told["files"].items():
        assert (each["sha256"], each["bytes"]) == (sha(folder / path), (folder / path).stat().st_size)
    kinds = {path: each["kind"] for path, each in told["files"].items()}
    points = {f"checkpoints/a.{number}.saved": "checkpoint" for number in (1, 2, 3, 4)}
    assert kinds == {"records/a.lj": "record", "records/b.lj": "record", "figures/column.csv": "figure", **points}
    assert (told["state"], told["why"], told["parameters"], told["title"]) == ("finished", "", {"steps": 12}, "Two atoms")
    assert s.sum == sha(folder / "study.json") == manifest_in(folder)[1]
    assert json.dumps(told, sort_keys=True, indent=1) + "\n" == (folder / "study.json").read_text()


def test_versions_are_those_of_this_python_and_program(folder: pathlib.Path) -> None:
    made(folder)
    versions = said(folder)["versions"]
    done = subprocess.run([PROGRAM, "--version"], capture_output=True, text=True, timeout=SECONDS)
    told = done.stdout.splitlines() if done.returncode == 0 else []
    assert versions["program"] == (told or ["a program that tells no version"])
    assert (versions["numpy"], versions["python"]) == (numpy.__version__, ".".join(map(str, sys.version_info[:3])))


def test_the_citation_says_the_sum(folder: pathlib.Path) -> None:
    yaml = pytest.importorskip("yaml", reason="yaml is not installed")
    s = made(folder)
    told = yaml.safe_load((folder / "CITATION.cff").read_text())
    assert told["identifiers"][0]["value"] == f"sha256:{s.sum}"
    assert (told["title"], told["authors"], told["cff-version"]) == ("Two atoms", [{"name": "A. Author"}], "1.2.0")
    version = subprocess.run([PROGRAM, "--version"], capture_output=True, text=True, timeout=SECONDS)
    if version.returncode == 0:
        assert told["references"][0]["version"] == version.stdout.splitlines()[0].split()[1]


@pytest.mark.parametrize("title", ['quoted "so"', "colon: and # and\nline", "\u00e9chos \U0001f600", "- dash"])
def test_any_title_can_be_cited(folder: pathlib.Path, title: str) -> None:
    yaml = pytest.importorskip("yaml", reason="yaml is not installed")
    with study(folder, title=title, authors=[title]):
        pass
    told = yaml.safe_load((folder / "CITATION.cff").read_text())
    assert (told["title"], told["authors"]) == (title, [{"name": title}])
    assert verified(folder)[0] == 0


@pytest.mark.parametrize("jobs", [1, 3])
def test_a_study_is_verified(folder: pathlib.Path, jobs: int) -> None:
    s = made(folder)
    status, told, faults = verified(folder, jobs=jobs)
    assert (status, faults) == (0, [])
    count = sum(line.startswith("< ") for line in (line[9:] for line in (folder / "records" / "a.lj").read_text().splitlines()))
    parts = {1: "1 part", 3: "5 parts"}[jobs]
    (line,) = [line for line in told if line.startswith(f"{folder}/records/a.lj: ")]
    assert line.startswith(f"{folder}/records/a.lj: all {count} replies are the same; 0 commands were not played; 1 trajectory; ")
    assert line.endswith(f"; played in {parts}, with 4 checkpoints")
    assert f"{folder}/figures/column.csv: as it was" in told
    assert told[-1] == f"{folder}: 2 records, 4 checkpoints, 1 figure, 0 files; all fit; SHA-256 {s.sum}"
    assert verified(folder, "--quiet") == (0, told[-1:], [])
    assert verified(folder, "--quiet", "--sha256", s.sum) == (0, told[-1:], [])
    why = f"ljclient: {folder} must have the SHA-256 {'0' * 64}, got {s.sum}: it is another study"
    assert verified(folder, "--sha256", "0" * 64) == (2, [], [why])


def test_a_record_of_a_study_is_verified_alone(folder: pathlib.Path) -> None:
    made(folder)
    status, told, faults = verified(folder / "records" / "a.lj", "--quiet")
    assert (status, faults, len(told)) == (0, [], 2)


def test_a_checkpoint_is_the_session_there(folder: pathlib.Path) -> None:
    """It is read as a saved session, and goes on as the session did."""
    with begun(folder) as (s, user):
        a = dimer(user)
        a.advance(3)
        path = s.checkpoint(a)
        a.advance(4)
        wanted = listed(a.places())
    assert checkpoint.read(path).step == 3
    with run(PROGRAM) as other:
        again = other.load_saved(path)
        assert (again.advance(4), listed(again.places())) == (7, wanted)


def test_sessions_of_one_name_have_records_of_their_own(folder: pathlib.Path) -> None:
    with begun(folder) as (s, user):
        dimer(user).advance(1)
        dimer(user, replace=True).advance(2)
        user.session("a").drop()
        dimer(user, "A").copy("c")
        dimer(s.run(PROGRAM), "a")
        dimer(user, "d", record=folder.parent / "elsewhere.lj")
    names = sorted(path.name for path in (folder / "records").iterdir())
    assert names == ["A.3.lj", "a.2.lj", "a.4.lj", "a.lj", "c.lj"]
    assert verified(folder)[0] == 0


def test_a_load_that_is_refused_leaves_no_record(folder: pathlib.Path) -> None:
    with begun(folder) as (s, user):
        with pytest.raises(refusals.XyzCount):
            user.load("a", "no atoms\n", **DIMER_SCALE)
        dimer(user).advance(1)
    assert list(said(folder)["files"]) == ["records/a.2.lj"]
    assert verified(folder)[0] == 0


def test_a_server_is_asked(folder: pathlib.Path) -> None:
    with Server() as server:
        with study(folder) as s:
            a = dimer(s.connect("127.0.0.1", server.port, "ann", TOKEN))
            s.advance(a, 4, 2)
            a.drop()
        assert said(folder)["versions"]["program"] == ["a program that tells no version"]
        assert TOKEN not in "".join(path.read_text() for path in folder.rglob("*") if path.is_file())
        assert verified(folder)[0] == 0
        tokens = folder.parent / "token"
        tokens.write_text(TOKEN)
        status, told, faults = verified(folder, "--server", f"127.0.0.1:{server.port}", "ann", "--token-file", tokens)
        assert (status, faults) == (0, [])
        assert any(line.endswith("; played in 1 part, with 2 checkpoints") for line in told)


class Pair(NamedTuple):
    one: int
    two: float


@dataclasses.dataclass
class Curve:
    r: Any
    g: Any
    unit: str = "sigma"


def test_values_that_are_kept(folder: pathlib.Path) -> None:
    with study(folder) as s:
        s.parameters["array"] = numpy.array([[1, 2], [3, 4]])
        s.parameters["scalar"] = numpy.float32(0.5)
        s.parameters["gone"] = 1
        del s.parameters["gone"]
        s.keep("pair", Pair(1, math.nan))
        s.keep("all", {"none": None, "yes": True, "list": (1, 2.5, "x"), "far": -math.inf})
        s.keep("curve", Curve([1], [2.0]))
        with pytest.raises(TypeError, match="bad must be None, a truth value, .*, got object"):
            s.keep("bad", object())
        with pytest.raises(TypeError, match="a name must be a text of at least one letter, got ''"):
            s.parameters[""] = 1
        assert dict(s.parameters) == {"array": [[1, 2], [3, 4]], "scalar": 0.5}
    assert said(folder)["results"] == {
        "all": {"none": None, "yes": True, "list": [1, 2.5, "x"], "far": "-inf"},
        "curve": {"r": [1], "g": [2.0], "unit": "sigma"},
        "pair": {"one": 1, "two": "nan"},
    }
    lates: List[Tuple[Any, Tuple[Any, ...]]] = [(s.keep, ("late", 1)), (s.run, (PROGRAM,)), (s.figure, ("late", [1]))]
    for late, words in lates:
        with pytest.raises(ValueError, match="cannot add to a study that is not open; use it within `with study"):
            late(*words)


def test_data_of_figures(folder: pathlib.Path) -> None:
    """Columns are CSV with all digits, and what is no columns is read by numpy."""
    third = 1 / 3
    with study(folder) as s:
        columns = s.figure("columns", {"n": numpy.arange(2), "x": numpy.array([third, 1e-300]), "word": ["a,b", 'c"d']})
        points = s.figure("points", numpy.array([[0.0, 1.0], [2.0, 3.0]]))
        series = s.figure("series", [third, 2])
        result = s.figure("result", Curve(numpy.array([1.0, 2.0]), numpy.array([3, 4])))
        grid = s.figure("grid", {"x": [1, 2, 3], "field": numpy.ones((2, 2)) * third, "wave": [1j]})
    assert pathlib.Path(columns).read_text() == f'n,x,word\n0,{third!r},"a,b"\n1,1e-300,"c""d"\n'
    assert pathlib.Path(points).read_text() == "x,y\n0.0,1.0\n2.0,3.0\n"
    assert pathlib.Path(series).read_text() == f"y\n{third!r}\n2\n"
    assert pathlib.Path(result).read_text() == "r,g\n1.0,3\n2.0,4\n"
    with numpy.load(grid, allow_pickle=False) as told:
        assert {name: told[name].tolist() for name in told} == {"x": [1, 2, 3], "field": [[third] * 2] * 2, "wave": [1j]}
    assert verified(folder)[0] == 0


def test_the_same_data_are_the_same_bytes(folder: pathlib.Path) -> None:
    sums = []
    for name in ("one", "two"):
        with study(folder / name, title="x") as s:
            s.figure("grid", {"field": numpy.ones((3, 3)), "x": [1, 2]})
        sums.append(s.sum)
    assert sums[0] == sums[1]


@pytest.mark.parametrize(
    ("name", "data", "why"),
    [
        ("a", 3, "the data of figure a must be a dict of arrays, an array, or a result with arrays, got int"),
        ("a", {}, "the data of figure a must be a dict of arrays"),
        ("a", {"x": 1}, "the data of figure a must be a dict of arrays"),
        ("a", {"x": [object(), 1], "y": [1]}, "the data of figure a must be arrays of numbers"),
        ("a", {"file": [1j]}, "with other names than `file`, got 'file'"),
        ("../a", [1], "a name must be 1 to 64 letters"),
        (".a", [1], "a name must be 1 to 64 letters"),
        ("a/b", [1], "a name must be 1 to 64 letters"),
        ("", [1], "a name must be 1 to 64 letters"),
        ("there", [1], "cannot add figures/there.csv: the study has it already; use another name"),
        ("THERE", [1], "cannot add figures/THERE.csv: the study has it already; use another name"),
    ],
)
def test_what_is_no_figure(folder: pathlib.Path, name: str, data: Any, why: str) -> None:
    with study(folder) as s:
        s.figure("there", [1])
        with pytest.raises(ValueError) as caught:
            s.figure(name, data)
        assert why in str(caught.value)
    assert list(said(folder)["files"]) == ["figures/there.csv"]
    assert verified(folder)[0] == 0


def test_files_that_are_added(folder: pathlib.Path, tmp_path: pathlib.Path) -> None:
    """A record that was written elsewhere is played with the study, if it is one."""
    with run(PROGRAM) as user:
        dimer(user, record=tmp_path / "old.lj").advance(2)
    (tmp_path / "script.py").write_text("print(1)\n")
    (tmp_path / "spoilt.lj").write_text((tmp_path / "old.lj").read_text().replace("ADVANCE", "ADVANCF"))
    with study(folder) as s:
        assert s.add(tmp_path / "old.lj") == str(folder / "records" / "old.lj")
        assert s.add(tmp_path / "script.py", "made_by.py") == str(folder / "files" / "made_by.py")
        with pytest.raises(ValueError, match="the line was changed"):
            s.add(tmp_path / "spoilt.lj")
        with pytest.raises(ValueError, match="cannot add records/old.lj: the study has it already"):
            s.add(tmp_path / "old.lj")
        with pytest.raises(FileNotFoundError):
            s.add(tmp_path / "nothing")
    status, told, _ = verified(folder)
    assert (status, commands(folder / "records" / "old.lj")[0]) == (0, f"LOAD a 256 1 131072 rest {len(DIMER)}")
    assert told[-1].startswith(f"{folder}: 1 record, 0 checkpoints, 0 figures, 1 file; all fit; ")


def test_a_session_without_a_record_has_no_checkpoint(folder: pathlib.Path) -> None:
    with begun(folder) as (s, _), run(PROGRAM) as other:
        with pytest.raises(ValueError, match="cannot add a: it has no record in this study; use a user of s.run"):
            s.checkpoint(dimer(other))
        with pytest.raises(ValueError, match="cannot add a: it has no record in this study"):
            s.checkpoint(dimer(other, replace=True, record=folder.parent / "x.lj"))


def test_folders_that_are_taken(tmp_path: pathlib.Path) -> None:
    (tmp_path / "full").mkdir()
    (tmp_path / "full" / "mine").write_text("mine")
    (tmp_path / "file").write_text("mine")
    (tmp_path / "empty").mkdir()
    for name, why in (("full", "the folder is not empty"), ("file", "it exists and is not a folder")):
        with pytest.raises(ValueError, match=why), study(tmp_path / name):
            raise AssertionError
    assert [path.name for path in (tmp_path / "full").iterdir()] == ["mine"]
    with study(tmp_path / "empty") as s:
        pass
    with pytest.raises(ValueError, match="the study was begun already"), s:
        raise AssertionError
    with pytest.raises(ValueError, match="is not empty"), study(tmp_path / "empty"):
        raise AssertionError
    assert verified(tmp_path / "empty")[0] == 0


@pytest.mark.parametrize("words", [{"title": 3}, {"authors": "A. Author"}, {"authors": [3]}])
def test_words_of_a_study(folder: pathlib.Path, words: Any) -> None:
    with pytest.raises(TypeError, match="title must be a text and authors a list of texts"):
        study(folder, **words)
    assert not folder.exists()


def test_an_error_within(folder: pathlib.Path) -> None:
    """What was kept is there, and said to be unfinished."""
    with pytest.raises(RuntimeError, match="the disk is full"), begun(folder) as (s, user):
        s.advance(dimer(user), 4, 2)
        s.figure("x", [1, 2])
        raise RuntimeError("the disk is full")
    told = said(folder)
    assert (told["state"], told["why"]) == ("unfinished", "RuntimeError: the disk is full")
    assert not (folder / "CITATION.cff").exists()
    status, lines, faults = verified(folder)
    assert (status, faults) == (3, [])
    assert "; all fit; it is unfinished: RuntimeError: the disk is full; SHA-256 " in lines[-1]
    assert verified(folder, "--partial")[0] == 0
    (folder / "figures" / "x.csv").write_text("y\n1\n3\n")
    assert verified(folder, "--partial")[0] == 1


def test_an_interrupt_within(folder: pathlib.Path) -> None:
    with pytest.raises(KeyboardInterrupt), begun(folder) as (s, user):
        dimer(user).advance(1)
        raise KeyboardInterrupt
    assert (said(folder)["state"], said(folder)["why"]) == ("unfinished", "KeyboardInterrupt")
    assert verified(folder)[0] == 3


KILLED = f"""
from ljclient import study
with study(FOLDER) as s:
    user = s.run({PROGRAM!r})
    a = user.load("a", {DIMER!r}, **{DIMER_SCALE!r})
    s.advance(a, 6, 2)
    s.keep("steps", 6)
    print("there", flush=True)
    for _ in range(10**6):
        a.advance(1, piece=1)
"""


def test_a_study_that_is_killed(folder: pathlib.Path) -> None:
    """Its records are played up to where they are cut short, and the rest is looked at."""
    script = KILLED.replace("FOLDER", repr(str(folder)))
    with subprocess.Popen([sys.executable, "-c", script], env=environment(), stdout=subprocess.PIPE, text=True) as child:
        assert child.stdout is not None and child.stdout.readline() == "there\n"
        os.kill(child.pid, signal.SIGKILL)
    assert (said(folder)["state"], said(folder)["results"]) == ("open", {"steps": 6})
    status, told, faults = verified(folder)
    assert status == 3 and len(faults) == 1 and "has no `end`" in faults[0] or "is cut short here" in faults[0]
    assert "; it is unfinished: it is still being made, or its process was killed; no end: records/a.lj; SHA-256 " in told[-1]
    assert any("with 3 checkpoints" in line for line in told)
    with pytest.raises(ValueError, match="is not empty"), study(folder):
        raise AssertionError
    path = folder / "checkpoints" / "a.2.saved"
    path.write_text(path.read_text().replace("Ar", "Kr", 1))
    assert verified(folder)[0] == 1


def test_several_threads(folder: pathlib.Path) -> None:
    with study(folder) as s:

        def go(number: int) -> None:
            a = dimer(s.run(PROGRAM), "a")
            s.advance(a, 4, 2)
            s.keep(f"step {number}", a.get_step())
            s.figure(f"f{number}", [number])

        threads = [threading.Thread(target=go, args=(number,)) for number in range(4)]
        for thread in threads:
            thread.start()
        for thread in threads:
            thread.join(SECONDS)
    told = said(folder)
    assert told["results"] == {f"step {number}": 4 for number in range(4)}
    assert sorted(path for path in told["files"] if path.startswith("records")) == [
        "records/a.2.lj",
        "records/a.3.lj",
        "records/a.4.lj",
        "records/a.lj",
    ]
    assert verified(folder)[0] == 0


def test_words_of_the_command_line(tmp_path: pathlib.Path) -> None:
    assert verified(tmp_path) == (2, [], [f"ljclient: a study must have study.json, got none in {tmp_path}"])
    command = [sys.executable, "-m", "ljclient", "verify", str(tmp_path)]
    cases: List[Tuple[List[str], str]] = [
        (["--jobs", "0"], "--jobs must be at least 1, got 0"),
        ([], f"a study must have study.json, got none in {tmp_path}"),
    ]
    for words, wanted in cases:
        done = subprocess.run([*command, *words], env=environment(), capture_output=True, text=True, timeout=SECONDS)
        assert (done.returncode, done.stdout, done.stderr.splitlines()[-1]) == (2, "", f"ljclient: {wanted}")
    with pytest.raises(ValueError, match="every must be at least 1, got 0"), begun(tmp_path / "x") as (s, user):
        s.advance(dimer(user), 4, 0)
