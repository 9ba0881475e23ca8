"""What bin/gate, bin/build, bin/planted and bin/seen call of the kit's command is there, and what they do where it is not."""
from __future__ import annotations

import os
import pathlib
import shutil
import subprocess
import sys
import threading
from typing import Any, Dict, List, Tuple

import pytest

TOP = pathlib.Path(__file__).resolve().parents[2]
sys.path.insert(0, str(TOP / "bin"))
import kit  # noqa: E402

SECONDS = 20

# A kit's command that tells how it is begun, and ends with a status of its own. As a module it has some functions.
STAND_IN = """#!{python}
import os, sys
{functions}
if __name__ == "__main__":
    print(os.path.relpath(os.getcwd(), {top!r}), *sys.argv[1:])
    sys.exit(7)
"""
GATE = "def main(words): return 0\ndef processors(): return 1\ndef free(): return 1\ndef in_lanes(tasks): return {}\n"
EDITS = "def edits_of(crate): pass\ndef checked(crate, texts, flags, kept): pass\n"
MUST_FAIL = "def must_fail(crate, edit, flags, kept=None): pass\n"


@pytest.fixture(scope="module")
def rt() -> Any:
    """The kit's command as a module."""
    if shutil.which("rt") is None:
        pytest.skip("the Rattle toolchain (the command rt) is not on the PATH")
    return kit.load("test_gate")


def put(folder: pathlib.Path, functions: str) -> None:
    """Writes a stand-in for the kit's command with these functions."""
    file = folder / "rt"
    file.write_text(STAND_IN.format(python=sys.executable, functions=functions, top=str(TOP)))
    file.chmod(0o755)


def begun(folder: pathlib.Path, *words: str) -> Tuple[int, str, str]:
    """How a command of bin/ ends over the stand-in."""
    environment = {**os.environ, "PATH": str(folder), "PYTHONDONTWRITEBYTECODE": "1"}
    name, *rest = words
    done = subprocess.run([sys.executable, str(TOP / "bin" / name), *rest], env=environment, capture_output=True, text=True, timeout=60)
    return done.returncode, done.stdout, done.stderr


@pytest.mark.parametrize("asker", kit.CALLED)
def test_the_kit_has_all_that_is_called(rt: Any, asker: str) -> None:
    assert kit.lacking(rt, asker) == []


def test_a_function_that_is_missing_is_named(rt: Any, monkeypatch: pytest.MonkeyPatch) -> None:
    monkeypatch.delattr(rt, "must_fail")
    assert kit.lacking(rt, "gate") == kit.lacking(rt, "planted") == ["must_fail(crate,edit,flags,kept)"]


def test_a_function_of_other_arguments_is_named(rt: Any, monkeypatch: pytest.MonkeyPatch) -> None:
    monkeypatch.setattr(rt, "free", lambda limit: limit)
    assert kit.lacking(rt, "gate") == kit.lacking(rt, "build") == ["free()"]


def older(self: Any) -> str:
    return ""


def newer(crate: Any, made: Any = None) -> str:
    return ""


def other(self: Any, made: Any) -> str:
    return ""


@pytest.mark.parametrize("stamp, lacking", [(older, []), (newer, []), (other, ["rtlib.Crate.stamp(self|crate,made)"])])
def test_a_stamp_is_that_of_either_kit(rt: Any, monkeypatch: pytest.MonkeyPatch, stamp: Any, lacking: List[str]) -> None:
    monkeypatch.setattr(rt.rtlib.Crate, "stamp", stamp)
    assert kit.lacking(rt, "build") == lacking


@pytest.mark.parametrize(
    "functions, lacking",
    [
        (GATE + EDITS, "must_fail(crate,edit,flags,kept)"),
        (GATE + MUST_FAIL, "edits_of(crate), checked(crate,texts,flags,kept)"),
        (GATE + EDITS + MUST_FAIL.replace("edit, ", ""), "must_fail(crate,edit,flags,kept)"),
        ("a b", "command that Python can load (SyntaxError)"),
        ("raise OSError", "command that Python can load (OSError)"),
    ],
)
def test_the_gate_is_plain_where_a_function_is_missing(tmp_path: pathlib.Path, functions: str, lacking: str) -> None:
    put(tmp_path, "if __name__ != '__main__':\n    exec('''" + functions + "''', globals())\n")
    line = f"gate: warning: this kit has no {lacking}: a plain `rt ci` is run\n"
    assert begun(tmp_path, "gate", "lj_fixed", "--anew") == (7, ". ci lj_fixed --anew\n", line)


def test_the_gate_is_judged_by_the_kit(tmp_path: pathlib.Path) -> None:
    """Its status is the one that the kit's own gate returns, which runs over other functions of edits and tasks."""
    told = "def main(words):\n    print(*words, in_lanes.__module__, must_fail.__module__, processors.__module__)\n    return 5\n"
    put(tmp_path, GATE + EDITS + MUST_FAIL + told)
    assert begun(tmp_path, "gate", "lj_fixed") == (5, "ci lj_fixed kit edits rt\n", "")


def test_libraries_are_built_in_turn_where_a_function_is_missing(tmp_path: pathlib.Path) -> None:
    put(tmp_path, GATE)
    status, out, error = begun(tmp_path, "build", str(tmp_path / "log"))
    assert (status, out, (tmp_path / "log").read_text()) == (7, "", "crates/lj_program lib\n")
    assert error.startswith("build: warning: this kit has no need(crate), rtlib.guarded()") and error.count("\n") == 1


@pytest.mark.parametrize("words", [["planted", "lj_end"], ["seen", "lj_lock"], ["compile", "x86-64-v3", "out"]])
def test_nothing_is_done_where_a_function_is_missing(tmp_path: pathlib.Path, words: List[str]) -> None:
    put(tmp_path, GATE + EDITS + MUST_FAIL)
    status, out, error = begun(tmp_path, *words)
    assert (status, out, error.count("\n")) == (69, "", 1) and error.startswith(f"{words[0]}: warning: this kit has no ")


@pytest.mark.parametrize(
    "words", [["gate"], ["build", "/dev/null"], ["planted", "lj_end"], ["seen", "lj_lock"], ["compile", "x86-64-v3", "out"]]
)
def test_without_a_kit(tmp_path: pathlib.Path, words: List[str]) -> None:
    line = f"{words[0]}: the Rattle toolchain (the command rt) is not on the PATH\n"
    assert begun(tmp_path, *words) == (69, "", line)


def test_the_highest_library_is_the_one_that_all_others_are_below() -> None:
    """The one whose `rt lib` builds all others of the program."""
    (line,) = [line for line in (TOP / "crates.txt").read_text().splitlines() if line.startswith("ljserve:")]
    assert line.split()[1] == "lj_program"


class Kit:
    """What the lanes ask the kit for."""

    @staticmethod
    def processors() -> int:
        return 2

    @staticmethod
    def free() -> float:
        return 100.0


def test_tasks_run_after_those_that_they_wait_for() -> None:
    ended: List[str] = []

    def task(name: str, waits: List[str], need: float = 1.0) -> kit.Task:
        def call(given: Dict[kit.Key, Any], jobs: int) -> str:
            assert all((below, "proof") in given for below in waits) and jobs >= 1
            ended.append(name)
            return name.upper()

        return [(below, "proof") for below in waits], 10, need, call

    waiting: Dict[str, List[str]] = {"a": [], "b": [], "c": ["a"], "d": ["b", "c"]}
    tasks: Dict[kit.Key, kit.Task] = {(name, "proof"): task(name, waits) for name, waits in waiting.items()}
    tasks["e", "proof"] = task("e", ["d"], need=1000.0)  # (which runs alone, since all others leave it too little memory)
    given = kit.Lanes(Kit, tasks).run()
    assert given == {(name, "proof"): name.upper() for name in "abcde"}
    assert ended.index("a") < ended.index("c") < ended.index("d") < ended.index("e") and ended.index("b") < ended.index("d")


def test_a_proof_waits_for_no_edits(tmp_path: pathlib.Path) -> None:
    """Edits on all processors, each of which ends once the proof has begun."""
    begun = threading.Event()

    def edits(given: Dict[kit.Key, Any], jobs: int) -> bool:
        return begun.wait(SECONDS)

    def proof(given: Dict[kit.Key, Any], jobs: int) -> bool:
        begun.set()
        return True

    first: Dict[kit.Key, kit.Task] = {("a", "proof"): ([], 1, 1.0, lambda given, jobs: True)}
    tried: Dict[kit.Key, kit.Task] = {("a", "edits", n): ([], 1, 1.0, edits) for n in range(Kit.processors())}
    last: Dict[kit.Key, kit.Task] = {("b", "proof"): ([("a", "proof")], 1, 1.0, proof)}
    assert all(kit.Lanes(Kit, {**first, **tried, **last}).run().values())


def test_the_crate_with_the_longest_proofs_behind_it_comes_first(monkeypatch: pytest.MonkeyPatch, tmp_path: pathlib.Path) -> None:
    """By the lines of sources, definitions and proofs, whatever the kit counts."""
    monkeypatch.setattr(kit, "TOP", tmp_path)
    files = {
        "a/src/lib.rt": 9,
        "b/src/lib.rt": 2,
        "b/specs/A.antt": 4,
        "b/proofs/x/Y.antt": 8,
        "b/must-fail/z.edit": 50,
        "c/out/D.antt": 50,
    }
    for file, lines in files.items():
        path = tmp_path / "crates" / file
        path.parent.mkdir(parents=True)
        path.write_text("\n" * lines)
    assert [kit.lines_of(name) for name in "abcd"] == [9, 14, 0, 0]
    tasks: Dict[kit.Key, kit.Task] = {(name, "proof"): ([], lines, 1.0, lambda given, jobs: None) for name, lines in (("a", 9), ("b", 2))}
    assert [name for name, _ in kit.Lanes(Kit, tasks).left] == ["b", "a"]


def test_what_a_task_raises_is_raised() -> None:
    def call(given: Dict[kit.Key, Any], jobs: int) -> None:
        raise KeyError("lost")

    with pytest.raises(KeyError, match="lost"):
        kit.Lanes(Kit, {("a", "proof"): ([], 1, 1.0, call), ("b", "proof"): ([("a", "proof")], 1, 1.0, call)}).run()


class Library:
    """What the libraries of the program ask the kit for: a crate that stands on others, and notes how it is built."""

    def __init__(self, folder: pathlib.Path, name: str, *below: "Library"):
        self.name, self.folder, self._below = name, str(folder / name), below
        self.source, self.has_stamp, self.built = "as it was", False, list[bool]()
        self.rlib = f"{self.folder}/out/rlib/{name}.rlib"

    def below(self) -> Tuple["Library", ...]:
        return self._below

    def stamp(self) -> str:
        return self.source + "".join(library.stamp() for library in self._below)

    def is_built(self) -> bool:
        return self.has_stamp

    def has_kept(self) -> bool:
        return False

    def build_rlib(self, flags: List[str], anew: bool) -> int:
        self.built.append(anew)
        return 0

    def words(self, flags: List[str], keeps: bool) -> List[str]:
        assert "--statements" in flags and not keeps
        return flags

    def call(self, *words: str) -> int:
        """Nothing is there that an earlier run has made, and no proof is kept."""
        assert words[:2] == ("rattle", "build") and words[-2:] == ("-o", self.rlib)
        assert list(pathlib.Path(self.rlib).parent.iterdir()) == []
        self.built.append(True)
        return 1 if self.source == "refused" else 0


@pytest.fixture
def libraries(tmp_path: pathlib.Path) -> List[Library]:
    low = Library(tmp_path, "low")
    middle = Library(tmp_path, "middle", low)
    return [low, middle, Library(tmp_path, "high", low, middle), Library(tmp_path, "beside")]


def build(libraries: List[Library]) -> Dict[str, Tuple[bool, List[bool]]]:
    """Whether each library is there, and for each time that it was built whether it was from nothing."""
    made, given = kit.Libraries("rattle", libraries), dict[kit.Key, Any]()
    for library in libraries:
        library.built = []
        given[library.name, "proof"] = made.task(library, given, 1)
    return {library.name: (given[library.name, "proof"], library.built) for library in libraries}


def test_a_new_clone_is_proved_from_nothing_and_once(libraries: List[Library]) -> None:
    assert build(libraries) == dict.fromkeys(["low", "middle", "high", "beside"], (True, [True]))
    assert build(libraries) == dict.fromkeys(["low", "middle", "high", "beside"], (True, []))


def test_what_stands_on_a_changed_library_is_proved_anew(libraries: List[Library]) -> None:
    build(libraries)
    libraries[1].source = "changed"
    assert build(libraries) == {"low": (True, []), "middle": (True, [True]), "high": (True, [True]), "beside": (True, [])}


def test_statements_of_a_library_made_anew_fit_nothing_older(libraries: List[Library]) -> None:
    """Also where what is made is the same as before: the rlib was built by something else in between."""
    build(libraries)
    (pathlib.Path(libraries[0].folder) / "out" / "rlib" / "statements").unlink()
    assert build(libraries) == {"low": (True, [True]), "middle": (True, [True]), "high": (True, [True]), "beside": (True, [])}


def test_nothing_is_built_above_what_is_not_proved(libraries: List[Library]) -> None:
    libraries[1].source = "refused"
    assert build(libraries) == {"low": (True, [True]), "middle": (False, [True]), "high": (False, []), "beside": (True, [True])}
    assert build(libraries) == {"low": (True, []), "middle": (False, [True]), "high": (False, []), "beside": (True, [])}


def test_what_the_kit_has_kept_is_used(libraries: List[Library]) -> None:
    libraries[0].has_stamp = True
    assert build(libraries) == dict.fromkeys(["low", "middle", "high", "beside"], (True, [False]))


def test_one_file_has_it_all() -> None:
    lines = (TOP / "bin" / "kit.py").read_text().splitlines()
    assert len(lines) <= 250
