"""Examples of the doc comments: each public function has one, bin/examples passes them all, and tells those that are wrong."""
from __future__ import annotations

import importlib.util
import os
import re
import shutil
import subprocess
import sys
from importlib.machinery import SourceFileLoader
from pathlib import Path
from typing import Any, Dict, Iterator

import pytest

TOP = Path(__file__).resolve().parents[2]
TOOL = TOP / "bin" / "examples"
SECONDS = 600
sys.path.insert(0, str(TOP / "bin"))
import sources  # noqa: E402

# Public functions without an example: laws, whose body does nothing, and what the examples of `Done` show.
WITHOUT = [
    "lj_step::motion_laws::covers_are_all_pairs",
    "lj_step::motion_laws::drift_is_conserved",
    "lj_step::motion_laws::steps_are_undone",
    "lj_step::motion_laws::tasks_are_a_cover",
    "lj_step::motion_laws::tasks_are_the_tiles",
    "lj_task::results::DoneRef::energy_sum",
    "lj_task::results::DoneRef::task",
    "lj_xyz::reading_laws::one_reading",
]
NEEDS_KIT = pytest.mark.skipif(shutil.which("rt") is None, reason="the Rattle toolchain (the command rt) is not on the PATH")

SMALL = """//! A stand-in.
#![tactic(auto)]

/// Returns the half, rounded down.
///
/// ```rust
/// // of an odd number
/// assert_eq!(half(5), 2);
/// ```
pub fn half(number: u8) -> u8 {
    number / 2
}

/// Returns a third, rounded down.
///
/// ```rust
/// assert_eq!(third(6), 2);
/// assert_eq!(third(7), 3);
/// ```
pub fn third(number: u8) -> u8 {
    number / 3
}

/// Returns the half of an even number.
///
/// ```rust
/// assert_eq!(even_half(4)?, 2);
/// assert_eq!(even_half(5)?, 2);
/// ```
pub fn even_half(number: u8) -> Option<u8> {
    if number % 2 == 0 { Some(number / 2) } else { None }
}

/// Returns the double of a small number.
///
/// ```rust
/// let number = 5;
/// assert_eq!(twice(number), 10);
/// ```
pub fn double(number: u8) -> u8 {
    if number < 128 { 2 * number } else { 0 }
}
"""


def tool() -> Any:
    """The command as a module."""
    loader = SourceFileLoader("examples", str(TOOL))
    spec = importlib.util.spec_from_loader("examples", loader)
    assert spec is not None
    module = importlib.util.module_from_spec(spec)
    loader.exec_module(module)
    return module


examples = tool()
EVERY = examples.examples()


def without_an_example(crate: str) -> Iterator[str]:
    """The functions of a crate that others can name and that have no example."""
    root = (TOP / "crates" / crate / "src" / "lib.rt").read_text()
    named = set(re.findall(r"\w+", " ".join(re.findall(r"^pub use ([^;]*);", root, re.M))))
    modules = re.findall(r"^pub mod (\w+);", root, re.M)
    for file in sources.code_of(crate):
        shown = {example.item for example in examples.examples_in(file)}
        for function in sources.functions_of(sources.read(file)):
            is_named = file.stem in modules or function.name.split("::")[0] in named
            if function.is_public and is_named and function.name not in shown:
                yield f"{crate}::{file.stem}::{function.name}"


def test_each_public_function_has_an_example() -> None:
    assert sorted(name for crate in examples.CRATES for name in without_an_example(crate)) == WITHOUT


def test_each_block_is_an_example() -> None:
    files = [file for crate in examples.CRATES for file in sources.code_of(crate)]
    assert len(EVERY) == sum(file.read_text().count("/// ```rust\n") for file in files) > 100
    for example in EVERY:
        line = sources.read(example.file)[example.first - 1]
        assert example.lines and line.strip().removeprefix("/// ") == example.lines[0]


def test_each_example_has_an_assertion_or_makes_values_for_others() -> None:
    assert [it.item for it in EVERY if "assert" not in "".join(it.lines)] == ["TaskName", "Task", "Frames"]


def test_each_row_of_given_values_is_used() -> None:
    written = {row for example in EVERY for row in examples.given(example.lines)}
    assert [row for _, _, row in examples.GIVEN if row not in written] == []


@NEEDS_KIT
def test_all_examples_pass() -> None:
    done = subprocess.run([sys.executable, str(TOOL)], capture_output=True, text=True, timeout=SECONDS)
    assert (done.returncode, done.stdout, done.stderr) == (0, f"{len(EVERY)} examples passed, 0 failed\n", "")


def contents(folder: Path) -> Dict[Path, bytes]:
    return {path: path.read_bytes() for path in folder.rglob("*") if path.is_file()}


@NEEDS_KIT
def test_wrong_examples_are_told(tmp_path: Path, monkeypatch: pytest.MonkeyPatch, capsys: pytest.CaptureFixture[str]) -> None:
    """One whose value is another, one that asks None for a value, and one that does not compile, beside one that is right."""
    (tmp_path / "crates" / "small" / "src").mkdir(parents=True)
    (tmp_path / "crates" / "small" / "src" / "lib.rt").write_text(SMALL)
    (tmp_path / "crates.txt").write_text("# each crate\nsmall: arrayvec\n")
    monkeypatch.setattr(sources, "TOP", tmp_path)
    monkeypatch.setattr(examples, "CRATES", ("small",))
    before = contents(tmp_path)
    assert examples.main([]) == 1
    assert contents(tmp_path) == before
    value, none, name, end = capsys.readouterr().out.splitlines()
    assert value == "crates/small/src/lib.rt:18: third: assertion `left == right` failed; left: 2; right: 3"
    assert none.startswith("crates/small/src/lib.rt:27: even_half: ") and "a failed `unwrap`" in none
    assert name.startswith("crates/small/src/lib.rt:38: double: error[unknown-name]: ") and "`twice`" in name
    assert end == "1 examples passed, 3 failed"


def begun(folder: Path, *words: str) -> Any:
    """How the command ends where this folder has the kit's command."""
    environment = {**os.environ, "PATH": str(folder), "PYTHONDONTWRITEBYTECODE": "1"}
    done = subprocess.run([sys.executable, str(TOOL), *words], env=environment, capture_output=True, text=True, timeout=SECONDS)
    return done.returncode, done.stdout, done.stderr


def test_without_a_kit(tmp_path: Path) -> None:
    assert begun(tmp_path) == (69, "", "examples: the Rattle toolchain (the command rt) is not on the PATH\n")


def test_wrong_words(tmp_path: Path) -> None:
    assert begun(tmp_path, "lj_fixed") == (2, "", "examples: unrecognized arguments: lj_fixed\n")


def test_an_error_of_no_example_is_no_answer(tmp_path: Path) -> None:
    (tmp_path / "rt").write_text("#!/bin/sh\necho 'src/shown.rt:2:5: error[unknown-name]: there is none' >&2\nexit 2\n")
    (tmp_path / "rt").chmod(0o755)
    line = "src/shown.rt:2:5: error[unknown-name]: there is none\nexamples: cannot run the examples: the toolchain gave no answer\n"
    assert begun(tmp_path) == (70, "", line)
