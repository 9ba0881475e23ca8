"""Edits that a test must see: each names a test that is there, and bin/seen tells whether that test fails."""
from __future__ import annotations

import importlib.util
import re
import sys
from importlib.machinery import SourceFileLoader
from pathlib import Path
from typing import Any

import pytest

TOP = Path(__file__).resolve().parents[2]
sys.path.insert(0, str(TOP / "bin"))
SEEN = sorted(TOP.glob("crates/*/seen/*.edit"))
REFUSED = sorted(TOP.glob("crates/*/must-fail/*.edit")) + sorted(TOP.glob("crates/*/planted/*.edit"))
# A stand-in for the kit's command, which says of the tests of a crate what stands here, and one for a file of tests.
RT = "#!/bin/sh\necho 'test {test} ... {word}'\n"
TESTS = """import pytest


@pytest.fixture
def broken() -> None:
    raise ValueError


def test_that_passes() -> None:
    assert True


def test_that_fails() -> None:
    assert False


def test_that_cannot_begin(broken: None) -> None:
    assert False
"""


def tool() -> Any:
    """The command as a module."""
    loader = SourceFileLoader("seen", str(TOP / "bin" / "seen"))
    spec = importlib.util.spec_from_loader("seen", loader)
    assert spec is not None
    module = importlib.util.module_from_spec(spec)
    loader.exec_module(module)
    return module


seen = tool()


def is_there(test: str) -> bool:
    """Whether there is a test of this name: in crates/lj_tests, or in a file of pytest."""
    crate, _, path = test.rpartition(" ")
    file, _, name = path.rpartition("::")
    if crate:
        source = TOP / "crates" / crate / "src" / f"{file.replace('::', '/')}.rt"
        return source.is_file() and f"#[test]\nfn {name}(" in source.read_text()
    return (TOP / file).is_file() and re.search(rf"^def {name}\(", (TOP / file).read_text(), re.M) is not None


@pytest.mark.parametrize("edit", SEEN, ids=lambda edit: str(edit.stem))
def test_the_test_that_an_edit_names_is_there(edit: Path) -> None:
    crate, _, path = seen.seen_by(edit).rpartition(" ")
    assert crate in ("", "lj_tests") and path.count("::") >= 1 and is_there(seen.seen_by(edit))


@pytest.mark.parametrize("edit", SEEN, ids=lambda edit: str(edit.stem))
def test_what_is_edited_stands_once(edit: Path) -> None:
    lines = [line.partition(": ") for line in edit.read_text().splitlines()]
    assert [word for word, _, _ in lines] == ["seen", "file", "old", "new"]
    _, file, old, new = (text for _, _, text in lines)
    assert (edit.parent.parent / file).read_text().count(old) == 1 and new != old


def test_what_the_prover_refuses_names_no_test() -> None:
    assert [edit.name for edit in REFUSED if re.search("^seen:", edit.read_text(), re.M)] == []


@pytest.mark.parametrize("test", ["lj_tests books::no_book", "lj_tests no_module::a_full_book", "tests/gate/test_seen.py::test_none"])
def test_a_test_that_is_not_there_is_told(test: str) -> None:
    assert not is_there(test)


@pytest.mark.parametrize("word, fails", [("ok", False), ("FAILED", True)])
def test_a_test_of_the_crate_fails_by_its_own_line(tmp_path: Path, monkeypatch: pytest.MonkeyPatch, word: str, fails: bool) -> None:
    put_rt(tmp_path, monkeypatch, RT.format(test="a::b", word=word))
    assert seen.fails_in_crate(tmp_path, "a::b") is fails


def test_a_test_of_the_crate_that_does_not_run_is_not_tried(tmp_path: Path, monkeypatch: pytest.MonkeyPatch) -> None:
    put_rt(tmp_path, monkeypatch, RT.format(test="a::bc", word="FAILED"))
    with pytest.raises(seen.NotTried):
        seen.fails_in_crate(tmp_path, "a::b")


def put_rt(folder: Path, monkeypatch: pytest.MonkeyPatch, text: str) -> None:
    """Has a script stand in for the kit's command, and a folder for the crate of tests."""
    (folder / "crates" / "lj_tests").mkdir(parents=True)
    (folder / "rt").write_text(text)
    (folder / "rt").chmod(0o755)
    monkeypatch.setenv("PATH", str(folder), prepend=":")


@pytest.mark.parametrize("name, fails", [("test_that_passes", False), ("test_that_fails", True)])
def test_a_test_of_pytest_fails_by_itself(tmp_path: Path, monkeypatch: pytest.MonkeyPatch, name: str, fails: bool) -> None:
    assert run(tmp_path, monkeypatch, name) is fails


@pytest.mark.parametrize("name", ["test_that_cannot_begin", "test_none"])
def test_a_test_of_pytest_that_does_not_run_is_not_tried(tmp_path: Path, monkeypatch: pytest.MonkeyPatch, name: str) -> None:
    with pytest.raises(seen.NotTried):
        run(tmp_path, monkeypatch, name)


def run(folder: Path, monkeypatch: pytest.MonkeyPatch, name: str) -> object:
    """Whether a test of the stand-in is told to fail."""
    (folder / "test_stand_in.py").write_text(TESTS)
    monkeypatch.setattr(seen, "program_of", lambda copy, folder: folder / "ljserve")
    return seen.fails_in_pytest(folder, folder, f"test_stand_in.py::{name}")
