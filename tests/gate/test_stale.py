"""Figures of docs/SPEED.md whose sources have changed since: bin/release stops at them, and bin/test tells them."""
from __future__ import annotations

import os
import pathlib
import shutil
import subprocess
import sys
from importlib.machinery import SourceFileLoader
from types import ModuleType
from typing import Any, List

import pytest

TOP = pathlib.Path(__file__).resolve().parents[2]
STALE = "stale: 1.1.0, commit 01234567, 2026-01-02, before changes of crates/lj_tile/src: order"
# Stand-ins for the commands that a release needs: these do nothing, and the first thing that is built fails.
TOOLS = ("rt", "git", "cc", "tar", "gzip", "python3")


def script(path: pathlib.Path, *lines: str) -> None:
    path.write_text("\n".join(["#!/bin/sh", *lines]) + "\n")
    path.chmod(0o755)


@pytest.fixture
def clone(tmp_path: pathlib.Path) -> pathlib.Path:
    """A folder with the command of a release, over stand-ins, and figures that are stale."""
    for folder in ("bin", "tools"):
        (tmp_path / folder).mkdir()
    shutil.copy2(TOP / "bin" / "release", tmp_path / "bin" / "release")
    script(tmp_path / "bin" / "speeds", f"[ $* = --stale ] && echo '{STALE}'", "exit 1")
    script(tmp_path / "bin" / "ljserve", "exit 1")
    for tool in TOOLS:
        script(tmp_path / "tools" / tool, "exit 0")
    return tmp_path


def released(clone: pathlib.Path, *words: str) -> "subprocess.CompletedProcess[str]":
    environment = {"PATH": f"{clone / 'tools'}:{os.defpath}"}
    return subprocess.run([clone / "bin" / "release", *words], env=environment, capture_output=True, text=True, timeout=60)


def test_a_release_stops_at_stale_figures(clone: pathlib.Path) -> None:
    done = released(clone)
    line = "figures of docs/SPEED.md are stale: measure them again by `bench/speeds NAME..`, or go on by `bin/release --with-stale`"
    assert (done.returncode, done.stdout, done.stderr) == (65, "", f"{STALE}\nrelease: {line}\n")


def test_a_release_goes_on_where_it_is_told_to(clone: pathlib.Path) -> None:
    """It tells them, and begins to build."""
    done = released(clone, "--with-stale")
    assert (done.returncode, done.stdout) == (1, "") and done.stderr == f"{STALE}\n"


def test_a_release_goes_on_where_none_is_stale(clone: pathlib.Path) -> None:
    script(clone / "bin" / "speeds", "exit 0")
    done = released(clone)
    assert (done.returncode, done.stdout, done.stderr) == (1, "", "")


@pytest.mark.parametrize("words", [["--stale"], [""], ["--with-stale", "--with-stale"]])
def test_a_release_takes_no_other_words(clone: pathlib.Path, words: List[str]) -> None:
    done = released(clone, *words)
    assert (done.returncode, done.stderr) == (2, "release: the words are bin/release [--with-stale]\n")


def gate_over(monkeypatch: pytest.MonkeyPatch, clone: pathlib.Path) -> Any:
    """bin/test as a module, all of whose proofs and tests pass."""
    loader = SourceFileLoader("bin_test", str(TOP / "bin" / "test"))
    test: Any = ModuleType(loader.name)
    test.__file__ = loader.path
    monkeypatch.setitem(sys.modules, loader.name, test)
    loader.exec_module(test)
    monkeypatch.chdir(clone)
    monkeypatch.setattr(test, "TOP", clone)
    monkeypatch.setattr(test, "python_for_tests", lambda: "python3")
    monkeypatch.setattr(test, "pass_gate", lambda: test.Gate(3, 2, 0))
    monkeypatch.setattr(test, "pass_tests", lambda python, report: test.Tests(5, 0, ["skipped: one"]))
    monkeypatch.setenv("PATH", f"{clone / 'tools'}:{os.defpath}")
    monkeypatch.delenv("LJSERVE", raising=False)  # which it takes out of the environment itself, and which other tests need
    return test


def test_the_gate_tells_stale_figures_and_passes(
    clone: pathlib.Path, monkeypatch: pytest.MonkeyPatch, capsys: pytest.CaptureFixture[str]
) -> None:
    assert gate_over(monkeypatch, clone).main() == 0
    *_, skipped, stale, last = capsys.readouterr().out.splitlines()
    assert (skipped, stale) == ("skipped: one", STALE)
    assert last == "3 crates proved, 2 edits refused, 0 failed; tests: 5 passed, 0 failed, 1 skipped"
