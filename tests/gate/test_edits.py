"""Must-fail edits that are tried in one check: which are, and that each is refused for itself alone."""
from __future__ import annotations

import shutil
import subprocess
import sys
from pathlib import Path
from typing import Any, Dict, List

import pytest

TOP = Path(__file__).resolve().parents[2]
sys.path.insert(0, str(TOP / "bin"))
import edits  # noqa: E402
import kit  # noqa: E402

LIB = """//! A stand-in.
#![tactic(auto)]
ghost use Rattle.std.specs.Prelude.{◌≡◌, ◌+◌, ◌<◌};

/// Returns the number after this one.
pub fn after(number: u8) -> u8
    requires { number < 255 }
    ensures { result ≡ number + 1 }
{
    number + 1
}

/// Returns the number itself.
pub fn same(number: u8) -> u8
    ensures { result ≡ number }
{
    number
}

/// Returns the second number after this one.
pub fn second_after(number: u8) -> u8
    requires { number < 254 }
    ensures { result ≡ number + 2 }
{
    after(after(number))
}
"""
# Each edit of it: the function named, and the line before and after.
EDITS = {
    "after_is_the_same": ("after", "    number + 1", "    number"),
    "after_is_zero": ("after", "    number + 1", "    0"),
    "second_after_by_two": ("second_after", "after(after(number))", "after(number) + 1"),
    "second_after_is_after": ("second_after", "after(after(number))", "after(number)"),
    "contract_of_the_second": ("second_after", "number < 254", "number < 253"),
}


class Reader:
    """The kit's reader of edits, and a check that says what it is to say."""

    def __init__(self, said: str = "", status: int = 1) -> None:
        self.said, self.status, self.asked = said, status, list[List[str]]()

    @staticmethod
    def read_edit(edit: str, folder: str) -> Any:
        lines = dict(line.split(": ", 1) for line in Path(edit).read_text().splitlines())
        text = Path(folder, lines["file"]).read_text()
        return (
            ({lines["file"]: text.replace(lines["old"], lines["new"])}, "")
            if text.count(lines["old"]) == 1
            else (None, "it is not there once")
        )

    def checked(self, crate: Any, texts: Dict[str, str], flags: List[str], kept: Any) -> Any:
        self.asked.append(flags)
        return subprocess.CompletedProcess([], self.status, self.said)


class Small:
    """A crate in a folder."""

    name = "small"

    def __init__(self, folder: Path) -> None:
        self.folder = str(folder)
        (folder / "src").mkdir(parents=True)
        (folder / "src" / "lib.rt").write_text(LIB)

    def edit(self, name: str) -> str:
        path, old, new = EDITS[name]
        file = Path(self.folder, f"{name}.edit")
        file.write_text(f"file: src/lib.rt\nold: {old}\nnew: {new}\nonly: {path}\n")
        return str(file)


@pytest.fixture
def small(tmp_path: Path) -> Small:
    return Small(tmp_path / "crates" / "small")


def test_what_others_see_of_a_file_is_all_but_the_bodies() -> None:
    seen = edits.outside_bodies(LIB)
    assert seen == edits.outside_bodies(LIB.replace("    number + 1", "    number")) and "    number + 1" not in seen
    for old, new in [("number < 254", "number < 253"), ("use Rattle", "use  Rattle"), ("-> u8", "-> u16")]:
        assert seen != edits.outside_bodies(LIB.replace(old, new))


def test_edits_of_bodies_of_different_functions_are_tried_at_once(small: Small) -> None:
    names = ["after_is_the_same", "after_is_zero", "contract_of_the_second", "second_after_is_after"]
    group = [small.edit(name) for name in names]
    reader = Reader(
        "./proofs/after/Answers.antt:1:1: error: `returns`: no\nfn small::second_after: no proof: expected answers in ./proofs\n"
    )
    told = edits.tried_at_once(reader, small, group, ["--jobs", "1"])
    assert reader.asked == [["--jobs", "1", "--only", "after", "--only", "second_after"]]
    assert {edit: ran.stdout.splitlines()[-1] for edit, ran in told.items()} == {group[0]: "logic=not-proved", group[3]: "logic=not-proved"}
    assert Path(small.folder, "src", "lib.rt").read_text() == LIB


@pytest.mark.parametrize(
    "line",
    [
        "fn small::second_after: no proof: it calls `small::after`, which is not proved",
        "./proofs/second_after/Answers.antt:1:1: error: `Met` of `small::after` was not admitted",
        "./proofs/second_after/Answers.antt:1:1: error: 1 declaration that depends on `it`, which was rejected, was not checked: a",
        "./proofs/second_after_all/Answers.antt:1:1: error: `returns`: no",
        "fn small::second_after: proved",
    ],
)
def test_what_follows_from_another_edit_refuses_none(small: Small, line: str) -> None:
    group = [small.edit(name) for name in ["after_is_the_same", "second_after_is_after"]]
    assert edits.tried_at_once(Reader(line + "\n"), small, group, []) == {}


@pytest.mark.parametrize("status", [0, 2, 3, -9])
def test_a_check_without_a_verdict_refuses_none(small: Small, status: int) -> None:
    group = [small.edit(name) for name in ["after_is_the_same", "second_after_is_after"]]
    said = "./proofs/after/Answers.antt:1:1: error: `returns`: no\n"
    assert edits.tried_at_once(Reader(said, status), small, group, []) == {}


def test_one_edit_is_not_tried_at_once(small: Small) -> None:
    reader = Reader()
    assert (
        edits.tried_at_once(reader, small, [small.edit("after_is_the_same"), small.edit("after_is_zero")], []) == {} and reader.asked == []
    )


@pytest.mark.skipif(shutil.which("rt") is None, reason="the Rattle toolchain (the command rt) is not on the PATH")
def test_an_edit_that_means_the_same_is_told_beside_one_that_is_refused(tmp_path: Path) -> None:
    """By the kit's own check: the second is proved with its edit, though it calls a function that is not."""
    small = Small(tmp_path / "crates" / "small")
    (tmp_path / "crates.txt").write_text("small:\n")
    rt = kit.load("test_edits")
    rt.rtlib.guarded()
    crate = rt.Crate(small.folder, str(tmp_path), {})
    wrong, equal = small.edit("after_is_the_same"), small.edit("second_after_by_two")
    assert list(edits.tried_at_once(rt, crate, [wrong, equal], ["--jobs", "1"])) == [wrong]
