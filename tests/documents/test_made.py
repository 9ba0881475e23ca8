"""Parts of documents that bin/documents makes: each is what the sources give, and what is written by hand stays short."""
import importlib.util
import re
import subprocess
import sys
from importlib.machinery import SourceFileLoader
from pathlib import Path
from typing import Any, List

import pytest
from blocks import TOP

sys.path.insert(0, str(TOP / "bin"))


def script(name: str) -> Any:
    """A command of bin/ as a module."""
    loader = SourceFileLoader(name, str(TOP / "bin" / name))
    spec = importlib.util.spec_from_loader(name, loader)
    assert spec is not None
    module = importlib.util.module_from_spec(spec)
    loader.exec_module(module)
    return module


documents = script("documents")
MADE = re.compile(r"<!-- made by (\S+): begin (.*?) -->\n.*?<!-- made by \1: end \2 -->\n", re.S)
WITH_PARTS = sorted(path for path in (TOP / "docs").glob("*.md") if documents.PART.search(path.read_text()))
# The most bytes of a document that are written by hand.
MOST_BY_HAND = {
    "docs/PROOFS.md": 8000,
    "docs/ARCHITECTURE.md": 8000,
    "docs/PROTOCOL.md": 23_000,
    "docs/SPEED.md": 2000,
}
MOST_OF_ALL = 150_000
# The most bytes of all that is made.
MOST_MADE = 40_000


def by_hand(path: Path) -> int:
    return len(MADE.sub("", path.read_text()).encode())


def rows(text: str) -> List[List[str]]:
    """The rows of a table without its head, each as its cells."""
    return [line.strip("|").strip().split(" | ") for line in text.splitlines()[2:]]


@pytest.mark.parametrize("path", WITH_PARTS, ids=[path.name for path in WITH_PARTS])
def test_each_part_is_what_the_sources_give(path: Path) -> None:
    text = path.read_text()
    assert documents.made_anew(text) == text, "run bin/documents"


@pytest.mark.parametrize("path", WITH_PARTS, ids=[path.name for path in WITH_PARTS])
def test_each_mark_has_its_other_one(path: Path) -> None:
    assert path.read_text().count("<!-- made by") == 2 * len(MADE.findall(path.read_text()))


def test_a_part_that_is_not_that_is_told(monkeypatch: pytest.MonkeyPatch, tmp_path: Path, capsys: pytest.CaptureFixture[str]) -> None:
    (tmp_path / "docs").mkdir()
    begin, end = (f"<!-- made by bin/documents: {word} contract crates/lj_quota/src/lib.rt may_branch -->\n" for word in ("begin", "end"))
    (tmp_path / "docs" / "A.md").write_text(f"# A\n\n{begin}{end}")
    monkeypatch.setattr(documents, "TOP", tmp_path)
    monkeypatch.setitem(documents.MAKERS, "contract", lambda path, name: f"{path} {name}\n")
    assert documents.main(["--check"]) == 1
    assert capsys.readouterr().out == "docs/A.md: bin/documents makes another text of it\n"
    assert (documents.main([]), documents.main(["--check"])) == (0, 0)
    assert (tmp_path / "docs" / "A.md").read_text() == f"# A\n\n{begin}\ncrates/lj_quota/src/lib.rt may_branch\n\n{end}"


def test_each_promise_has_its_row() -> None:
    lines = [line for path in TOP.glob("crates/*/src/**/*.rt") for line in path.read_text().splitlines() if "/// Promise: " in line]
    found = rows(documents.promises())
    assert len(found) == len(lines) > 60
    assert [promise for crate, name, promise in found if name == "`motion_laws::steps_are_undone`"] == [
        "for every n, the sequence n steps, reversal, n steps, reversal leaves every simulation unchanged"
    ]


def printed(*words: str) -> List[List[str]]:
    """The rows of a part that bin/documents prints."""
    done = subprocess.run([TOP / "bin" / "documents", *words], capture_output=True, text=True, timeout=60, check=True)
    return rows(done.stdout)


def test_files_of_folders_are_printed() -> None:
    assert [name for name, _ in printed("files", "crates/lj_quota")] == ["`crates/lj_quota/src/lib.rt`"]
    all_files = {name.strip("`"): text for name, text in printed("files")}
    assert all_files["bin/documents"] == "Makes the parts of the documents that come from the sources, or prints one"
    assert {"crates/lj_ring/src/lib.rt", "clients/python/ljclient/user.py", "tests/documents/test_made.py"} < set(all_files)


def test_modules_with_types_and_functions_are_printed_by_crate() -> None:
    assert printed("types", "lj_quota", "lj_branch") == [
        ["`lj_quota`", "`lib`: Quota, Used, Over"],
        ["`lj_branch`", "`branch_faults`: SaveFault, NoBranch; `branches`: Branches; `lib`"],
    ]
    assert printed("functions", "lj_branch") == [
        [
            "`lj_branch`",
            "`branch_faults`: SaveFault::fmt, SaveFault::from, NoBranch::fmt; `branches`: Branches::new, Branches::save, "
            "Branches::restore_into, Branches::forget, Branches::count_of, Branches::len, Branches::is_empty, Branches::name_at, "
            "Branches::step_at; `lib`",
        ]
    ]
    for part in ("types", "functions"):
        assert {row[0].strip("`") for row in printed(part)} == set(documents.sources.crates()) - {"lj_tests"}


def test_python_files_are_printed_with_their_names() -> None:
    names = {row[0].strip("`"): row[1] for row in printed("python", "bin")}
    assert names["bin/sources.py"].startswith("Function, owner_of, end_of_signature, functions_of, ")
    assert {"bin/documents", "bin/page"} < set(names) and all(name.startswith("bin/") for name in names)
    assert "Lanes (__init__, run, begin_all, begin, jobs, call)" in names["bin/kit.py"]


WRONG_WORDS = {
    "a crate that is not there": (["types", "lj_other"], "documents: lj_other must be a crate of the repository\n"),
    "a folder that is not there": (["files", "bin", "other"], "documents: other must be a folder of the repository\n"),
    "a part that is not there": (["methods"], "invalid choice: 'methods'"),
    "a check of one part": (["--check", "types"], "not allowed with argument --check"),
}


@pytest.mark.parametrize("words, text", WRONG_WORDS.values(), ids=WRONG_WORDS)
def test_wrong_words_print_no_part(words: List[str], text: str) -> None:
    done = subprocess.run([TOP / "bin" / "documents", *words], capture_output=True, text=True, timeout=60)
    assert (done.returncode, done.stdout) == (2, "")
    assert text in done.stderr


def test_each_file_of_definitions_has_its_row() -> None:
    files = {f"`{path.parts[-3]}/specs/{path.stem}`" for path in TOP.glob("crates/*/specs/*.antt") if path.stem != "Lib"}
    found = rows(documents.definitions())
    assert {name for name, _ in found} == files and len(found) == len(files)
    assert all(text for _, text in found)


def test_each_crate_stands_on_those_below() -> None:
    found = {name.strip("`"): below for name, _, below in rows(documents.crates())}
    assert set(found) == {path.parent.name for path in TOP.glob("crates/*/src")}
    assert (found["lj_fixed"], found["lj_task"]) == ("-", "`lj_base`, `lj_table`")
    assert found["lj_program"] == "`lj_lock`, `lj_queue`, `lj_visit`, `lj_world`"


def test_limits_are_numbers() -> None:
    """Of some of them, by arithmetic: those that are sums, and powers of two and of ten. Each is in one of the two tables."""
    tables = {kind: {name: value for _, value, name in documents.limits_of(kind)} for kind in ("protocol", "inside")}
    assert [len(row) for row in rows(documents.limits("protocol"))] == [2] * len(tables["protocol"])
    assert not set(tables["protocol"]) & set(tables["inside"])
    assert {"`lj_wire::line_limits::MAX_ITEMS`", "`ljserve::option_limits::MAX_WORKERS`"} < set(tables["protocol"])
    assert {"`lj_book::book_entry::MAX_ENTRIES`", "`lj_end::pool::MAX_STRAYS`"} < set(tables["inside"])
    found = {**tables["protocol"], **tables["inside"]}
    constants = [line for path in TOP.glob("crates/*/src/**/*.rt") for line in path.read_text().splitlines()]
    assert len(found) == len([line for line in constants if re.match(r"(pub(\(crate\))? )?const (MAX|MIN)_", line)])
    assert found["`lj_xyz::writer::MAX_LINE_BYTES`"] == str(16 + 3 * (1 + 32))
    assert found["`lj_ring::scales::MAX_STEP_FACTOR`"] == f"{2**24:,}"
    assert found["`lj_ring::scales::MAX_EDGE`"] == f"{10**15:,}"


def test_each_refusal_has_its_row() -> None:
    """The numbers and names are those of the definitions."""
    text = "".join((TOP / "crates" / "lj_session" / "specs" / f"{name}.antt").read_text() for name in ("Refusals", "Faults"))
    numbers = dict(re.findall(r"^(?:refusal|xyz)_number \(?(?:kind\.)?(\w+).* = (\d+)$", text, re.M))
    names = dict(re.findall(r'^(?:refusal|xyz)_name \(?(?:kind\.)?(\w+).* = codes "(\w+)"$', text, re.M))
    assert [(f"{int(number):02}", name) for number, name, _ in rows(documents.refusals())] == sorted(
        (f"{int(numbers[each]):02}", names[each]) for each in names
    )


def test_each_wrong_body_is_listed() -> None:
    done = subprocess.run([TOP / "bin" / "wrong_bodies"], capture_output=True, text=True, timeout=120, check=True)
    for kind, cell in (("must-fail", 1), ("planted", 2), ("seen", 3)):
        told = [
            name for row in done.stdout.splitlines() if row.startswith("| `") for name in row.split(" | ")[cell].strip("| ").split("; ")
        ]
        edits = [path.stem.replace("_", " ") for path in TOP.glob(f"crates/*/{kind}/*.edit")]
        assert sorted(filter(None, told)) == sorted(edits)


@pytest.mark.parametrize("name", MOST_BY_HAND)
def test_what_is_written_by_hand_is_short(name: str) -> None:
    assert by_hand(TOP / name) <= MOST_BY_HAND[name]


def documents_listed() -> List[Path]:
    listed = subprocess.run(["git", "-C", TOP, "ls-files", "*.md"], capture_output=True, text=True, check=True).stdout.split()
    return [TOP / name for name in listed if (TOP / name).is_file()]


def test_all_that_is_written_by_hand() -> None:
    assert sum(map(by_hand, documents_listed())) <= MOST_OF_ALL


def test_all_that_is_made() -> None:
    assert sum(len(path.read_bytes()) - by_hand(path) for path in documents_listed()) <= MOST_MADE
