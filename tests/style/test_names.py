"""The names of the crates: each type, module, file of definitions and definition has one of its own, and none is a word given up."""
from __future__ import annotations

import re
import textwrap
from collections import defaultdict
from pathlib import Path
from typing import Callable, Dict, Iterator, List, Tuple

import pytest

TOP = Path(__file__).resolve().parents[2]

# Words that stood for something in the crates once, and what is said now.
GIVEN_UP = {
    "bell": "wait queue",
    "deed": "worker event",
    "desk": "pool state",
    "door": "admission queue",
    "hall": "mailboxes",
    "hub": "worker pool",
    "outlet": "counted writer",
    "scene": "scenario",
    "seat": "connection permit",
    "stage": "test pool",
    "strength": "step factor",
    "substance": "interactions",
    "untold": "unsignalled posts",
}
# Files that each crate may have, which name no module.
ROOTS = ("lib", "main")
# Files of definitions that each crate may have, with names for itself: the list of its files, the values of its constants, worked
# examples, and the texts of its faults.
OF_EACH_CRATE = ("Lib", "Limits", "Worked", "FaultTexts")

REMARK = re.compile(r'//[^\n]*|b?"(?:\\.|[^"\\])*"')
DEFINITION_REMARK = re.compile(r"(?m)(?:(?<=\s)|^)--[^\n]*")
IDENTIFIER = re.compile(r"[A-Za-z_][\w']*(?:-\w+)*")
PART = re.compile(r"[A-Z]+(?![a-z])|[A-Z]?[a-z]+")
HEAD = r"(?:pub(?:\([^)]*\))? )?(?:unsafe )?"
# A type of its own, an alias, or a type that a trait asks for: one that an `impl` gives is no name of its own.
TYPES = [
    re.compile(rf"(?m)^ *{HEAD}(?:struct|enum|trait|union) (\w+)"),
    re.compile(rf"(?m)^{HEAD}type (\w+)(?:<[^=]*>)? ="),
    re.compile(r"(?m)^ +type (\w+) ?[:;]"),
]
# A declaration begins at the left edge, or at that of the `module` around it.
DECLARATION = re.compile(r"\n(?=[^\s)}])")
MODIFIERS = {"pub", "abbrev", "unfoldable", "record", "data"}
# An operator stands between its arguments, whose types tell whose it is.
OPERATOR = "◌"

Named = Iterator[Tuple[str, str]]


def blank(found: re.Match[str]) -> str:
    """As many lines without a word."""
    return "\n" * found[0].count("\n")


def code_of(path: Path) -> str:
    """The text of a file without its comments, and without texts that it writes."""
    remark = DEFINITION_REMARK if path.suffix == ".antt" else REMARK
    return remark.sub(blank, path.read_text())


def code_files(top: Path) -> List[Path]:
    return sorted(top.glob("crates/*/src/**/*.rt"))


def definition_files(top: Path) -> List[Path]:
    return sorted(top.glob("crates/*/specs/**/*.antt"))


def type_names(top: Path) -> Named:
    """Each type of the code, with its place."""
    for path in code_files(top):
        code = code_of(path)
        for found in (one for pattern in TYPES for one in pattern.finditer(code)):
            yield found[1], f"{path.relative_to(top)}:{code.count(chr(10), 0, found.start(1)) + 1}"


def declared(code: str, line: int = 1) -> Iterator[Tuple[str, int]]:
    """Each name that a file of definitions gives a type, with its line."""
    for part in DECLARATION.split(code):
        head, _, body = part.partition("\n")
        if head.startswith("module "):
            yield from declared(textwrap.dedent(body), line + 1)
        words = [word for word in re.split(r"\s=\s", part)[0].split() if word not in MODIFIERS]
        if ":" in words[1:] and words[0] not in ("module", "use") and OPERATOR not in words[0]:
            yield words[0], line
        line += part.count("\n") + 1


def own_definition_files(top: Path) -> List[Path]:
    """The files of definitions with names that are held against those of other crates."""
    return [path for path in definition_files(top) if path.stem not in OF_EACH_CRATE]


def definition_names(top: Path) -> Named:
    """Each definition, with its place."""
    for path in own_definition_files(top):
        for name, line in declared(code_of(path)):
            yield name, f"{path.relative_to(top)}:{line}"


def definition_file_names(top: Path) -> Named:
    """Each file of definitions."""
    for path in own_definition_files(top):
        yield path.stem, str(path.relative_to(top))


def module_names(top: Path) -> Named:
    """Each module of the code, with its file."""
    for path in code_files(top):
        if path.stem not in ROOTS:
            yield path.stem, str(path.relative_to(top))


def twice(kind: str, names: Named) -> List[str]:
    """What is said of names that stand more than once, with all their places."""
    places: Dict[str, List[str]] = defaultdict(list)
    for name, place in names:
        places[name].append(place)
    return [f"{name} is the name of {len(found)} {kind}: {', '.join(found)}" for name, found in sorted(places.items()) if len(found) > 1]


def words_of(identifier: str) -> Iterator[str]:
    """The words that an identifier is made of, in lowercase and without the `s` of a plural."""
    for part in PART.findall(identifier):
        yield part.lower()
        yield part.lower().removesuffix("s")


def given_up(top: Path) -> List[str]:
    """What is said of identifiers and of names of files that have a word which was given up."""
    said = []
    for path in code_files(top) + definition_files(top):
        for number, line in enumerate([path.stem, *code_of(path).split("\n")]):
            for identifier in IDENTIFIER.findall(line):
                for word in sorted(set(words_of(identifier)) & set(GIVEN_UP)):
                    place = f"{path.relative_to(top)}:{number}" if number else f"the name of {path.relative_to(top)}"
                    said.append(f"{identifier} ({place}) has the word {word}: say {GIVEN_UP[word]}")
    return said


def types_twice(top: Path) -> List[str]:
    return twice("types", type_names(top))


def modules_twice(top: Path) -> List[str]:
    return twice("modules", module_names(top))


def definitions_twice(top: Path) -> List[str]:
    return twice("definitions", definition_names(top))


def definition_files_twice(top: Path) -> List[str]:
    return twice("files of definitions", definition_file_names(top))


CHECKS = [types_twice, modules_twice, definitions_twice, definition_files_twice, given_up]


@pytest.mark.parametrize("check", CHECKS)
def test_the_crates_have_no_such_names(check: Callable[[Path], List[str]]) -> None:
    assert code_files(TOP) and definition_files(TOP)
    assert check(TOP) == []


FINE = {
    "crates/one/src/lib.rt": "//! One.\nmod walls;\n",
    "crates/one/src/walls.rt": (
        "/// A struct Wall of bricks.\npub struct Wall {\n    /// How high.\n    outdoor: u8,\n}\n\n"
        "pub trait Maker {\n    type Made: Copy;\n}\n\nimpl Maker for Wall {\n    type Made = Wall;\n}\n"
    ),
    "crates/one/specs/Walls.antt": (
        "-- a wall has no door -- and no bell\nuse Rattle.std.specs.Prelude.{ℕ}\n\nabbrev pub height : Wall → ℕ\nheight w = w.outdoor\n\n"
        "-- bricks\npub record IsBuilt (w : Wall)\n    (bricks : ℕ) : Type 0 where\n  pub most : height w ≤ bricks\n\n"
        "module _ {A : Type 0} where\n  -- any\n  pub record Any (a : A) : Type 0 where\n    pub height : ℕ\n\n"
        "abbrev pub ◌>>=◌ : ℕ → ℕ → ℕ\na >>= b = b\n"
    ),
    "crates/one/specs/Limits.antt": "-- a limit\nmost : ℕ\nmost = 8\n",
    "crates/two/src/main.rt": 'fn main() {\n    print("a struct Wall with a door");\n}\n',
    "crates/two/src/roofs.rt": "struct Roof;\n\nimpl Maker for Roof {\n    type Made = Roof;\n}\n",
    "crates/two/specs/Limits.antt": "-- a limit\nmost : ℕ\nmost = 9\n",
    "crates/two/specs/Roofs.antt": (
        "abbrev pub ◌>>=◌ : Roof → Roof → Roof\na >>= b = a\n\nwide : ℕ → ℕ\nwide height =\n    let most : ℕ = 1 in\n    most\n"
    ),
}


def tree(top: Path, files: Dict[str, str]) -> Path:
    for name, text in files.items():
        (top / name).parent.mkdir(parents=True, exist_ok=True)
        (top / name).write_text(text)
    return top


def said_of(top: Path, changes: Dict[str, str]) -> List[str]:
    """What is said of the names of a small tree with some files more, or in place of its own."""
    made = tree(top, {**FINE, **changes})
    return [line for check in CHECKS for line in check(made)]


def test_names_of_their_own_are_fine(tmp_path: Path) -> None:
    assert said_of(tmp_path, {}) == []


@pytest.mark.parametrize("text", ["enum Wall {\n}\n", "pub(crate) struct Wall<T>(T);\n", "type Wall = [u8; 4];\n", "trait Wall {}\n"])
def test_a_type_is_found_that_stands_twice(tmp_path: Path, text: str) -> None:
    said = said_of(tmp_path, {"crates/two/src/roofs.rt": f"\n{text}"})
    assert said == ["Wall is the name of 2 types: crates/one/src/walls.rt:2, crates/two/src/roofs.rt:2"]


def test_a_type_of_a_trait_is_found_that_stands_twice(tmp_path: Path) -> None:
    said = said_of(tmp_path, {"crates/two/src/roofs.rt": "trait Copier {\n    type Made;\n}\n"})
    assert said == ["Made is the name of 2 types: crates/one/src/walls.rt:8, crates/two/src/roofs.rt:2"]


@pytest.mark.parametrize("path", ["crates/two/src/walls.rt", "crates/one/src/walls/walls.rt"])
def test_a_module_is_found_that_stands_twice(tmp_path: Path, path: str) -> None:
    (said,) = said_of(tmp_path, {path: "fn up() {}\n"})
    assert said.startswith("walls is the name of 2 modules: ")
    assert {"crates/one/src/walls.rt", path} == set(said.partition(": ")[2].split(", "))


@pytest.mark.parametrize(
    ("name", "line", "text"),
    [
        ("height", 4, "abbrev pub height : ℕ\nheight = 3\n"),
        ("height", 4, "unfoldable pub height :\n    ℕ → ℕ\nheight n = n\n"),
        ("height", 4, "height : ℕ\nheight = 3\n"),
        ("IsBuilt", 8, "pub data IsBuilt : Type 0 where\n  Whole : ℕ → IsBuilt\n"),
        ("IsBuilt", 8, "abbrev pub IsBuilt : (n : ℕ) → Type 0\nIsBuilt n = n ≡ 0\n"),
        ("Any", 14, "pub record Any : Type 0 where\n  pub any : ℕ\n"),
        ("Any", 14, "module _ (n : ℕ) where\n  abbrev pub Any : ℕ\n  Any = n\n"),
    ],
)
def test_a_definition_is_found_that_stands_twice(tmp_path: Path, name: str, line: int, text: str) -> None:
    (said,) = said_of(tmp_path, {"crates/two/specs/Roofs.antt": f"-- so\n{text}"})
    at = 3 if text.startswith("module") else 2
    assert said == f"{name} is the name of 2 definitions: crates/one/specs/Walls.antt:{line}, crates/two/specs/Roofs.antt:{at}"


def test_a_file_of_definitions_is_found_that_stands_twice(tmp_path: Path) -> None:
    (said,) = said_of(tmp_path, {"crates/two/specs/Walls.antt": "-- so\nwide : ℕ\nwide = 1\n", "crates/two/specs/Roofs.antt": ""})
    assert said == "Walls is the name of 2 files of definitions: crates/one/specs/Walls.antt, crates/two/specs/Walls.antt"


@pytest.mark.parametrize("file", ["Lib", "Limits", "Worked", "FaultTexts"])
def test_a_crate_may_name_its_own_limits_and_examples_as_others_do(tmp_path: Path, file: str) -> None:
    assert said_of(tmp_path, {f"crates/{crate}/specs/{file}.antt": "abbrev pub height : ℕ\nheight = 3\n" for crate in ("one", "two")}) == []


@pytest.mark.parametrize("name", ["door", "doors", "DoorOf", "is_door", "door-left", "HALF_DOOR"])
def test_a_word_is_found_that_was_given_up(tmp_path: Path, name: str) -> None:
    code, definition = f"fn up() {{\n    let x = {name};\n}}\n", f"-- so\nabbrev pub up : ℕ\nup = {name}\n"
    said = said_of(tmp_path, {"crates/two/src/roofs.rt": code, "crates/one/specs/Walls.antt": definition})
    assert len(said) == 2 and all(line.endswith(" has the word door: say admission queue") for line in said)
    assert "crates/two/src/roofs.rt:2" in said[0] and "crates/one/specs/Walls.antt:3" in said[1]


def test_a_file_is_found_whose_name_was_given_up(tmp_path: Path) -> None:
    said = said_of(tmp_path, {"crates/two/src/old_desk.rt": "fn up() {}\n"})
    assert said == ["old_desk (the name of crates/two/src/old_desk.rt) has the word desk: say pool state"]
