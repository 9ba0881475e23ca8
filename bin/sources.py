"""Reads the files of the crates without the kit: functions with their contracts, comments and constants."""

import re
from pathlib import Path
from typing import Iterator, NamedTuple

TOP = Path(__file__).resolve().parent.parent

FUNCTION = re.compile(r"^\s*(pub(?:\(crate\))? )?(?:const |unsafe )*fn (\w+)")
OWNER = re.compile(r"^(?:pub(?:\(crate\))? )?(impl|trait)\b(.*)\{$")
TYPE = re.compile(r"^(?:pub(?:\(crate\))? )?(?:struct|enum|trait) (\w+)")


class Function(NamedTuple):
    """A function, with the type that it belongs to, or a type. Its lines go from `first` to the one before `end`."""

    name: str
    is_public: bool
    first: int
    end: int


def owner_of(head: str) -> str:
    """The type of an impl, or `Trait for Type`, without parameters, bounds and supertraits."""
    shorter = re.sub(r"<[^<>]*>", "", head)
    return owner_of(shorter) if shorter != head else re.split(r" where |(?<!:):(?!:)", shorter)[0].strip()


def end_of_signature(lines: list[str], place: int) -> int:
    """The index of the line after a function's signature and contract."""
    while lines[place].strip() != "{" and not lines[place].rstrip().endswith((" {", ";", "{}")):
        place += 1
    return place + 1


def functions_of(lines: list[str]) -> Iterator[Function]:
    """The functions of a file. Public ones are marked `pub`, or belong to a trait."""
    owner, open_to_all = "", False
    for place, line in enumerate(lines):
        item = OWNER.match(line)
        if item:
            owner, open_to_all = owner_of(item[2]), item[1] == "trait" or " for " in item[2]
        elif line == "}":
            owner, open_to_all = "", False
        head = FUNCTION.match(line)
        if head:
            is_inside = line.startswith(" ")
            is_public = open_to_all and is_inside or head[1] == "pub "
            name = f"{owner}::{head[2]}" if owner and is_inside else head[2]
            yield Function(name, is_public, place, end_of_signature(lines, place))


def types_of(lines: list[str]) -> Iterator[Function]:
    """The types and traits of a file."""
    for place, line in enumerate(lines):
        head = TYPE.match(line)
        if head:
            yield Function(head[1], line.startswith("pub "), place, place + 1)


def doc_above(lines: list[str], place: int) -> list[str]:
    """The lines of the doc comment above an item, without their marks. Attributes between them are skipped."""
    first = place
    while first > 0 and lines[first - 1].strip().startswith(("///", "#[")):
        first -= 1
    return [line.strip()[3:].strip() for line in lines[first:place] if line.strip().startswith("///")]


def paragraphs(lines: list[str]) -> list[str]:
    """The paragraphs of a comment, each as one line."""
    return [" ".join(part.split()) for part in re.split(r"\n\s*\n", "\n".join(lines)) if part.strip()]


def read(path: Path) -> list[str]:
    return path.read_text(encoding="utf-8").split("\n")


def crates() -> list[str]:
    """The names of the crates, the lowest first."""
    return [line.split(":")[0] for line in read(TOP / "crates.txt") if ":" in line and not line.startswith("#")]


def code_of(crate: str) -> list[Path]:
    return sorted((TOP / "crates" / crate / "src").rglob("*.rt"))
