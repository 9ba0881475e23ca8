"""Tries the must-fail edits of a crate faster: checks only the functions that they name, and several edits at a time.

The kit checks a whole crate for each edit. Lines `only: PATH` of an edit name the functions whose clauses refuse it. Edits that change
only the bodies of different functions are tried in one check: a proof reads the contracts of other functions and never their bodies,
so each edit is refused by its own function alone. An edit that is not refused there is tried by itself. If the check of the functions
that it names does not refuse it either, the kit tries it from nothing.
"""

import re
import shutil
import subprocess
import tempfile
import threading
from pathlib import Path
from typing import Any, Dict, Iterable, List, Sequence, Set, Tuple

from sources import functions_of

FEW = 4  # if only so many edits are left, each is tried from nothing, since shared work would cost two more checks
PARTS = ("src", "specs", "proofs")  # the folders of a crate that a check reads
FOLLOWS = re.compile(r"was not admitted|which (was|were) rejected")  # in errors that follow from another refusal


def named(edit: str) -> Set[str]:
    """The functions that an edit names."""
    return set(re.findall(r"^only: (\S+)$", Path(edit).read_text(encoding="utf-8"), re.M))


def only(edits: Iterable[str]) -> List[str]:
    """The options that limit a check to the functions that some edits name; empty if an edit names no function."""
    each = [named(edit) for edit in edits]
    paths: Set[str] = set().union(*each) if all(each) else set()
    return [word for path in sorted(paths) for word in ("--only", path)]


def judged(ran: Any) -> Any:
    """An ended check. If it was limited to some functions and one is not proved, the kit's line for that is added."""
    counts = re.search(r"^only=(\d+) proved=(\d+)\n*\Z", ran.stdout, re.M)
    if ran.returncode == 1 and counts and int(counts[2]) < int(counts[1]):
        ran.stdout += "logic=not-proved\n"
    return ran


def outside_bodies(text: str) -> List[str]:
    """The lines of a source file outside the bodies of functions: the part that other functions can see."""
    lines = text.split("\n")
    inside: Set[int] = set()
    for function in functions_of(lines):
        head = lines[function.first]
        closing = head[: len(head) - len(head.lstrip())] + "}"
        if lines[function.end - 1].rstrip().endswith("{") and closing in lines[function.end :]:
            inside.update(range(function.end, lines.index(closing, function.end)))
    return [line for place, line in enumerate(lines) if place not in inside]


def said_of(ran: Any, crate: str, paths: Iterable[str]) -> List[str]:
    """The lines in which a check refuses these functions themselves: errors in their own proofs, or goals that it did not prove."""
    files = tuple(f"./proofs/{path.replace('::', '/')}/" for path in paths)
    goals = tuple(f"fn {crate}::{path}: no proof: expected answers in " for path in paths)
    lines = [line for line in ran.stdout.split("\n") if line.startswith(files) and ": error: " in line or line.startswith(goals)]
    return [line for line in lines if not FOLLOWS.search(line)]


def gathered(rt: Any, edits: Iterable[str], room: str) -> Tuple[Dict[str, str], List[str]]:
    """In a copy of a crate, makes those edits that change the bodies of different functions. Returns the changed files and these edits."""
    changed: Dict[str, str] = {}
    group: List[str] = []
    paths: Set[str] = set()
    for edit in edits:
        texts, why = rt.read_edit(edit, room)
        if why or not named(edit) or paths & named(edit):
            continue
        if any(outside_bodies(Path(room, file).read_text(encoding="utf-8")) != outside_bodies(text) for file, text in texts.items()):
            continue
        for file, text in texts.items():
            Path(room, file).write_text(text, encoding="utf-8")
        paths |= named(edit)
        changed.update(texts)
        group.append(edit)
    return changed, group


def tried_at_once(rt: Any, crate: Any, edits: Sequence[str], flags: List[str]) -> Dict[str, Any]:
    """For each edit that one check of several edits refuses, the result that a check of this edit alone would have."""
    with tempfile.TemporaryDirectory(prefix="edits-") as room:
        for part in PARTS:
            if Path(crate.folder, part).is_dir():
                shutil.copytree(Path(crate.folder, part), Path(room, part))
        changed, group = gathered(rt, edits, room)
    if len(group) < 2:
        return {}
    ran = rt.checked(crate, changed, [*flags, *only(group)], None)
    refused = {edit: said_of(ran, crate.name, named(edit)) for edit in group} if ran.returncode == 1 else {}
    return {
        edit: subprocess.CompletedProcess([], 1, "\n".join([*lines, "logic=not-proved", ""])) for edit, lines in refused.items() if lines
    }


def use_edits(rt: Any) -> None:
    """Makes the kit's module try edits in this way."""
    checked, must_fail, seeded = rt.checked, rt.must_fail, getattr(rt, "seeded", None)  # older kits share work without `seeded`
    refused: Dict[Tuple[str, str], Any] = {}
    here = threading.local()

    def checked_by_names(crate: Any, texts: Any, flags: List[str], kept: Any) -> Any:
        if getattr(here, "told", None) is not None:
            return here.told
        return judged(checked(crate, texts, flags if texts else [*flags, *only(rt.edits_of(crate)[0])], kept))

    def must_fail_by_names(crate: Any, edit: str, flags: List[str], kept: Any = None) -> Any:
        here.told = refused.pop((crate.name, edit), None)
        try:
            return must_fail(crate, edit, [*flags, *(only([edit]) if only(rt.edits_of(crate)[0]) else [])], kept)
        finally:
            here.told = None

    def seeded_for_many(crate: Any, flags: List[str], start: Any = None) -> Any:
        edits = rt.edits_of(crate)[0]
        if hasattr(rt, "read_edit"):
            refused.update({(crate.name, edit): ran for edit, ran in tried_at_once(rt, crate, edits, flags).items()})
        left = [edit for edit in edits if (crate.name, edit) not in refused]
        return "" if not seeded or len(left) <= FEW and not start else seeded(crate, flags, start)

    rt.checked, rt.must_fail, rt.seeded = checked_by_names, must_fail_by_names, seeded_for_many
