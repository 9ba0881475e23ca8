"""The manifest of a study: `study.json`, which lists each file of the folder with its SHA-256. Its keys are
sorted, so equal contents have equal texts, and its own SHA-256 identifies the whole study."""
from __future__ import annotations

import hashlib
import json
import os
import re
import stat
from dataclasses import dataclass, field
from typing import Any, Dict, Iterator, List, Optional, Tuple

from .files import Path

FORMAT = "ljserve study 1"
MANIFEST, CITATION = "study.json", "CITATION.cff"
# The folders of a study, and the kind of file in each.
KINDS = {"records": "record", "checkpoints": "checkpoint", "figures": "figure", "files": "file"}
# The states of a study: done; ended by an error; or not ended, since it is being made or its process was killed.
FINISHED, UNFINISHED, OPEN = "finished", "unfinished", "open"
FILE = re.compile(r"(records|checkpoints|figures|files)/[A-Za-z0-9_][A-Za-z0-9_.-]{0,99}\Z")
SUM = re.compile(r"[0-9a-f]{64}\Z")
MOST_BYTES = 1 << 26
PIECE = 1 << 20
OF_FILE = {"kind", "sha256", "bytes"}
OF_CHECKPOINT = {"record", "after"}
KEYS = {"format", "state", "why", "title", "authors", "versions", "parameters", "results", "files"}


class NoStudy(ValueError):
    """Raised if a folder is not a study that can be verified."""


@dataclass
class Manifest:
    """The contents of the manifest of a study.

    state                finished, unfinished or open
    why                  the error that ended the study, if any
    title, authors       as they are cited
    versions             of ljclient, Python, numpy, and each program used
    parameters, results  the kept values, by name
    files                the entry of each file, by its path: kind; sha256 and bytes, both None for a record that is being written;
                         for a checkpoint also its record, and the SHA-256 of the record up to there (`after`)
    """

    state: str = OPEN
    why: str = ""
    title: str = ""
    authors: List[str] = field(default_factory=list)
    versions: Dict[str, Any] = field(default_factory=dict)
    parameters: Dict[str, Any] = field(default_factory=dict)
    results: Dict[str, Any] = field(default_factory=dict)
    files: Dict[str, Dict[str, Any]] = field(default_factory=dict)

    @property
    def text(self) -> bytes:
        return text_of({"format": FORMAT, **vars(self)})

    @property
    def sum(self) -> str:
        return hashlib.sha256(self.text).hexdigest()

    def of_kind(self, kind: str) -> List[str]:
        """The paths of the files of a kind, in order."""
        return [path for path, said in sorted(self.files.items()) if said["kind"] == kind]


def text_of(said: Dict[str, Any]) -> bytes:
    """The only valid text for the contents of a manifest."""
    return (json.dumps(said, sort_keys=True, indent=1, allow_nan=False) + "\n").encode("ascii")


def manifest_in(folder: Path) -> Tuple[Manifest, str]:
    """The manifest of a folder, and its SHA-256. Raises `NoStudy` if it is missing or not valid."""
    place = os.path.join(folder, MANIFEST)
    if not os.path.lexists(place):
        raise NoStudy(f"a study must have {MANIFEST}, got none in {os.fspath(folder)}")
    check_plain(folder, MANIFEST)
    with open(place, "rb") as file:
        text = file.read(MOST_BYTES + 1)
    try:
        said = json.loads(text.decode("ascii"))
        is_written_so = isinstance(said, dict) and text_of(said) == text
    except (ValueError, RecursionError):
        is_written_so = False
    if not is_written_so:
        raise NoStudy(f"{place} must be JSON with sorted keys, each once, indented by one: it is not as it was written")
    if said.pop("format", None) != FORMAT:
        raise NoStudy(f"{place} must have the format `{FORMAT}`, which this client reads, got another; use a newer client")
    _check(said, place)
    return Manifest(**said), hashlib.sha256(text).hexdigest()


def _check(said: Dict[str, Any], place: str) -> None:
    """Raises `NoStudy` unless a manifest has the right keys and types, and names only files of its folder."""
    kinds = {name: type(value) for name, value in vars(Manifest()).items()}
    fits = {name: type(value) for name, value in said.items()} == kinds and said["state"] in (FINISHED, UNFINISHED, OPEN)
    if not fits or not all(isinstance(each, str) for each in said["authors"]):
        raise NoStudy(f"{place} must have values of {', '.join(sorted(KEYS))}, and no others")
    for path, each in said["files"].items():
        why = _fault_of(path, each, said)
        if why:
            raise NoStudy(f"{place} names {path!r}, {why}")


def _fault_of(path: str, each: Any, said: Dict[str, Any]) -> str:
    """The fault in the entry of a file; empty if there is none."""
    found = FILE.match(path)
    if not found:
        return f"which is no file of a study: these are in {', '.join(KINDS)}"
    kind = KINDS[found[1]]
    if not isinstance(each, dict) or set(each) != OF_FILE | (OF_CHECKPOINT if kind == "checkpoint" else set()) or each["kind"] != kind:
        return f"and says of it something else than what is said of a {kind}"
    is_whole = is_sum(each["sha256"]) and type(each["bytes"]) is int and each["bytes"] >= 0
    is_written = kind == "record" and said["state"] == OPEN and each["sha256"] is None and each["bytes"] is None
    if not (is_whole or is_written):
        return "without the SHA-256 and the bytes that it has"
    if kind == "checkpoint" and not (is_sum(each["after"]) and _is_record(each["record"], said)):
        return "which is a checkpoint of no record that it names"
    return ""


def _is_record(path: Any, said: Dict[str, Any]) -> bool:
    """Whether a manifest lists a record of this path."""
    return isinstance(path, str) and path.startswith("records/") and path in said["files"]


def is_sum(word: Any) -> bool:
    """Whether this is a SHA-256 in hexadecimal digits."""
    return isinstance(word, str) and SUM.match(word) is not None


def check_plain(folder: Path, path: str) -> None:
    """Raises `NoStudy` if a file of a folder exists, but is not regular or is reached by a symbolic link in the folder."""
    place = os.fspath(folder)
    for part in path.split("/"):
        place = os.path.join(place, part)
        if not os.path.lexists(place):
            return
        mode = os.lstat(place).st_mode
        if stat.S_ISLNK(mode):
            raise NoStudy(f"{place} must not be a symbolic link (it is not followed)")
    if not stat.S_ISREG(mode):
        raise NoStudy(f"{place} must be a regular file, as each file of a study")


def files_in(folder: Path) -> Iterator[str]:
    """The paths of all files of a folder, in order, except the manifest and the citation. Raises `NoStudy` for a symbolic link or
    another file that is not regular."""
    top = os.fspath(folder)
    for place, folders, names in os.walk(top):
        folders.sort()
        links = [name for name in folders if os.path.islink(os.path.join(place, name))]
        for name in sorted([*names, *links]):
            path = os.path.relpath(os.path.join(place, name), top).replace(os.sep, "/")
            check_plain(folder, path)
            if path not in (MANIFEST, CITATION):
                yield path


def sum_of_file(place: Path) -> Tuple[str, int]:
    """The SHA-256 of a file, and its size in bytes."""
    summed, size = hashlib.sha256(), 0
    with open(place, "rb") as file:
        for piece in iter(lambda: file.read(PIECE), b""):
            summed.update(piece)
            size += len(piece)
    return summed.hexdigest(), size


def listed_file(folder: Path, path: str, more: Optional[Dict[str, Any]] = None) -> Dict[str, Any]:
    """The entry of a complete file in a manifest."""
    summed, size = sum_of_file(os.path.join(folder, path))
    return {"kind": KINDS[path.split("/")[0]], "sha256": summed, "bytes": size, **(more or {})}
