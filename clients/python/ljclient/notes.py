"""The notes of an ensemble on a job, in a JSON file: they are read back as they were written, and reading runs no code.

Numbers, strings, lists and the like are kept as they are. A value that JSON lacks is an object with one name, which says its kind:
`{"tuple": [0, 589]}`, `{"array": ["<f8", [2, 3], [..]]}`.
"""
from __future__ import annotations

import json
import math
import re
import sys
from typing import Any, Callable, Dict, List, NamedTuple

from . import arrays
from .errors import Missing

HEAD = "ljserve notes"
VERSION = 1
# The first byte of a pickle.
PICKLE = b"\x80"
MAX_SESSIONS = 64
# Kinds of numbers and strings that are kept in numpy arrays: those whose values are also values of Python.
OF_NUMPY = re.compile(r"[<>|=]?(?:b1|[iu][1248]|f[248]|c8|c16|U[0-9]{1,6})\Z")
KINDS = "None, numbers, strings, and lists, tuples, dicts and numpy arrays of them"


class Noted(NamedTuple):
    """The steps that a job has made, the number of its sessions, whose files are beside this one, and its notes."""

    done: int
    sessions: int
    notes: List[Any]


def text_of(noted: Noted) -> bytes:
    """The bytes of a file. Raises TypeError for a note of a kind that is not supported."""
    head = {HEAD: VERSION, "done": noted.done, "sessions": noted.sessions}
    return json.dumps({**head, "notes": [to_json(note) for note in noted.notes]}, allow_nan=False).encode() + b"\n"


def read(data: bytes) -> Noted:
    """The content of a file. Raises ValueError if it is malformed."""
    try:
        told = json.loads(data)
        done, sessions, notes = (told[name] for name in ("done", "sessions", "notes"))
        is_known = told[HEAD] == VERSION and type(done) is int and type(sessions) is int and type(notes) is list
        if not (is_known and done >= 0 and 0 <= sessions <= MAX_SESSIONS):
            raise ValueError("the file must have notes of a job, got something else")
        return Noted(done, sessions, [of_json(note) for note in notes])
    except (IndexError, KeyError, OverflowError, RecursionError, TypeError) as error:
        raise ValueError(f"the file must have notes of a job, got something else ({error!r})") from error


def to_json(thing: Any) -> Any:
    """A value in JSON form. Raises TypeError for a kind that is not supported."""
    if thing is None or type(thing) in (bool, int, str) or (type(thing) is float and math.isfinite(thing)):
        return thing
    if type(thing) is list:
        return [to_json(part) for part in thing]
    numpy = sys.modules.get("numpy")
    if numpy is not None and isinstance(thing, (numpy.ndarray, numpy.generic)) and OF_NUMPY.match(thing.dtype.str):
        if isinstance(thing, numpy.generic):
            return {"scalar": [thing.dtype.str, to_json(thing.item())]}
        values = thing.ravel().tolist()
        is_plain = thing.dtype.kind in "biuU" or (thing.dtype.kind == "f" and numpy.isfinite(thing).all())
        return {"array": [thing.dtype.str, list(thing.shape), values if is_plain else to_json(values)]}
    if type(thing) not in TAGS:
        raise TypeError(f"`look` must return {KINDS}, got {type(thing).__name__}")
    name, parts_of = TAGS[type(thing)]
    return {name: parts_of(thing)}


def of_json(value: Any) -> Any:
    """The value of this JSON form. Raises ValueError, KeyError or TypeError for other values."""
    if isinstance(value, list):
        return [of_json(part) for part in value]
    if not isinstance(value, dict):
        return value
    ((name, parts),) = value.items()
    return MADE[name](parts)


def _of_numpy(kind: Any, shape: Any, values: Any) -> Any:
    """A numpy array of this kind and shape."""
    if arrays.numpy is None:
        raise Missing(
            "cannot read these notes: they have arrays, and numpy is not installed; use `pip install numpy`, or Debian's python3-numpy"
        )
    if not OF_NUMPY.match(kind):
        raise ValueError(f"the kind of an array must be one of numbers, got {kind!r}")
    return arrays.numpy.array(of_json(values), dtype=kind).reshape(shape)


# For each type with values that JSON lacks: the name of its kind, and the function that returns its parts.
TAGS: Dict[type, Any] = {
    float: ("float", repr),
    complex: ("complex", lambda number: [to_json(number.real), to_json(number.imag)]),
    tuple: ("tuple", lambda parts: [to_json(part) for part in parts]),
    dict: ("dict", lambda pairs: [[to_json(key), to_json(value)] for key, value in pairs.items()]),
}
# For each kind, the function that makes a value from its parts.
MADE: Dict[str, Callable[[Any], Any]] = {
    "float": float,
    "complex": lambda parts: complex(*of_json(parts)),
    "tuple": lambda parts: tuple(of_json(parts)),
    "dict": lambda pairs: {of_json(key): of_json(value) for key, value in pairs},
    "scalar": lambda parts: _of_numpy(parts[0], [], parts[1])[()],
    "array": lambda parts: _of_numpy(*parts),
}
