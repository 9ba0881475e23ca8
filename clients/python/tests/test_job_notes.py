"""What an ensemble keeps in a folder: notes in JSON, which come back as they were, and which nothing but JSON is read from."""
import json
import math
import os
import pathlib
import pickle
from functools import partial
from typing import Any, Dict, List

import pytest
from ensemble_jobs import begin, look, look_and_fail
from hypothesis import given, strategies

from ljclient import Job, Measurement, Order, ensemble, notes
from support import PROGRAM

numpy = pytest.importorskip("numpy", reason="numpy is not installed")


def kept(thing: Any) -> Any:
    """A thing that was written to a file of notes, and read again."""
    return notes.read(notes.text_of(notes.Noted(7, 1, [thing]))).notes[0]


THINGS: List[Any] = [
    None,
    True,
    0,
    -(2**80),
    1.5,
    -0.0,
    1e-320,
    0.1 + 0.2,
    math.inf,
    2 - 3j,
    complex(0, -math.inf),
    "",
    'é "\n\x00',
    os.fsdecode(b"\xff"),
    [],
    (),
    {},
    [1, [2.5, ["three"]]],
    (1, (2, [3, (4,)])),
    {"step": 5, 7: [1], (1, 2): {"tuple": [1]}, None: {}},
    {"array": ["<f8", [1], [2.0]]},
    numpy.float64(0.1),
    numpy.float32(0.1),
    numpy.int32(-5),
    numpy.uint64(2**64 - 1),
    numpy.bool_(True),
    numpy.complex128(1 + 2j),
    numpy.str_("Ar"),
    numpy.arange(6).reshape(2, 3),
    numpy.array([[0.1, -0.0], [numpy.inf, 1e300]]),
    numpy.array([1.5, 2.5], dtype=">f4"),
    numpy.array([1 + 2j, 3 - 4j]),
    numpy.array([True, False]),
    numpy.array(["Ar", "Kr"]),
    numpy.zeros((0, 3)),
    numpy.array(5),
    numpy.asfortranarray(numpy.arange(6.0).reshape(2, 3)),
    [numpy.arange(2), {"x": (numpy.float64(2),)}],
]


def is_alike(one: Any, other: Any) -> bool:
    """Whether two things are the same bit for bit, and of the same types."""
    if type(one) is not type(other):
        return False
    if isinstance(one, (numpy.ndarray, numpy.generic)):
        return (one.dtype, one.shape, one.tobytes()) == (other.dtype, other.shape, other.tobytes())
    if isinstance(one, (list, tuple)):
        return len(one) == len(other) and all(map(is_alike, one, other))
    if isinstance(one, dict):
        return list(one) == list(other) and is_alike(list(one.values()), list(other.values()))
    return repr(one) == repr(other)


@pytest.mark.parametrize("thing", THINGS, ids=repr)
def test_what_is_noted_comes_back_as_it_was(thing: Any) -> None:
    assert is_alike(kept(thing), thing)


def test_no_number_comes_back_as_such() -> None:
    assert math.isnan(kept(math.nan)) and numpy.isnan(kept(numpy.array([1, math.nan]))).tolist() == [False, True]


PARTS = strategies.none() | strategies.booleans() | strategies.integers() | strategies.floats(allow_nan=False) | strategies.text()


def groups_of(part: strategies.SearchStrategy[Any]) -> strategies.SearchStrategy[Any]:
    return strategies.lists(part) | strategies.tuples(part, part) | strategies.dictionaries(PARTS, part)


@given(strategies.recursive(PARTS, groups_of))
def test_so_does_anything_of_such_parts(thing: Any) -> None:
    assert is_alike(kept(thing), thing)


OTHERS = [b"bytes", {1, 2}, len, Order(), numpy.array([None]), numpy.array([b"x"]), numpy.datetime64(0, "s"), [[{1: Order()}]]]


@pytest.mark.parametrize("thing", OTHERS, ids=repr)
def test_other_kinds_are_told(thing: Any) -> None:
    with pytest.raises(TypeError, match="`look` must return None, numbers, strings, and lists.*, got "):
        kept(thing)


WHOLE: Dict[str, Any] = {notes.HEAD: 1, "done": 2, "sessions": 1, "notes": [1]}
DAMAGED: List[Any] = [
    b"",
    b"\xff",
    b"{",
    b"[" * 100_000,
    b"null",
    [],
    {},
    {**WHOLE, notes.HEAD: 2},
    {**WHOLE, "done": -1},
    {**WHOLE, "done": 2.0},
    {**WHOLE, "done": True},
    {**WHOLE, "sessions": 10**9},
    {**WHOLE, "sessions": -1},
    {**WHOLE, "notes": {}},
    *({**WHOLE, "notes": [note]} for note in (
        {"tuple": 1}, {"other": 1}, {}, {"tuple": [], "dict": []}, {"dict": [[1]]}, {"dict": [[[], 1]]}, {"complex": [1, 2, 3]},
        {"float": "one"}, {"array": ["<f8", [2], [1]]}, {"array": ["O", [1], [1]]}, {"array": ["<f8", [1], ["x"]]}, {"array": []},
        {"array": ["i1", [1], [2**70]]}, {"array": [[], [1], [1]]}, {"scalar": ["<f8"]},
    )),
]  # fmt: skip


@pytest.mark.parametrize("told", DAMAGED, ids=lambda told: repr(told)[:60])
def test_what_are_no_notes(told: Any) -> None:
    with pytest.raises(ValueError):
        notes.read(told if isinstance(told, bytes) else json.dumps(told).encode())


def measured(session: Any) -> Measurement:
    measurement: Measurement = session.measure()
    return measurement


def in_arrays(session: Any) -> Any:
    return {"step": session.get_step(), "places": session.places(), "kinetic": numpy.float64(session.measure().kinetic)}


def in_arrays_and_fails_once(marker: Any, session: Any) -> Any:
    if session.get_step() == 20 and not os.path.exists(marker):
        pathlib.Path(marker).touch()
        raise ValueError("nothing to see here")
    return in_arrays(session)


def told_by(look_at: Any, folder: Any, steps: int = 30) -> Any:
    (told,) = ensemble([Job(partial(begin, 5), look_at, steps, 10)], folder=folder, seconds=0, program=PROGRAM)
    return told


def notes_in(folder: pathlib.Path) -> pathlib.Path:
    (found,) = folder.glob("*.notes")
    return found


def test_a_later_call_returns_the_same(tmp_path: pathlib.Path) -> None:
    told = told_by(in_arrays, tmp_path)
    assert [each["step"] for each in told] == [0, 10, 20, 30]
    assert json.loads(notes_in(tmp_path).read_text())["done"] == 30
    assert is_alike(told_by(in_arrays, tmp_path), told)


def test_a_job_that_goes_on_returns_the_same(tmp_path: pathlib.Path) -> None:
    look_at = partial(in_arrays_and_fails_once, str(tmp_path / "failed"))
    with pytest.raises(ValueError, match="nothing to see"):
        told_by(look_at, tmp_path)
    assert json.loads(notes_in(tmp_path).read_text())["done"] == 10
    assert is_alike(told_by(look_at, tmp_path), told_by(in_arrays, None))


def test_another_kind_is_told_at_the_first_look(tmp_path: pathlib.Path) -> None:
    with pytest.raises(TypeError, match="`look` must return .*, got Measurement"):
        told_by(measured, tmp_path)
    assert list(tmp_path.glob("*")) == []


def test_another_kind_is_returned_where_no_folder_is_kept() -> None:
    assert [each.step for each in told_by(measured, None)] == [0, 10, 20, 30]


class Runs:
    """What makes a file where it is unpickled."""

    def __init__(self, path: str):
        self.path = path

    def __reduce__(self) -> Any:
        return os.mkdir, (self.path,)


def test_a_pickle_is_not_read(tmp_path: pathlib.Path) -> None:
    told_by(look, tmp_path)
    path = notes_in(tmp_path)
    path.write_bytes(pickle.dumps(Runs(str(tmp_path / "made"))))
    with pytest.raises(
        ValueError, match=f"cannot read {path}: it is a pickle of an earlier ljclient, .*; delete it, so that its job is computed"
    ):
        told_by(look, tmp_path)
    assert not (tmp_path / "made").exists() and path.exists()
    path.unlink()
    assert told_by(look, tmp_path) == told_by(look, None)


@pytest.mark.parametrize("change", [{"done": 40}, {"done": 15}, {"sessions": 0}, {"notes": []}, {"files": ["/etc/passwd"], "done": 31}])
def test_notes_of_another_job_are_none(tmp_path: pathlib.Path, change: Any) -> None:
    with pytest.raises(ValueError, match="nothing to see"):
        told_by(look_and_fail, tmp_path)
    path = notes_in(tmp_path)
    known = json.loads(path.read_text())
    assert (known["done"], known["sessions"], len(known["notes"])) == (10, 1, 2)
    path.write_text(json.dumps({**known, **change}))
    with pytest.raises(ValueError, match="nothing to see"):
        told_by(look_and_fail, tmp_path)
    assert json.loads(path.read_text()) == known
