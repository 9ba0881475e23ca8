"""The data that a study keeps: values in JSON types, and the data of figures as CSV or as numpy arrays."""
from __future__ import annotations

import csv
import dataclasses
import io
import math
import numbers
from collections.abc import Mapping, MutableMapping
from typing import Any, Callable, Dict, Iterator, List, Optional, Tuple

from . import arrays
from .errors import Missing

KEPT = "None, a truth value, a number, a text, an array, or a list, dict, NamedTuple or dataclass of these"


def plain_of(name: str, value: Any) -> Any:
    """A value in JSON types. A number that JSON lacks becomes a text: "nan", "inf" or "-inf".

    Raises TypeError, with the name, if the value is of a type that is not kept.
    """
    if value is None or isinstance(value, (bool, str)):
        return value
    if hasattr(value, "tolist"):
        return plain_of(name, value.tolist())
    if isinstance(value, numbers.Integral):
        return int(value)
    if isinstance(value, numbers.Real):
        return float(value) if math.isfinite(value) else str(float(value))
    value = _fields_of(value)
    if isinstance(value, Mapping) and all(isinstance(key, str) for key in value):
        return {key: plain_of(name, each) for key, each in value.items()}
    if isinstance(value, (list, tuple)):
        return [plain_of(name, each) for each in value]
    raise TypeError(f"{name} must be {KEPT}, got {type(value).__name__}")


def _fields_of(value: Any) -> Any:
    """The fields of a NamedTuple or a dataclass by name; any other value unchanged."""
    if dataclasses.is_dataclass(value) and not isinstance(value, type):
        return {each.name: getattr(value, each.name) for each in dataclasses.fields(value)}
    return value._asdict() if isinstance(value, tuple) and hasattr(value, "_asdict") else value


class Values(MutableMapping[str, Any]):
    """Values by name, in JSON types. `check` is called before a change, and `changed` after it."""

    def __init__(self, kept: Dict[str, Any], check: Callable[[], None], changed: Callable[[], None]):
        self._kept, self._check, self._changed = kept, check, changed

    def __getitem__(self, name: str) -> Any:
        return self._kept[name]

    def __setitem__(self, name: str, value: Any) -> None:
        if not isinstance(name, str) or not name:
            raise TypeError(f"a name must be a text of at least one letter, got {name!r}")
        self._check()
        self._kept[name] = plain_of(name, value)
        self._changed()

    def __delitem__(self, name: str) -> None:
        self._check()
        del self._kept[name]
        self._changed()

    def __iter__(self) -> Iterator[str]:
        return iter(self._kept)

    def __len__(self) -> int:
        return len(self._kept)

    def __repr__(self) -> str:
        return repr(self._kept)


def figure_file(name: str, data: Any) -> Tuple[str, bytes]:
    """The ending and the bytes of the data of a figure: `.csv` if they are columns of one length, else `.npz`.

    Raises ValueError if there are no arrays, and `Missing` if they need `.npz` and numpy is not installed.
    """
    columns = _columns_of(name, data)
    rows = _rows_of(columns)
    return (".csv", _csv(columns, rows)) if rows is not None else (".npz", _npz(name, columns))


def _columns_of(name: str, data: Any) -> Dict[str, Any]:
    """The columns of data: the items of a dict, the arrays of a dataclass, or an array or a list as `y`, or as `x` and `y`."""
    fields = _fields_of(data)
    if isinstance(fields, Mapping):
        named = fields if fields is data else {key: each for key, each in fields.items() if _is_list(each)}
        columns = {str(key): _listed(each) for key, each in named.items()}
    else:
        rows = _listed(data)
        is_table = isinstance(rows, list) and rows and all(isinstance(each, (list, tuple)) and len(each) == 2 for each in rows)
        columns = dict(zip("xy", ([row[0] for row in rows], [row[1] for row in rows]))) if is_table else {"y": rows}
    if not columns or not all(_is_list(each) for each in columns.values()):
        raise ValueError(
            f"the data of figure {name} must be a dict of arrays, an array, or a result with arrays, got {type(data).__name__}"
        )
    return columns


def _is_list(value: Any) -> bool:
    return isinstance(value, (list, tuple)) or (hasattr(value, "tolist") and getattr(value, "ndim", 0) > 0)


def _listed(value: Any) -> Any:
    return value.tolist() if hasattr(value, "tolist") else list(value) if isinstance(value, (tuple, range)) else value


def _rows_of(columns: Dict[str, Any]) -> Optional[List[List[str]]]:
    """The rows of columns as CSV fields; None if the lengths differ, or a value is neither a real number nor a text."""
    lists = list(columns.values())
    if len({len(each) for each in lists}) > 1 or not all(isinstance(word, (str, numbers.Real)) for each in lists for word in each):
        return None
    return [[_word(word) for word in row] for row in zip(*lists)]


def _word(value: Any) -> str:
    """A number or a text as a CSV field. A float has all its digits."""
    if isinstance(value, (bool, str)):
        return str(value)
    return str(int(value)) if isinstance(value, numbers.Integral) else repr(float(value))


def _csv(columns: Dict[str, Any], rows: List[List[str]]) -> bytes:
    told = io.StringIO()
    csv.writer(told, lineterminator="\n").writerows([list(columns), *rows])
    return told.getvalue().encode("utf-8")


def _npz(name: str, columns: Dict[str, Any]) -> bytes:
    """The arrays in the format of `numpy.load`."""
    numpy: Any = arrays.numpy
    if numpy is None:
        raise Missing(
            f"cannot add figure {name}: its data are not columns of one length, and numpy is not installed; use `pip install numpy`"
        )
    try:
        made = {key: numpy.array(each) for key, each in columns.items()}
    except ValueError as error:
        raise ValueError(f"the data of figure {name} must be arrays of numbers: {error}") from error
    for key, each in made.items():
        if each.dtype.kind not in "biufcUS" or key == "file":
            raise ValueError(f"the data of figure {name} must be arrays of numbers, with other names than `file`, got {key!r}")
    told = io.BytesIO()
    numpy.savez(told, **made)
    return told.getvalue()
