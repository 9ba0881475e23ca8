"""Names that were public in version 1.1.0 and are not now: they still work, and a `DeprecationWarning` says what to use instead."""
from __future__ import annotations

import warnings
from typing import Any, Generic, TypeVar

Value = TypeVar("Value")


def warn(old: str, use: str = "", level: int = 3) -> None:
    """Warns that a name is deprecated, at the line of this stack level."""
    warnings.warn(f"{old} is deprecated" + (f": use {use}" if use else ""), DeprecationWarning, stacklevel=level)


class Renamed(Generic[Value]):
    """A member of a class under its old name.

    now  the member that does the same. With a trailing `()` the old name was a property, and the member is called
    use  what the warning says to use instead, if there is a replacement
    """

    def __init__(self, now: str, use: str = ""):
        self._now = now
        self._use = use

    def __set_name__(self, owner: type, name: str) -> None:
        self._old = f"{owner.__name__}.{name}"

    def __get__(self, one: Any, kind: Any = None) -> Value:
        value: Value
        if one is None:
            return self  # type: ignore[return-value]
        warn(self._old, self._use)
        value = getattr(one, self._now.removesuffix("()"))
        return value() if self._now.endswith("()") else value  # type: ignore[operator,no-any-return]
