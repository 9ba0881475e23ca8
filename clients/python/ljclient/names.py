"""Names of sessions and saved states, symbols of atoms, whole numbers, and values in messages."""
from __future__ import annotations

import operator
import re
from typing import Any, Tuple

NAME = re.compile(r"[A-Za-z0-9_-]{1,16}\Z")
SYMBOL = re.compile(r"[!-~]{1,16}\Z")
# The most characters of a value in a message.
MAX_SHOWN = 80


def shortened(value: Any) -> str:
    """A value as an error message shows it: its `repr`, cut if it is long."""
    text = repr(value)
    return text if len(text) <= MAX_SHOWN else text[: MAX_SHOWN - 2] + ".."


def checked_name(name: str) -> str:
    """A name of a session or of a saved state. Raises ValueError if it is not one."""
    if not (isinstance(name, str) and NAME.match(name)):
        raise ValueError(f"a name must be 1 to 16 letters, digits, `_` or `-`, got {shortened(name)}")
    return name


def checked_symbol(symbol: Any) -> str:
    """The symbol of an atom. Raises ValueError if it is not one."""
    if not (isinstance(symbol, str) and SYMBOL.match(symbol)):
        raise ValueError(f"a symbol must be 1 to 16 printing characters, got {shortened(symbol)}")
    return symbol


def whole_of(number: Any, what: str) -> int:
    """A whole number of Python or numpy as a Python int. Raises TypeError, which names `what`, if it is not one."""
    try:
        return operator.index(number)
    except TypeError:
        raise TypeError(f"{what} must be a whole number (int), got {shortened(number)}") from None


def displacement_of(displacement: Any) -> Tuple[int, int, int]:
    """The three whole numbers of a displacement. Raises TypeError or ValueError if it is not three whole numbers."""
    try:
        x, y, z = map(operator.index, displacement)
    except (TypeError, ValueError) as error:
        wanted = "a displacement must be three whole numbers (int), in ring units along x, y and z"
        raise type(error)(f"{wanted}, got {shortened(displacement)}") from None
    return x, y, z


def count_of(number: Any, what: str) -> int:
    """A whole number that is not below zero."""
    count = whole_of(number, what)
    if count < 0:
        raise ValueError(f"{what} must be 0 or more, got {count}")
    return count
