"""Numbers from a user: checked, and converted to words of the protocol."""
from __future__ import annotations

import math
import operator
from decimal import ROUND_HALF_UP, Decimal, localcontext
from typing import Any, Union

from .names import shortened

Number = Union[int, float, str, Decimal]


def checked_positive(name: str, value: float) -> float:
    """A number above 0. Raises ValueError for another number, and TypeError or ValueError if it is not a number."""
    if not 0 < (number := real_of(name, value)) < math.inf:
        raise ValueError(f"{name} must be a finite number above 0, got {value!r}")
    return number


def real_of(name: str, value: Any, why: str = "") -> float:
    """A Python or numpy number as a Python float. Raises TypeError or ValueError, with the name, if it is not one number."""
    try:
        return float(value)
    except (TypeError, ValueError) as error:
        raise type(error)(f"{name} must be one number, got {shortened(value)}{why}") from None


def checked_length(name: str, value: Any) -> None:
    """Raises TypeError if this is neither a number nor a text. A text is sent as it is, and may be refused."""
    if not isinstance(value, str):
        real_of(name, value)


def nano(number: Number) -> int:
    """A number as the server reads it: a whole number of 10^-9, with halves rounded away from zero."""
    with localcontext() as context:
        context.prec = 60
        return int((Decimal(word(number).lower().replace("d", "e")) * 10**9).to_integral_value(ROUND_HALF_UP))


def word(number: Number) -> str:
    """A number as a decimal word of the protocol. A text is sent as it is, if it is one word."""
    if isinstance(number, str):
        if number.split() != [number]:
            raise ValueError(f"a number must be one word where it is a text, got {shortened(number)}")
        return number
    if isinstance(number, Decimal):
        return str(number)
    try:
        return str(operator.index(number))  # type: ignore[arg-type]
    except TypeError:
        return repr(float(number))


def plain_float(number: Number) -> float:
    """A number as a float; nan if the server will refuse it."""
    if not isinstance(number, str):
        return float(number)
    try:
        return float(number.lower().replace("d", "e"))
    except ValueError:
        return math.nan
