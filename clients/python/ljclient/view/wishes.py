"""What a page may ask: an object with the key `do`, and numbers under other keys."""
from __future__ import annotations

import json
from typing import Any, Dict, Optional

from ..names import MAX_SHOWN

Answer = Dict[str, Any]
Wish = Dict[str, Any]


def shown(value: Any) -> str:
    """A value from a page, as JSON, cut if it is long. The page that contains the program shows the same."""
    text = json.dumps(value, separators=(",", ":"), ensure_ascii=False)
    return text if len(text) <= MAX_SHOWN else text[: MAX_SHOWN - 2] + ".."


def is_whole(number: Any, least: int, most: int) -> bool:
    """Whether this is a whole number within a range."""
    return isinstance(number, int) and not isinstance(number, bool) and least <= number <= most


def number_in(wish: Wish, word: str, least: int, most: int) -> int:
    """The number that a wish has under a word. Raises ValueError unless it is a whole number in the range."""
    number: Optional[Any] = wish.get(word)
    if not is_whole(number, least, most):
        raise ValueError(f"{word} must be a whole number from {least} to {most}, got {shown(number)}")
    return int(number)  # type: ignore[arg-type]


def real_in(wish: Wish, word: str) -> float:
    """The number, from 0 on, that a wish has under a word. Raises ValueError for any other value."""
    number: Optional[Any] = wish.get(word)
    if isinstance(number, bool) or not isinstance(number, (int, float)) or not 0 <= number < 1e12:
        raise ValueError(f"{word} must be a number from 0 on, got {shown(number)}")
    return float(number)
