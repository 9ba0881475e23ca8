"""Several threads that use one user: each call is completed before the next one begins."""
from __future__ import annotations

import functools
from typing import Any, Callable, TypeVar, cast

Method = TypeVar("Method", bound=Callable[..., Any])


def whole(method: Method) -> Method:
    """A method of a user or a session, during which other threads that use the same user wait."""

    @functools.wraps(method)
    def alone(self: Any, *arguments: Any, **named: Any) -> Any:
        with self._lock:
            return method(self, *arguments, **named)

    return cast(Method, alone)
