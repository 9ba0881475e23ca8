"""Warnings that are shown at the line of the caller of this package."""
from __future__ import annotations

import contextlib
import os
import sys
import warnings
from typing import Iterator, Type, Union

from .errors import printable

PACKAGE = os.path.dirname(__file__) + os.sep


def warn_caller(text: str, kind: Type[Warning] = UserWarning) -> None:
    """Warns at the nearest caller outside of this package."""
    level, frame = 1, sys._getframe()
    while frame.f_back is not None and frame.f_code.co_filename.startswith(PACKAGE):
        level, frame = level + 1, frame.f_back
    warnings.warn(text, kind, stacklevel=level)


@contextlib.contextmanager
def told_in_a_line() -> Iterator[None]:
    """Prints each warning within the block as a line of standard error, as programs do, without its source line."""

    def tell(message: Union[Warning, str], *_: object, **__: object) -> None:
        print(f"ljclient: warning: {printable(str(message))}", file=sys.stderr, flush=True)

    with warnings.catch_warnings():
        warnings.showwarning = tell
        yield
