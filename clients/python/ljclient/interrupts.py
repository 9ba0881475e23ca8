"""Interrupts from the keyboard, which are held back while something is half done."""
from __future__ import annotations

import contextlib
import importlib
import signal
import threading
from typing import Any, Iterator, List

_signal = importlib.import_module("_signal")
"""The module that `signal` calls. Without the enumerations of `signal`, a call takes a tenth of the time."""


@contextlib.contextmanager
def held() -> Iterator[None]:
    """Delays an interrupt from the keyboard until the end. Only the main thread gets interrupts."""
    before = _signal.getsignal(signal.SIGINT)
    if before is None or threading.current_thread() is not threading.main_thread():
        yield
        return
    came: List[Any] = []
    _signal.signal(signal.SIGINT, lambda *frame: came.append(frame))
    try:
        yield
    finally:
        _signal.signal(signal.SIGINT, before)
        if came:
            signal.raise_signal(signal.SIGINT)
