"""The progress of a run: tqdm bars at a terminal or in a notebook, and nothing elsewhere."""
from __future__ import annotations

import contextlib
import functools
import importlib
import sys
from typing import Any, Callable, Dict, Iterator, List, Optional, Sequence, Union

from .interrupts import held

MISSING = "ljclient shows no progress bars, since tqdm is not installed: `pip install tqdm`, or Debian's python3-tqdm"
Report = Callable[[int, int], None]
NamedReport = Callable[[str, int, int], None]


@contextlib.contextmanager
def reporter(wanted: Union[bool, Report], name: str, delay: float = 0.0, unit: str = "step") -> Iterator[Optional[Report]]:
    """A function to call with the number of steps, or other units, that are done, and their total. None if nobody sees it.

    A bar is drawn if the run takes longer than `delay` seconds. It stays as it is at the end of the block.
    """
    if callable(wanted):
        yield wanted
        return
    with reporters(wanted, [name], delay, unit) as reports:
        yield reports[0]


@contextlib.contextmanager
def reporters(
    wanted: Union[bool, NamedReport], names: Sequence[str], delay: float = 0.0, unit: str = "step"
) -> Iterator[List[Optional[Report]]]:
    """The same for each of several sessions. A function of the caller gets the name of the session first."""
    if callable(wanted):
        yield [functools.partial(wanted, name) for name in names]
        return
    bars = Bars(names, delay, unit) if wanted and _is_seen() and _can_be_drawn(tells=not delay) else None
    try:
        yield [functools.partial(bars.show, place) if bars else None for place in range(len(names))]
    finally:
        if bars:
            bars.close()


def _is_seen() -> bool:
    """Whether somebody sees standard error as it is written."""
    shell = getattr(sys.modules.get("IPython"), "get_ipython", lambda: None)()
    in_notebook = type(shell).__name__ == "ZMQInteractiveShell"
    return sys.stderr is not None and (in_notebook or sys.stderr.isatty())


def _can_be_drawn(tells: bool) -> bool:
    """Whether tqdm is installed. If not, a message says so once."""
    if _tqdm() is None and tells:
        _tell(MISSING)
    return _tqdm() is not None


@functools.lru_cache(maxsize=None)
def _tell(text: str) -> None:
    """Writes a line to standard error, once."""
    print(text, file=sys.stderr)


@functools.lru_cache(maxsize=None)
def _tqdm() -> Any:
    """The tqdm bars that suit a terminal or a notebook. None if it is not installed."""
    try:
        return importlib.import_module("tqdm.auto").tqdm
    except ImportError:
        return None


class Bars:
    """A bar for each of some sessions, one below the other. They are closed together: a bar that ends first keeps its line."""

    def __init__(self, names: Sequence[str], delay: float, unit: str):
        self._names = [name.ljust(max(map(len, names))) for name in names]
        self._delay = delay
        self._unit = unit
        self._bars: Dict[int, Any] = {}

    def show(self, place: int, done: int, total: int) -> None:
        """Draws the progress of the session with this index."""
        with held():
            if place not in self._bars:
                self._bars[place] = self._begun(self._names[place], total)
            bar = self._bars[place]
            if done >= total:
                bar.mininterval = 0
            bar.update(done - bar.n)

    def _begun(self, name: str, total: int) -> Any:
        words = {"unit": self._unit, "miniters": 1, "dynamic_ncols": True, "delay": self._delay}
        return _tqdm()(desc=name, total=total, **words)

    def close(self) -> None:
        """Closes all bars, each with its elapsed time when it was last drawn."""
        with held():
            for bar in self._bars.values():
                bar.unpause()
                bar.close()
