"""Functions of the time between two frames, averaged over many origins: frames that later frames are compared with.

An origin is kept up to the longest lag. Its results are then one value of the series of `Blocks`. So at most `lags / apart + 1`
frames are kept, whatever the length of the run.
"""
from __future__ import annotations

from typing import Any, Callable, List, Optional, Tuple

from .analyses import checked_count
from .estimates import Blocks
from .frames import Frame
from .library import numpy

# The default of `apart` is `lags` divided by this.
ORIGINS = 20
# The allowed relative difference of two intervals between frames.
SAME_INTERVAL = 1e-6
# A function of the values of an origin and of a frame. It returns one number for each group.
Compare = Callable[[Any, Any], Any]


class Origins:
    """Origins, with the results of each so far.

    lags     the longest lag, in frames
    apart    number of frames between origins
    is_path  whether the compared values accumulate over time, so that origins with overlapping lags are correlated
    """

    def __init__(self, lags: int, apart: Optional[int], compare: Compare, is_path: bool = False):
        self.lags = checked_count("lags", lags)
        self.apart = max(1, self.lags // ORIGINS) if apart is None else checked_count("apart", apart)
        self.blocks = Blocks(overlap=-(-self.lags // self.apart) if is_path else 1)
        self.interval = 0.0
        self._compare = compare
        self._open: List[Tuple[Any, List[Any]]] = []
        self._seen = 0
        self._time = 0.0

    def check(self, frame: Frame) -> None:
        """Raises ValueError unless the time since the last frame is above 0 and the same as before."""
        interval = abs(frame.time - self._time)
        if self._seen == 1 and not interval > 0:
            raise ValueError(f"frames must be at different times, got two at {frame.time:g}; use time= of Frame.of")
        if self._seen > 1 and abs(interval - self.interval) > SAME_INTERVAL * self.interval:
            raise ValueError(f"frames must be equally far apart in time, got {interval:g} after {self.interval:g}; use every n-th frame")

    def add(self, frame: Frame, values: Any) -> None:
        """Compares the values of a checked frame with those of all kept origins."""
        if self._seen == 1:
            self.interval = abs(frame.time - self._time)
        if self._seen % self.apart == 0:
            self._open.append((values, []))
        self._seen, self._time = self._seen + 1, frame.time
        for origin, found in self._open:
            found.append(self._compare(origin, values))
        if len(self._open[0][1]) == self.lags + 1:
            self.blocks.add(numpy.array(self._open.pop(0)[1]).T)

    @property
    def times(self) -> Any:
        """The lags, in the unit of time."""
        return numpy.arange(self.lags + 1) * self.interval

    def checked_range(self, start: float, stop: float) -> Any:
        """A mask of the lags in a range of times. ValueError if they are too few for a line."""
        kept = (self.times >= start * (1 - 1e-9)) & (self.times <= stop * (1 + 1e-9))
        if kept.sum() < 2:
            raise ValueError(f"a range of times must have at least 2 lags, got {start:g} to {stop:g} of {self.times[-1]:g}")
        return kept
