"""Means of correlated series, with their standard errors from block averages (Flyvbjerg and Petersen, 1989).

A series is kept as block averages. The blocks grow with it: there are never more than twice `MOST`.
"""
from __future__ import annotations

import math
from dataclasses import dataclass
from typing import Any, Callable, List, Sequence, Tuple, Union

from ..arrays import FloatArray
from .library import numpy

# A series of at least this many values has at least as many blocks, and fewer than twice as many.
MOST = 64
# Blocks are joined in pairs while at least this many are left.
LEAST = 8
# The medians of chi squared for 1, 2, 3, .. degrees of freedom. With larger limits, blocks that are still correlated would pass, and
# errors of short runs would be too small.
CHI_SQUARED = (0.455, 1.386, 2.366, 3.357, 4.351)


@dataclass(frozen=True)
class Estimate:
    """A number with its standard error.

    Parameters
    ----------
    value, error : float
        The number, and its standard error. The error is nan if there are too few values.
    unit : str
        The unit of both.

    Examples
    --------
    >>> from ljclient.analysis import Estimate
    >>> print(Estimate(2.4312, 0.052, "angstrom^2 / fs"))
    2.431 +- 0.052 angstrom^2 / fs
    """

    value: float
    error: float
    unit: str = ""

    def __float__(self) -> float:
        return self.value

    def __str__(self) -> str:
        digits = 0
        if math.isfinite(self.error) and self.error > 0:
            digits = 1 - math.floor(math.log10(self.error))
        plain = f"{self.value:.{max(digits, 0)}f} +- {self.error:.{max(digits, 0)}f}"
        text = plain if 0 < digits <= 8 else f"{self.value:.6g} +- {self.error:.2g}"
        return f"{text} {self.unit}".rstrip()

    def in_unit(self, size: float, unit: str) -> "Estimate":
        """The same in another unit.

        Parameters
        ----------
        size : float
            The new unit, in terms of the old unit.
        unit : str
            The name of the new unit.

        Returns
        -------
        Estimate
            The value and its error in that unit.

        Examples
        --------
        >>> from ljclient.analysis import Estimate
        >>> print(Estimate(0.000243, 0.000005, "angstrom^2 / fs").in_unit(1e-4, "10^-5 cm^2 / s"))
        2.430 +- 0.050 10^-5 cm^2 / s
        """
        return Estimate(self.value / size, self.error / size, unit)


class Blocks:
    """Block averages of a series of numbers, or of arrays of one shape.

    Parameters
    ----------
    most : int
        The least number of blocks to keep, a power of 2. Fewer than twice as many are kept.
    overlap : int
        Number of consecutive values that are correlated anyway, such as by shared frames. Errors are from blocks of at least this
        length.

    Examples
    --------
    >>> from ljclient.analysis import Blocks
    >>> blocks = Blocks()
    >>> for value in range(1000):
    ...     blocks.add(value % 10)
    >>> print(blocks.mean(), len(blocks.means()))
    4.5 125
    """

    def __init__(self, most: int = MOST, overlap: int = 1):
        if most < 2 or most & (most - 1):
            raise ValueError(f"most must be a power of 2, got {most}")
        self._most, self._overlap = most, overlap
        self._length = 1
        self._blocks: List[Any] = []
        self._open: Any = 0.0
        self._opened = 0
        self._total: Any = 0.0
        self.count = 0

    def add(self, values: Any) -> None:
        """Takes the next value of the series.

        Parameters
        ----------
        values : float or array
            One number, or an array of the same shape as before.
        """
        values = numpy.array(values, dtype=float)
        self._open, self._total = self._open + values, self._total + values
        self._opened, self.count = self._opened + 1, self.count + 1
        if self._opened == self._length:
            self._blocks.append(self._open / self._length)
            self._open, self._opened = 0.0, 0
        if len(self._blocks) == 2 * self._most:
            self._blocks = list(joined(numpy.array(self._blocks)))
            self._length *= 2

    def mean(self) -> Any:
        """The mean of all values.

        Returns
        -------
        float or numpy.ndarray
            Of the shape of one value.

        Raises
        ------
        ValueError
            If there are no values.
        """
        if not self.count:
            raise ValueError("a series must have at least 1 value, got 0; add frames first, more of them than the longest lag")
        return self._total / self.count

    def means(self) -> FloatArray:
        """The means of the blocks, in order.

        Returns
        -------
        numpy.ndarray, shape (blocks, ..)
            One row for each block.
        """
        means: FloatArray = numpy.array(self._blocks)
        return means

    def error(self) -> Any:
        """The standard error of the mean.

        Returns
        -------
        float or numpy.ndarray
            Of the shape of one value.
        """
        return self._error_of(self.means())

    def estimate(self, function: Callable[[Any], Any], unit: str = "") -> Estimate:
        """The value of a function at the mean, with its error.

        Parameters
        ----------
        function : callable
            From an array of the shape of one value to a number.
        unit : str
            The unit of the number.

        Returns
        -------
        Estimate
            The value and its error.
        """
        value, error = self.derived(function)
        return Estimate(float(value), float(error), unit)

    def derived(self, function: Callable[[Any], Any]) -> Tuple[Any, Any]:
        """The value of a function at the mean, with its error.

        For the error, each block mean in turn replaces a small part of the mean. So the error is exact if the function is linear.
        Else it is the error of the tangent.

        Parameters
        ----------
        function : callable
            From an array of the shape of one value to a number or an array.

        Returns
        -------
        tuple of float or numpy.ndarray
            The value and its error.
        """
        mean = self.mean()
        value = numpy.asarray(function(mean))
        # A small part of a block's difference, so that a nonlinear function is evaluated only near the mean.
        part = 1e-3
        near = [(numpy.asarray(function(mean + part * (block - mean))) - value) / part for block in self._blocks]
        return value, self._error_of(numpy.array(near))

    def _error_of(self, blocks: Any) -> Any:
        """The standard error from blocks, which are joined to at least the length of the overlap."""
        together = -(-self._overlap // self._length)
        count = len(blocks) // together
        return errors_of(blocks[: count * together].reshape(count, together, *blocks.shape[1:]).mean(axis=1))


def joined(blocks: Any) -> Any:
    """The means of successive pairs of blocks. If their number is odd, the last one is left out."""
    pairs = len(blocks) // 2
    return blocks[: 2 * pairs].reshape(pairs, 2, *blocks.shape[1:]).mean(axis=1)


def errors_of(blocks: Any) -> Any:
    """The standard error of the mean of blocks, of the shape of one.

    Blocks are joined in pairs until successive blocks of one size, and of each larger size, are no longer correlated: until the sum
    of their squared correlations is as expected by chance (Jonsson, 2018).
    """
    if len(blocks) < 2:
        return numpy.full(numpy.shape(blocks)[1:], math.nan)
    levels = _levels(numpy.asarray(blocks, dtype=float))
    # If no size passes, the error is from the largest blocks, the most reliable ones.
    statistic, found = 0.0, levels[-1][0]
    for number, (error, correlation) in enumerate(reversed(levels)):
        statistic = statistic + correlation
        limit = CHI_SQUARED[min(number, len(CHI_SQUARED) - 1)]
        found = numpy.where(statistic < limit, error, found)
    return found if numpy.ndim(found) else float(found)


def _levels(series: Any) -> Sequence[Tuple[Any, Any]]:
    """For each size of blocks, the error of the mean, and their squared correlation, scaled so that it is about 1 by chance."""
    levels: List[Tuple[Any, Any]] = []
    while len(series) >= 2 and (not levels or len(series) >= LEAST):
        count = len(series)
        apart = series - series.mean(axis=0)
        variance = (apart**2).mean(axis=0)
        following = (apart[1:] * apart[:-1]).sum(axis=0) / count
        with numpy.errstate(divide="ignore", invalid="ignore"):
            part = numpy.nan_to_num(((count - 1) * variance / count**2 + following) / variance)
        levels.append((numpy.sqrt(variance / (count - 1)), count * part**2))
        series = joined(series)
    return levels


def mean_of(series: Union[Sequence[float], FloatArray], unit: str = "") -> Estimate:
    """The mean of a series of numbers, such as the temperatures of a run, with its standard error.

    Parameters
    ----------
    series : sequence of float, or array of shape (values,)
        Numbers in order of time. They may be correlated.
    unit : str
        Their unit.

    Returns
    -------
    Estimate
        Mean and standard error, in the unit.

    Examples
    --------
    >>> from ljclient import analysis
    >>> print(analysis.mean_of([1.0, 3.0, 2.0, 2.0], "epsilon"))
    2.00 +- 0.41 epsilon
    """
    blocks = Blocks()
    for value in series:
        blocks.add(value)
    return blocks.estimate(lambda mean: mean, unit)
