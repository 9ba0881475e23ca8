"""Order of bond directions (Steinhardt, Nelson and Ronchetti, 1983), and their alignment with the axes of the box."""
from __future__ import annotations

import math
from dataclasses import dataclass, field
from typing import TYPE_CHECKING, Any, Dict, List, NamedTuple, Optional, Tuple

from ..neighbours import near_pairs
from ..sampling import Progress
from ..scalars import checked_positive
from ..units import RING
from .analyses import Analysis, Groups, analyse
from .estimates import Blocks, Estimate
from .frames import Frame
from .library import numpy

if TYPE_CHECKING:
    from ..session import Session


@dataclass(frozen=True)
class OrderResult:
    """The order of some frames. All values are dimensionless.

    Parameters
    ----------
    q4, q6 : Estimate
        The bond orders of each atom's own bonds, averaged over all atoms. They are 0.1909 and 0.5745 in a face-centred crystal, and
        about 0.2 and 0.4 in a liquid with 12 neighbours.
    global_q4, global_q6 : Estimate
        The bond orders of all bonds together, near 0 in a liquid.
    cubic : Estimate
        The mean of `(x^4 + y^4 + z^4) / r^4` over all bonds, along the axes of the box. It is 1/2 for a face-centred crystal, 1 for a
        simple cubic one, 1/3 for nearest neighbours in a body-centred one, and 3/5 for isotropic directions.
    neighbours : Estimate
        Mean number of bonds of an atom.
    partial : dict of str to OrderResult
        With two species, the same result for each, without the atoms of the other.
    """

    q4: Estimate
    q6: Estimate
    global_q4: Estimate
    global_q6: Estimate
    cubic: Estimate
    neighbours: Estimate
    partial: "Dict[str, OrderResult]" = field(repr=False)


class Bonds(NamedTuple):
    """The bonds of a frame: the numbers of both atoms of each, and the directions as an array of shape (3, bonds)."""

    first: Any
    second: Any
    directions: Any


def bonds_of(places: Any, square: float) -> Bonds:
    """The bonds between atoms whose squared distance is below a square, in square ring units."""
    near = near_pairs(places, square)
    apart = numpy.sqrt(numpy.where(near.squares > 0, near.squares, 1.0))
    return Bonds(near.first, near.second, near.images / apart)


class Order(Analysis[OrderResult]):
    """The order of the frames that are added.

    Parameters
    ----------
    reach : float
        Two atoms have a bond below this distance, in units of length: the first minimum of g(r), 1.5 sigma in a liquid.
    stride : int
        As in `Analysis`.

    Examples
    --------
    >>> import itertools
    >>> from ljclient.analysis import Frame, Order
    >>> cubic = Order(reach=1.2)
    >>> cubic.add(Frame.of(list(itertools.product(range(4), repeat=3)), edge=4))
    >>> told = cubic.result()
    >>> print(round(told.q4.value, 6), round(told.q6.value, 6), told.cubic.value, told.neighbours.value)
    0.763763 0.353553 1.0 6.0
    """

    def __init__(self, reach: float, stride: int = 1):
        super().__init__(stride)
        self._reach = checked_positive("reach", reach)
        self._groups: Optional[Groups] = None
        self._blocks: Dict[str, Blocks] = {}

    def _take(self, frame: Frame) -> None:
        if not self._reach <= frame.edge / 2:
            raise ValueError(f"reach must be at most half the edge, got {self._reach:g} in a box of {frame.edge:g}")
        if self._groups is None:
            self._groups = Groups(frame)
            self._blocks = {name: Blocks() for name in ["", *self._groups.names]}
        self._groups.check(frame)
        for name, members in [("", slice(None)), *self._groups.members.items()]:
            self._blocks[name].add(values_of(frame.places[members], (self._reach / frame.edge * RING) ** 2))

    def result(self) -> OrderResult:
        """The result of the frames so far.

        Returns
        -------
        OrderResult
            The result.

        Raises
        ------
        ValueError
            If the frames are too few.
        """
        if self._groups is None:
            raise ValueError("order must have at least 1 frame, got 0; add frames first")
        return told_of(self._blocks[""], {name: told_of(self._blocks[name], {}) for name in self._groups.names})


def values_of(places: Any, square: float) -> List[float]:
    """`q4`, `q6`, `global_q4`, `global_q6`, `cubic` and `neighbours` of a group of atoms."""
    bonds = bonds_of(places, square)
    (local4, all4), (local6, all6) = (orders_of(bonds, degree, len(places)) for degree in (4, 6))
    count = len(bonds.first)
    return [local4, local6, all4, all6, float((bonds.directions**4).sum()) / max(1, count), 2 * count / len(places)]


def told_of(blocks: Blocks, partial: Dict[str, OrderResult]) -> OrderResult:
    """The result of a group of atoms."""
    pairs = zip(blocks.mean(), blocks.error())
    local4, local6, all4, all6, cubic, neighbours = (Estimate(float(value), float(error)) for value, error in pairs)
    return OrderResult(local4, local6, all4, all6, cubic, neighbours, partial)


def orders_of(bonds: Bonds, degree: int, atoms: int) -> Tuple[float, float]:
    """The bond orders of an even degree: the mean over atoms, and the one of all bonds together. Atoms without bonds have 0."""
    counts = numpy.bincount(bonds.first, minlength=atoms) + numpy.bincount(bonds.second, minlength=atoms)
    local, total = numpy.zeros(atoms), 0.0
    for order, values in enumerate(harmonics(bonds.directions, degree)):
        # The harmonic of order -m is the conjugate of the harmonic of order m.
        twice = 1 if order == 0 else 2
        for part in (values.real, values.imag):
            sums = numpy.bincount(bonds.first, part, atoms) + numpy.bincount(bonds.second, part, atoms)
            local += twice * (sums / numpy.maximum(counts, 1)) ** 2
            total += twice * (part.sum() / max(1, len(part))) ** 2
    size = 4 * math.pi / (2 * degree + 1)
    return float(numpy.sqrt(size * local).mean()), math.sqrt(size * total)


def harmonics(directions: Any, degree: int) -> List[Any]:
    """The spherical harmonics of a degree, for orders from 0 to the degree, at unit vectors."""
    x, y, z = directions
    told = []
    for order in range(degree + 1):
        # The Legendre function without its power of the sine, which is in the power of x + i y.
        polynomial = numpy.polynomial.legendre.Legendre.basis(degree).deriv(order)
        size = (2 * degree + 1) / (4 * math.pi) * math.factorial(degree - order) / math.factorial(degree + order)
        told.append(math.sqrt(size) * polynomial(z) * (x + 1j * y) ** order)
    return told


def order(session: "Session", steps: int, every: int, reach: float, progress: Progress = False) -> OrderResult:
    """The order of a session as it advances.

    Parameters
    ----------
    session : Session
        The session is advanced, and is left at its last step.
    steps, every : int
        Number of steps to advance, and number of steps between frames. The first frame is the present one.
    reach : float
        Two atoms have a bond below this distance, in units of length.
    progress : bool or callable
        As in `Session.advance`.

    Returns
    -------
    OrderResult
        Bond orders, cubic order and neighbours, with their errors.

    Examples
    --------
    >>> from ljclient import analysis, run
    >>> with run() as user:
    ...     pair = user.load("pair", [(0, 0, 0), (1.2, 0, 0)], symbols="Ar", edge=20, sigma=1, h=4295)
    ...     told = analysis.order(pair, steps=20, every=10, reach=1.5)
    >>> print(round(told.q6.value, 6), round(told.cubic.value, 6), told.neighbours.value)
    1.0 1.0 1.0
    """
    told = Order(reach)
    analyse(session, steps, every, [told], progress)
    return told.result()
