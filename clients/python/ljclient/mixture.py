"""Mixtures of two species: the interaction of each pair of species, and its rounded numbers."""
from __future__ import annotations

import math
from dataclasses import dataclass, field
from typing import List, Optional, Sequence, Tuple

from .names import checked_symbol, shortened
from .scalars import checked_positive, plain_float, real_of, word
from .units import FULL_WEIGHT, Number, Scale

MAX_WEIGHT = 65_536
OF_PAIRS = "first=, second=, mass= and dt="
OF_CLASSES = "classes= of (sigma, h, weight)"
Pair = Tuple[Number, float]
RawClass = Tuple[Number, int, int]


@dataclass(frozen=True)
class Mixture:
    """Two species of atoms, and how each pair of species interacts. `str` has a line for each class.

    All atoms have the same mass.

    Attributes
    ----------
    species : tuple of str
        The symbols of the two species.
    classes : tuple of Scale
        The scales of the pairs: first with first, first with second, and second with second species. They have the rounded numbers
        `h`, `weight` and `sigma_on_ring`, and the time step `dt` for this h.
    words : str
        The words of the command for species and classes.
    """

    species: Tuple[str, str]
    classes: Tuple[Scale, ...]
    words: str = field(repr=False, compare=False, default="")

    @staticmethod
    def of(
        edge: Number,
        species: Sequence[str],
        *,
        first: Optional[Pair] = None,
        second: Optional[Pair] = None,
        mixed: Optional[Pair] = None,
        mass: Optional[float] = None,
        dt: Optional[float] = None,
        classes: Optional[Sequence[RawClass]] = None,
        epsilon: Optional[float] = None,
    ) -> "Mixture":
        """The mixture from pairs of sigma and epsilon, with mass and dt; or from three classes of sigma, h and weight.

        With pairs, each h and each weight is the nearest whole number, and `mixed` follows the Lorentz-Berthelot rules by default.
        With classes, `epsilon` (of the first class) and `mass` are optional.
        """
        symbols = checked_species(species)
        if mass is not None:
            mass = real_of("mass", mass, ": both species have one mass here")
        if classes is None:
            if first is None or second is None or mass is None or dt is None or epsilon is not None:
                raise ValueError(
                    f"a mixture must have first and second (sigma, epsilon), mass and dt, or classes; use {OF_PAIRS}, or {OF_CLASSES}"
                )
            first, second = checked_pair("first", first), checked_pair("second", second)
            pairs = [first, lorentz_berthelot(first, second) if mixed is None else checked_pair("mixed", mixed), second]
            scales = _rounded(edge, symbols, pairs, mass, dt)
            return _made(symbols, [sigma for sigma, _ in pairs], scales)
        if (first, second, mixed, dt) != (None,) * 4:
            raise ValueError(
                f"cannot use classes= with first=, second=, mixed= or dt=: it takes their place; use {OF_PAIRS}, or {OF_CLASSES}"
            )
        if len(classes) != 3 or not all(hasattr(each, "__len__") and len(each) == 3 for each in classes):
            raise ValueError(f"a mixture must have three classes of (sigma, h, weight), got {shortened(classes)}")
        scales = [Scale.of(edge, sigma, h, weight=weight) for sigma, h, weight in classes]
        sigma, h, weight = classes[0]
        scales[0] = Scale.of(edge, sigma, h, epsilon=epsilon, mass=mass, weight=weight)
        return _made(symbols, [sigma for sigma, _, _ in classes], scales)

    @property
    def scale(self) -> Scale:
        """The scale of the first class, whose epsilon is the unit of energies."""
        return self.classes[0]

    @property
    def epsilons(self) -> Optional[Tuple[float, ...]]:
        """The epsilon of each class by its weight, in electronvolt; None if the epsilon of the first class is not known."""
        unit = self.scale.epsilon
        return None if unit is None else tuple(unit * each.weight / self.scale.weight for each in self.classes)

    def __str__(self) -> str:
        epsilons: Sequence[Optional[float]] = self.epsilons or [None] * len(self.classes)
        return "\n".join(map(_line, _names(self.species), self.classes, epsilons))


def checked_species(species: Sequence[str]) -> Tuple[str, str]:
    """The symbols of two species. Raises ValueError for anything else, and if both are equal."""
    if isinstance(species, str) or len(species) != 2:
        raise ValueError(f"species must be two symbols, such as ('Ar', 'Kr'), got {shortened(species)}")
    first, second = species
    for symbol in (first, second):
        checked_symbol(symbol)
    if first == second:
        raise ValueError(f"species must be two different symbols, got {first!r} twice; use `load` for atoms that are all alike")
    return first, second


def checked_pair(name: str, pair: Pair) -> Pair:
    """Sigma and epsilon. Raises ValueError unless the pair has two values."""
    try:
        sigma, epsilon = pair
    except (TypeError, ValueError):
        raise ValueError(f"{name} must be (sigma, epsilon), got {shortened(pair)}") from None
    return sigma, epsilon


def lorentz_berthelot(first: Pair, second: Pair) -> Pair:
    """Sigma and epsilon of two unlike atoms: the arithmetic mean of the sigmas, the geometric mean of the epsilons."""
    epsilons = [checked_positive("epsilon", epsilon) for _, epsilon in (first, second)]
    return (plain_float(first[0]) + plain_float(second[0])) / 2, math.sqrt(epsilons[0]) * math.sqrt(epsilons[1])


def weight_of(epsilon: float, unit: float) -> int:
    """The weight nearest to an epsilon, where `unit` is the epsilon of the first class."""
    weight = round(min(FULL_WEIGHT * (checked_positive("epsilon", epsilon) / unit), 2.0 * MAX_WEIGHT))
    if not 1 <= weight <= MAX_WEIGHT:
        least, most = unit / FULL_WEIGHT, unit * MAX_WEIGHT / FULL_WEIGHT
        raise ValueError(f"epsilon must be from {least:.3g} to {most:.3g} beside {unit:.3g} of the first class, got {epsilon:.3g}")
    return weight


def _rounded(edge: Number, species: Tuple[str, str], pairs: Sequence[Pair], mass: float, dt: float) -> List[Scale]:
    """The scales of three classes. Raises ValueError, with the name of the class, if a number does not fit."""
    scales: List[Scale] = []
    for name, (sigma, epsilon) in zip(_names(species), pairs):
        try:
            weight = weight_of(epsilon, pairs[0][1])
            scales.append(Scale.of(edge, sigma, epsilon=epsilon, mass=mass, dt=dt, weight=weight))
        except ValueError as error:
            raise ValueError(f"{name}: {error}") from None
    return scales


def _made(species: Tuple[str, str], sigmas: Sequence[Number], scales: Sequence[Scale]) -> Mixture:
    numbers = (f"{word(sigma)} {scale.h} {scale.weight}" for sigma, scale in zip(sigmas, scales))
    return Mixture(species, tuple(scales), " ".join([*species, *numbers]))


def _names(species: Tuple[str, str]) -> List[str]:
    """The names of the classes, in order."""
    first, second = species
    return [f"{first} with {first}", f"{first} with {second}", f"{second} with {second}"]


def _line(name: str, scale: Scale, epsilon: Optional[float]) -> str:
    """A line with the rounded numbers of a class."""
    step = "" if scale.dt is None else f" (dt {scale.dt:.6f} fs)"
    depth = "" if epsilon is None else f" (epsilon {epsilon:.6g} eV)"
    return f"{name}: sigma {scale.sigma:g} ({scale.sigma_on_ring} ring units), h {scale.h}{step}, weight {scale.weight}{depth}"
