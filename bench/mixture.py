"""Two species of atoms, half of each: how two atoms interact by their species."""
from __future__ import annotations

import math
from typing import NamedTuple, Sequence, Tuple


class Interaction(NamedTuple):
    """Sigma and epsilon of a class of pairs, in units of the first species' sigma and epsilon."""

    sigma: float
    epsilon: float


Classes = Tuple[Interaction, Interaction, Interaction]


def lorentz_berthelot(second: Interaction) -> Classes:
    """The classes where mixed pairs have the mean sigma and the geometric mean of epsilon."""
    first = Interaction(1.0, 1.0)
    mixed = Interaction((first.sigma + second.sigma) / 2, math.sqrt(first.epsilon * second.epsilon))
    return first, mixed, second


SYMBOLS = ("Ar", "Kr")
ALIKE = lorentz_berthelot(Interaction(1.0, 1.0))
ARGON_KRYPTON = lorentz_berthelot(Interaction(3.633 / 3.405, 167.0 / 119.8))
MIXES = {"equal": ALIKE, "different": ARGON_KRYPTON}


def words(classes: Classes, sigmas: Sequence[str], h: int) -> str:
    """Sigma, step factor and weight of each class, as LOADMIX takes them; h is the step factor of the first."""
    return " ".join(f"{sigma} {round(h * one.epsilon / one.sigma ** 2)} {round(256 * one.epsilon)}" for sigma, one in zip(sigmas, classes))


def mean_sigma(classes: Classes) -> float:
    """The sigma whose cube is the mean over pairs. It makes the mixture as dense as a liquid of one species."""
    first, mixed, second = (one.sigma**3 for one in classes)
    return math.pow((first + 2 * mixed + second) / 4, 1 / 3)
