"""The numbers of the protocol and their meaning in physics.

Physical units are those of ASE: lengths in angstrom, energies in electronvolt, masses in dalton (u); times are in
femtoseconds and temperatures in kelvin. `119.8 * units.kelvin` is an energy in electronvolt.

`electronvolt`, `kelvin`, `joule_per_mole`, `kilojoule_per_mole`, `kilocalorie_per_mole`
    Energies, in electronvolt.
`angstrom`, `nanometre`
    Lengths, in angstrom.
`dalton`
    A mass, in dalton.
`femtosecond`, `picosecond`
    Times, in femtoseconds.

Without these units, everything is in reduced units: lengths in the unit of the file, energies in epsilon, times in
`sigma sqrt(m / epsilon)`, temperatures in `epsilon / k_B`.
"""
from __future__ import annotations

import math
from dataclasses import dataclass
from decimal import InvalidOperation
from typing import TYPE_CHECKING, Any, Dict, List, Optional, Tuple, TypedDict

from .names import whole_of
from .renamed import warn as _warn
from .scalars import (
    Number as Number,
    checked_length as _checked_length,
    checked_positive as _checked_positive,
    nano as _nano,
    plain_float as _plain_float,
    real_of as _real_of,
    word as _word,
)

RING = 1 << 32
MIN_SIGMA = 1 << 16
MAX_STEP_FACTOR = 1 << 24
POTENTIAL_UNIT = 1 << 24
FULL_WEIGHT = 256

electronvolt = 1.0
kelvin = 8.617333262e-5
joule_per_mole = 1 / 96485.33212331
kilojoule_per_mole = 1000 * joule_per_mole
kilocalorie_per_mole = 4.184 * kilojoule_per_mole
angstrom = 1.0
nanometre = 10.0
dalton = 1.0
femtosecond = 1.0
picosecond = 1000.0
# An electronvolt / angstrom^3 is 1.602176634e-19 J over 1e-30 m^3, and a bar is 10^5 Pa.
bar = 1 / 1602176.634

# A dalton in grams, and a cubic angstrom in cubic centimetres.
GRAMS_IN_DALTON = 1.66053906660e-24
CUBIC_ANGSTROM = 1e-24
# An electronvolt in dalton angstrom^2 / femtosecond^2: 1.602176634e-19 J over 1.66053906660e-27 kg 1e10 m^2/s^2.
_SPEED_SQUARED = 1.602176634e-19 / (1.66053906660e-27 * 1e10)


class Substance(TypedDict):
    """Atoms that are all alike, as arguments of `User.load`: sigma in angstrom, epsilon in electronvolt, mass in dalton."""

    sigma: float
    epsilon: float
    mass: float


ARGON: Substance = {"sigma": 3.4, "epsilon": 119.8 * kelvin, "mass": 39.948}
"""Argon, as in Rahman's simulation of 1964: `user.load("a", file, edge=21.04, dt=2, **units.ARGON)`."""
NEON: Substance = {"sigma": 2.749, "epsilon": 35.60 * kelvin, "mass": 20.1797}
KRYPTON: Substance = {"sigma": 3.60, "epsilon": 171.0 * kelvin, "mass": 83.798}
XENON: Substance = {"sigma": 4.10, "epsilon": 221.0 * kelvin, "mass": 131.293}
"""Neon, krypton and xenon, by the second virial coefficients of their gases (Hirschfelder, Curtiss and Bird, 1954, table I-A)."""
SUBSTANCES: Dict[str, Substance] = {"Ne": NEON, "Ar": ARGON, "Kr": KRYPTON, "Xe": XENON}
"""These substances, by the symbols of their elements."""


class TwoSpecies(TypedDict):
    """Atoms of two species, as arguments of `User.load_mix`: their symbols, and three classes of sigma, h and weight."""

    species: Tuple[str, str]
    classes: List[Tuple[float, int, int]]


def kob_andersen(h: int) -> TwoSpecies:
    """The glass former of Kob and Andersen (1995), in reduced units of the pair AA.

    For the pairs AA, AB and BB, sigma is 1, 0.8 and 0.88, and epsilon is 1, 1.5 and 0.5. In a glass four of five atoms are A, and
    there are 1.2 atoms per sigma^3. For AB and BB, the step factor is the whole number nearest to `h epsilon / sigma^2`.

    Parameters
    ----------
    h : int
        The step factor of the pair AA.

    Returns
    -------
    TwoSpecies
        Arguments of `User.load_mix`.
    """
    pairs = ((1.0, 1.0), (0.8, 1.5), (0.88, 0.5))
    classes = [(sigma, round(h * epsilon / sigma**2), round(FULL_WEIGHT * epsilon)) for sigma, epsilon in pairs]
    return {"species": ("A", "B"), "classes": classes}


KOB_ANDERSEN = kob_andersen(4096)
"""That glass former with a time step of 1 / 1024: `user.load_mix("ka", source, edge=9.4, **units.KOB_ANDERSEN)`."""


def reduced_time_step(h: int) -> float:
    """The time step of a step factor, `sqrt(h / 2^32)`.

    Parameters
    ----------
    h : int
        The step factor.

    Returns
    -------
    float
        In units of `sigma sqrt(m / epsilon)`.
    """
    return math.sqrt(h / RING)


def time_unit(sigma: float, epsilon: float, mass: float) -> float:
    """The unit of time, `sigma sqrt(m / epsilon)`.

    Parameters
    ----------
    sigma : float
        In angstrom.
    epsilon : float
        In electronvolt.
    mass : float
        In dalton.

    Returns
    -------
    float
        In femtoseconds.
    """
    return sigma * math.sqrt(mass / (epsilon * _SPEED_SQUARED))


def step_factor(dt: float, sigma: float, epsilon: float, mass: float) -> int:
    """The step factor nearest to a time step.

    Parameters
    ----------
    dt : float
        The time step in femtoseconds.
    sigma, epsilon, mass : float
        As in `time_unit`.

    Returns
    -------
    int
        The step factor h.

    Raises
    ------
    ValueError
        If a value is not above 0, or h is not from 1 to 16777216.
    """
    for name, value in (("dt", dt), ("sigma", sigma), ("epsilon", epsilon), ("mass", mass)):
        _checked_positive(name, value)
    unit = time_unit(sigma, epsilon, mass)
    h = round(min((dt / unit) ** 2 * RING, 2.0 * MAX_STEP_FACTOR))
    if not 1 <= h <= MAX_STEP_FACTOR:
        shortest, longest = unit * reduced_time_step(1), unit * reduced_time_step(MAX_STEP_FACTOR)
        raise ValueError(f"dt must be from {shortest:.3g} to {longest:.3g} fs for these atoms, got {dt:g} fs")
    return h


def edge_of_density(atoms: int, density: float, *, sigma: float = 1.0, mass: Optional[float] = None) -> float:
    """The edge of the cubic box for a number of atoms and a density.

    Parameters
    ----------
    atoms : int
        The number of atoms.
    density : float
        Atoms per sigma^3; or, with a mass, grams per cubic centimetre.
    sigma : float, optional
        The length sigma of the potential.
    mass : float, optional
        The mass of an atom in dalton.

    Returns
    -------
    float
        The edge in the unit of sigma, or with a mass in angstrom.
    """
    if whole_of(atoms, "the number of atoms") < 1:
        raise ValueError(f"the number of atoms must be at least 1, got {atoms}")
    _checked_positive("density", density)
    if mass is None:
        return float(_checked_positive("sigma", sigma) * (atoms / density) ** (1 / 3))
    if sigma != 1.0:
        raise ValueError(f"sigma must be left out beside mass, got {sigma!r}; use mass= for g/cm^3, or sigma= for atoms in sigma^3")
    return float((atoms * _checked_positive("mass", mass) * GRAMS_IN_DALTON / (density * CUBIC_ANGSTROM)) ** (1 / 3))


@dataclass(frozen=True)
class Scale:
    """The scale of a session: what its whole numbers mean. In a mixture, each class has one.

    Attributes
    ----------
    edge : float
        The edge of the box, in the unit of the file (angstrom if epsilon is known).
    sigma : float
        The distance sigma, in the same unit.
    h : int
        The step factor: `dt^2 epsilon / (m sigma^2)` in units of 2^-32.
    epsilon : float or None
        The depth of the potential in electronvolt, if it is known.
    mass : float or None
        The mass of an atom in dalton, if it is known.
    sigma_on_ring : int
        Sigma in ring units (edge / 2^32).
    weight : int
        The factor of all energies, in 256ths: 256 if all atoms are alike.
    """

    edge: float
    sigma: float
    h: int
    epsilon: Optional[float] = None
    mass: Optional[float] = None
    sigma_on_ring: int = 0
    weight: int = FULL_WEIGHT

    @staticmethod
    def of(
        edge: Number,
        sigma: Number,
        h: Optional[int] = None,
        *,
        epsilon: Optional[float] = None,
        mass: Optional[float] = None,
        dt: Optional[float] = None,
        weight: int = FULL_WEIGHT,
    ) -> "Scale":
        """The scale for a given h, or for epsilon, mass and dt with h as the nearest whole number."""
        if (h is None) == (dt is None):
            raise ValueError(f"h or dt must be given, and not both, got h={h!r} and dt={dt!r}; use h=, or dt= with epsilon= and mass=")
        _checked_length("edge", edge)
        _checked_length("sigma", sigma)
        epsilon = None if epsilon is None else _real_of("epsilon", epsilon)
        mass = None if mass is None else _real_of("mass", mass)
        if h is None:
            if epsilon is None or mass is None or dt is None:
                raise ValueError(
                    f"epsilon and mass must be given with dt, got {epsilon} and {mass}; use epsilon= (electronvolt) and mass= (dalton)"
                )
            h = step_factor(dt, _plain_float(sigma), epsilon, mass)
        try:
            on_ring = _nano(sigma) * RING // _nano(edge)
        except (InvalidOperation, ValueError, ZeroDivisionError, OverflowError):
            on_ring = 0
        floats = _plain_float(edge), _plain_float(sigma)
        return Scale(*floats, whole_of(h, "the step factor h"), epsilon, mass, on_ring, whole_of(weight, "weight"))

    @property
    def reduced_dt(self) -> float:
        """The time step in units of `sigma sqrt(m / epsilon)`."""
        return reduced_time_step(self.h)

    @property
    def dt(self) -> Optional[float]:
        """The time step in femtoseconds that belongs to the rounded h; None without epsilon and mass."""
        if self.epsilon is None or self.mass is None:
            return None
        return self.reduced_dt * time_unit(self.sigma, self.epsilon, self.mass)

    @property
    def temperature_unit(self) -> float:
        """The unit of temperatures: `epsilon / k_B` in kelvin, or 1 without epsilon, since temperatures are then in it."""
        return 1.0 if self.epsilon is None else self.epsilon / kelvin

    def time(self, step: int) -> float:
        """The time of a step.

        Parameters
        ----------
        step : int
            The step number.

        Returns
        -------
        float
            In femtoseconds with epsilon and mass, else in units of `sigma sqrt(m / epsilon)`.
        """
        return step * (self.reduced_dt if self.dt is None else self.dt)

    def force(self, push: float) -> float:
        """The force that pushes an atom by this many ring units in a step.

        Parameters
        ----------
        push : float
            In ring units: `dt^2 / m` times the force.

        Returns
        -------
        float
            In electronvolt / angstrom with epsilon, else in epsilon / unit of the file: `push * 2^32 / (sigma_on_ring h)` epsilon / sigma.
        """
        return push * RING / (self.sigma_on_ring * self.h) / self.sigma * (1.0 if self.epsilon is None else self.epsilon)

    def potential_energy(self, potential: int) -> float:
        """The potential energy of `Measurement.potential`.

        Parameters
        ----------
        potential : int
            In units of 2^-24 epsilon.

        Returns
        -------
        float
            In epsilon.
        """
        return potential * FULL_WEIGHT / (POTENTIAL_UNIT * self.weight)

    def kinetic_energy(self, kinetic_number: int) -> float:
        """The kinetic energy of a kinetic number.

        Parameters
        ----------
        kinetic_number : int
            The sum of the squares of all displacements, in ring units per step.

        Returns
        -------
        float
            In epsilon.
        """
        return kinetic_number * RING / (2 * self.sigma_on_ring**2 * self.h)

    def kinetic_number(self, kinetic_energy: float) -> float:
        """The kinetic number of a kinetic energy.

        Parameters
        ----------
        kinetic_energy : float
            In epsilon.

        Returns
        -------
        float
            The sum of the squares of all displacements, in ring units per step.
        """
        return kinetic_energy * 2 * self.sigma_on_ring**2 * self.h / RING


_OLD_NAMES = {"checked_positive": _checked_positive, "nano": _nano, "plain_float": _plain_float, "word": _word}

if not TYPE_CHECKING:

    def __getattr__(name: str) -> Any:
        """A function of 1.1.0 that is no longer public."""
        if name not in _OLD_NAMES:
            raise AttributeError(f"module {__name__!r} has no attribute {name!r}")
        _warn(f"units.{name}")
        return _OLD_NAMES[name]
