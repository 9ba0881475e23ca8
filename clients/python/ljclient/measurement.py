"""The numbers of a measurement of a session, and the physical quantities that follow from them."""
from __future__ import annotations

from dataclasses import dataclass, field
from typing import Optional, Sequence, Tuple

from .replies import whole_numbers
from .units import POTENTIAL_UNIT, Scale


@dataclass(frozen=True)
class Measurement:
    """The result of `Session.measure`.

    Displacements are from the step before to this step, so the kinetic energy is the value half a step ago. The potential energy is
    the value at this step. For a mixture, epsilon is the epsilon of its first class.

    Attributes
    ----------
    step : int
        The step number.
    atoms : int
        The number of atoms.
    momentum : tuple of int
        Along x, y and z: the sum of the displacements of the last step, in ring units (edge / 2^32) per step.
    kinetic : int
        The kinetic number: the sum of the squares of these displacements, in square ring units.
    potential : int
        The potential in units of 2^-24 epsilon.
    scale : Scale or None
        The scale of the session's whole numbers, if the client knows it.
    """

    step: int
    atoms: int
    momentum: Tuple[int, int, int]
    kinetic: int
    potential: int
    scale: Optional[Scale] = field(default=None, repr=False, compare=False)

    @staticmethod
    def of(words: Sequence[str], scale: Optional[Scale]) -> "Measurement":
        """The measurement from the words of a reply after the name of the session."""
        step, atoms, x, y, z, kinetic, potential = whole_numbers(words, 7)
        return Measurement(step, atoms, (x, y, z), kinetic, potential, scale)

    @property
    def potential_energy(self) -> float:
        """The potential energy in epsilon."""
        return self.potential / POTENTIAL_UNIT if self.scale is None else self.scale.potential_energy(self.potential)

    @property
    def kinetic_energy(self) -> float:
        """The kinetic energy in epsilon."""
        return known(self.scale).kinetic_energy(self.kinetic)

    @property
    def total_energy(self) -> float:
        """Potential and kinetic energy together, in epsilon."""
        return self.potential_energy + self.kinetic_energy

    @property
    def temperature(self) -> float:
        """Two thirds of the kinetic energy of an atom: in kelvin if epsilon is known, else in epsilon / k_B."""
        return self.temperature_at(self.kinetic_energy)

    def temperature_at(self, kinetic_energy: float) -> float:
        """The temperature that these atoms would have at another kinetic energy.

        Parameters
        ----------
        kinetic_energy : float
            In epsilon.

        Returns
        -------
        float
            In kelvin if epsilon is known, else in epsilon / k_B.
        """
        return known(self.scale).temperature_unit * 2 * kinetic_energy / (3 * self.atoms)

    def in_electronvolt(self, energy: float) -> float:
        """An energy in electronvolt.

        Parameters
        ----------
        energy : float
            In epsilon, such as `potential_energy`.

        Returns
        -------
        float
            In electronvolt.

        Raises
        ------
        ValueError
            If epsilon is not known.
        """
        epsilon = known(self.scale).epsilon
        if epsilon is None:
            raise ValueError("epsilon must be known, got None; use epsilon= (in electronvolt) where the session is loaded")
        return energy * epsilon


def known(scale: Optional[Scale]) -> Scale:
    """The scale, if it is known. Raises ValueError if it is not."""
    if scale is None:
        raise ValueError("the scale of the session must be known, got None; use user.session(name, edge=.., sigma=.., h=..)")
    return scale
