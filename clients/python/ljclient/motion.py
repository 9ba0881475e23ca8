"""The motion with which atoms are loaded: velocities, rounded to whole displacements per step."""
from __future__ import annotations

from dataclasses import dataclass, field
from typing import Any, Callable, List, Optional, Sequence, Tuple

from . import ase_bridge, columns
from .renamed import Renamed
from .scalars import checked_positive
from .units import RING, Scale

HALF = RING // 2
Displacement = Tuple[int, int, int]
TAKEN_AWAY = "atoms.set_momenta(None) takes velocities away"


@dataclass(frozen=True)
class Motion:
    """The velocities with which atoms were loaded, and how far they were rounded. `str` shows both in a line.

    Attributes
    ----------
    unit : float
        One ring unit (edge / 2^32) per step, in angstrom per femtosecond. Velocities are whole multiples of it.
    largest_error : float
        The largest rounding error of a velocity along an axis, in angstrom per femtosecond.
    displacements : tuple of tuple of int
        For each atom the displacement along x, y and z, in ring units per step.
    """

    unit: float
    largest_error: float
    displacements: Tuple[Displacement, ...] = field(repr=False)

    @staticmethod
    def of(velocities: Sequence[Sequence[float]], scale: Scale, rest: str = TAKEN_AWAY) -> "Motion":
        """The motion for these velocities, in angstrom per femtosecond. Raises ValueError if the time step is not known.

        rest  the part of the error that states how to load these atoms at rest
        """
        if scale.dt is None:
            raise ValueError(f"epsilon and mass must be given for atoms with velocities, got none; use epsilon= and mass=, or {rest}")
        unit = checked_positive("edge", scale.edge) / (RING * checked_positive("dt", scale.dt))
        wanted = [[part / unit for part in velocity] for velocity in velocities]
        rounded = tuple(_rounded(atom, parts) for atom, parts in enumerate(wanted))
        errors = (abs(exact - whole) for pair in zip(wanted, rounded) for exact, whole in zip(*pair))
        return Motion(unit, unit * max(errors, default=0.0), rounded)

    def __str__(self) -> str:
        return (
            f"{len(self.displacements)} velocities, rounded to multiples of {self.unit:.3g} angstrom / fs: "
            f"off by {self.largest_error:.3g} at most along an axis"
        )

    def _tugs(self, name: str) -> List[str]:
        moving = ((atom, moved) for atom, moved in enumerate(self.displacements) if any(moved))
        return [f"TUG {name} {atom} {x} {y} {z}" for atom, (x, y, z) in moving]

    tugs = Renamed[Callable[[str], List[str]]]("_tugs", "Session.tug(atom, displacement)")


def motion_of(source: Any, body: bytes, scale: Scale) -> Optional[Motion]:
    """The motion that a source contains: `Atoms` of ASE with velocities, or extended XYZ text with a column of velocities.

    None for atoms at rest.
    """
    if ase_bridge.is_atoms(source):
        velocities = ase_bridge.velocities_of(source)
        return None if velocities is None else Motion.of(velocities, scale)
    told = columns.velocities_of(body, scale.mass or 1.0)
    if told is None:
        return None
    return Motion.of(told.values, scale, f"before= with the same text, without its column {told.column}, for atoms at rest")


def _rounded(atom: int, parts: Sequence[float]) -> Displacement:
    """The nearest whole displacement. Raises ValueError unless it is below half the box."""
    if not all(abs(part) < HALF - 1 for part in parts):
        raise ValueError(f"the velocity of atom {atom} must be below half the box in a step; use a shorter time step")
    x, y, z = [round(part) for part in parts]
    return x, y, z
