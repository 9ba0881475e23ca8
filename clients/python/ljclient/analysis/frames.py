"""The input of an analysis: a frame of atoms in a periodic cubic box, from a session or any other source."""
from __future__ import annotations

from dataclasses import dataclass, field
from typing import TYPE_CHECKING, Any, Dict, Optional, Sequence, Union

from .. import scalars, units as physical
from ..arrays import FloatArray, IntArray
from ..pressure import Composition, tensor_of_frames
from ..snapshots import Snapshot
from ..tails import energy_tail, pressure_tail
from ..units import RING, Scale
from .library import numpy

if TYPE_CHECKING:
    from ..session import Session


@dataclass(frozen=True)
class Units:
    """The names of the units of a frame, and conversion factors for products of units.

    Parameters
    ----------
    length, time, energy, temperature, pressure, viscosity : str
        Names of units, such as "angstrom", "fs", "eV", "K", "bar" and "mPa s".
    boltzmann : float
        Boltzmann's constant, in units of energy per unit of temperature.
    pressure_size : float
        The unit of pressure, in units of energy per cube of the unit of length.
    viscosity_size : float
        The unit of viscosity, in units of energy times time per cube of the unit of length.
    """

    length: str = "sigma"
    time: str = "sigma sqrt(m / epsilon)"
    energy: str = "epsilon"
    temperature: str = "epsilon / k_B"
    pressure: str = "epsilon / sigma^3"
    viscosity: str = "sqrt(m epsilon) / sigma^2"
    boltzmann: float = 1.0
    pressure_size: float = 1.0
    viscosity_size: float = 1.0

    @property
    def diffusion(self) -> str:
        """The name of the unit of a diffusion coefficient."""
        return "sigma sqrt(epsilon / m)" if self.length == "sigma" else f"{self.length}^2 / {_in_brackets(self.time)}"

    @property
    def square_velocity(self) -> str:
        """The name of the square of the unit of velocity."""
        return "epsilon / m" if self.length == "sigma" else f"({self.length} / {_in_brackets(self.time)})^2"

    @property
    def frequency(self) -> str:
        """The name of the unit of frequency: cycles per unit of time."""
        return f"1 / {_in_brackets(self.time)}"


def _in_brackets(unit: str) -> str:
    """A unit as a factor or divisor: in brackets if it has a space."""
    return f"({unit})" if " " in unit else unit


REDUCED = Units()
"""The units of Lennard-Jones atoms: sigma, epsilon and the mass of an atom are 1."""
# A mPa s is 10^-3 kg / (m s), and an electronvolt fs / angstrom^3 is 1.602176634e-19 J 10^-15 s over 10^-30 m^3.
METAL = Units("angstrom", "fs", "eV", "K", "bar", "mPa s", physical.kelvin, physical.bar, 1e-3 / 1.602176634e-4)
"""Angstrom, femtosecond, electronvolt, kelvin, bar and mPa s."""


def units_of(scale: Scale) -> Units:
    """The units of a session of this scale: physical units if epsilon and mass are known, else units of its first class. With epsilon
    alone, temperatures are in kelvin."""
    if scale.dt is not None:
        return METAL
    length = "sigma" if scale.sigma == 1 else "unit of the file"
    temperature = "epsilon / k_B" if scale.epsilon is None else "K"
    boltzmann = 1.0 if scale.epsilon is None else physical.kelvin / scale.epsilon
    # Session.pressure is in epsilon / sigma^3, whatever the unit of the file.
    cube = scale.sigma**-3
    return Units(length=length, temperature=temperature, boltzmann=boltzmann, pressure_size=cube, viscosity_size=cube)


@dataclass(frozen=True)
class Frame:
    """Atoms at an instant, in a periodic cubic box. `Frame.of` makes a frame from positions.

    Parameters
    ----------
    places : array of shape (atoms, 3)
        The places of the atoms in ring units: whole multiples of 2^-32 of the edge.
    edge : float
        The edge of the box, in the unit of length.
    time : float
        The time, in the unit of time. Analyses that compare frames need them at equal intervals.
    species : tuple of str
        The symbol of each atom. Without symbols all atoms are alike.
    velocities : array of shape (atoms, 3), optional
        In units of length per unit of time.
    stress : array of shape (3, 3), optional
        The stress, which is the negative of the pressure tensor, in the unit of pressure.
    energies : dict of str to float
        The energies of all atoms in the unit of energy, as `kinetic` and `potential`, and the temperature in its unit, as
        `temperature`.
    tails : dict of str to float
        The tail corrections of potential energy and pressure, as `potential` and `pressure`, in the same units.
    units : Units
        The names of the units.

    Examples
    --------
    >>> from ljclient.analysis import Frame
    >>> frame = Frame.of([(0.5, 0, 0), (9.5, 0, 0)], edge=10)
    >>> print(frame.atoms, frame.positions.round(6).tolist())
    2 [[0.5, 0.0, 0.0], [9.5, 0.0, 0.0]]
    """

    places: IntArray
    edge: float
    time: float = 0.0
    species: Sequence[str] = ()
    velocities: Optional[FloatArray] = None
    stress: Optional[FloatArray] = None
    energies: Dict[str, float] = field(default_factory=dict)
    tails: Dict[str, float] = field(default_factory=dict)
    units: Units = REDUCED

    @staticmethod
    def of(positions: Any, edge: float, **words: Any) -> "Frame":
        """The frame of positions, which may be outside the box.

        Parameters
        ----------
        positions : array of shape (atoms, 3)
            In the unit of length.
        edge : float
            The edge of the box, in the same unit.
        **words
            The other parameters of `Frame`.

        Raises
        ------
        ValueError
            If `positions` is not an array of finite numbers of this shape, or `edge` is not above 0.
        """
        rows = numpy.asarray(positions, dtype=float)
        if rows.ndim != 2 or rows.shape[1] != 3 or not numpy.isfinite(rows).all():
            raise ValueError(f"positions must be finite numbers of shape (atoms, 3), got shape {rows.shape}")
        size = scalars.checked_positive("edge", edge)
        return Frame(numpy.rint(rows / size % 1.0 * RING).astype(numpy.int64) % RING, size, **words)

    @property
    def atoms(self) -> int:
        """The number of atoms."""
        return len(self.places)

    @property
    def positions(self) -> FloatArray:
        """The positions in the unit of length, from 0 up to the edge: an array of shape (atoms, 3)."""
        positions: FloatArray = self.places * self.edge / RING
        return positions

    @property
    def density(self) -> float:
        """The number of atoms per cube of the unit of length."""
        return float(self.atoms / self.edge**3)


def species_of(atoms: Composition) -> Sequence[str]:
    """The symbol of each atom, or no symbols if all atoms are alike."""
    return [atoms.species[bool(second)] for second in atoms.seconds]


def frame_of(snapshot: Snapshot, with_stress: bool = True) -> Frame:
    """The frame of a snapshot of a session.

    Parameters
    ----------
    snapshot : Snapshot
        A snapshot from `Session.frames`.
    with_stress : bool, optional
        Whether the frame has its stress.

    Returns
    -------
    Frame
        The frame, in the units of the session.
    """
    scale, atoms, units = snapshot.scale, snapshot.atoms, units_of(snapshot.scale)
    # Energies are in epsilon of the first class, and the pressure is in this epsilon over sigma^3.
    unit = 1.0 if scale.dt is None or scale.epsilon is None else scale.epsilon
    size = 1.0 if scale.dt is None else unit / scale.sigma**3 / physical.bar
    row, count = snapshot.energies, len(snapshot.places)
    return Frame(
        places=snapshot.places,
        edge=float(scale.edge),
        time=snapshot.time,
        species=species_of(atoms),
        velocities=snapshot.velocities,
        stress=-size * tensor_of_frames(snapshot.three, atoms) if with_stress else None,
        energies={"kinetic": row.kinetic * unit, "potential": row.potential * unit, "temperature": row.temperature},
        tails={"potential": energy_tail(atoms, count) * unit, "pressure": pressure_tail(atoms, count) * size},
        units=units,
    )


def position_frame(session: "Session", species: Sequence[str]) -> Frame:
    """The present frame of a session, with positions only, read by one command."""
    (step,), (positions,) = session.sample(every=1, frames=1)
    return Frame.of(positions, session.edge, time=session.scale.time(step), species=species, units=units_of(session.scale))


Source = Union[Frame, Snapshot]
