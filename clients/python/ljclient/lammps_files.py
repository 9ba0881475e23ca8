"""Files of LAMMPS: dumps of frames (.lammpstrj), written here as text, and data files, handled by ASE."""
from __future__ import annotations

import io
from typing import TYPE_CHECKING, Any, Dict, List, Optional, Sequence, Union

from . import arrays, ase_bridge, optional
from .elements import Replacements
from .files import Path
from .snapshots import Snapshot

if TYPE_CHECKING:
    from .session import Session

__all__ = ["read_lammps_data", "write_lammps_data"]

WHY = "a data file of LAMMPS needs"
UNITS = ("lj", "metal", "real", "si", "cgs", "electron", "micro", "nano")


class DumpFile:
    """A dump of LAMMPS: positions and velocities as text, each atom with its type from 1 on and its symbol.

    Numbers are in the units of the session: LAMMPS's `real` units if epsilon and mass are known, else `lj` units if sigma is 1.
    """

    def __init__(self, path: Path, types: Dict[str, int], symbols: List[str], append: bool, unwrap: bool):
        self._heads = [f"{types[symbol]} {symbol}" for symbol in symbols]
        self._columns = "xu yu zu" if unwrap else "x y z"
        self._file = open(path, "a" if append else "w", encoding="ascii", newline="\n")

    def write(self, frame: Snapshot, positions: Any) -> None:
        rows = zip(self._heads, arrays.listed(positions), arrays.listed(frame.velocities))
        lines = ["%d %s %.6f %.6f %.6f %.9g %.9g %.9g\n" % (atom, head, *x, *v) for atom, (head, x, v) in enumerate(rows, 1)]
        sides = f"0 {frame.scale.edge!r}\n" * 3
        heads = f"ITEM: TIMESTEP\n{frame.step}\nITEM: NUMBER OF ATOMS\n{len(lines)}\nITEM: BOX BOUNDS pp pp pp\n{sides}"
        self._file.write(f"{heads}ITEM: ATOMS id type element {self._columns} vx vy vz\n{''.join(lines)}")
        self._file.flush()

    def close(self) -> None:
        self._file.close()


def types_of(symbols: Sequence[str]) -> Dict[str, int]:
    """The type of each symbol, from 1 on in the order of first appearance."""
    return {symbol: number for number, symbol in enumerate(dict.fromkeys(symbols), 1)}


def read_lammps_data(path: Path, symbols: Union[str, Sequence[str]], *, units: str = "metal", atom_style: str = "atomic") -> Any:
    """The atoms of a data file of LAMMPS, read by ASE, as a source of `User.load` and `User.load_mix`.

    Parameters
    ----------
    path : str or os.PathLike
        The file.
    symbols : str or sequence of str
        The element of the only type, or of each type from 1 on.
    units : str, optional
        The units of the file, by their LAMMPS name. With "lj", lengths are in sigma, and velocities are used if the session is loaded
        with `sigma=1, epsilon=1, mass=1`.
    atom_style : str, optional
        The atom style of the file, such as "atomic", "charge" or "full".

    Returns
    -------
    ase.Atoms
        The atoms in the order of their numbers, in a periodic cell, with velocities if the file has them.

    Raises
    ------
    ValueError
        If a symbol is not an element, a type has no symbol, or the units are unknown.
    """
    is_reduced = _checked_units(units) == "lj"
    names = [symbols] if isinstance(symbols, str) else list(symbols)
    elements = ase_bridge.elements_of(names, (), None)
    numbers = optional.ase("ase.data", WHY).atomic_numbers
    with open(path, encoding="utf-8") as file:
        atoms = optional.ase("ase.io.lammpsdata", WHY).read_lammps_data(
            file,
            Z_of_type=_Types({number: numbers[name] for number, name in enumerate(elements, 1)}),
            style=atom_style,
            sort_by_id=True,
            units="metal" if is_reduced else units,
        )
    atoms.pbc = True
    if is_reduced:
        velocities = atoms.get_velocities() / _metal()
        atoms.set_masses([1.0] * len(atoms))
        atoms.set_velocities(velocities)
    return atoms


def write_lammps_data(session: "Session", path: Path, *, units: Optional[str] = None, symbols: Optional[Replacements] = None) -> None:
    """Writes the frame as a data file of LAMMPS, by ASE: box, masses, positions and velocities, in the atom style "atomic".

    Parameters
    ----------
    session : Session
        A session whose scale is known.
    path : str or os.PathLike
        The file, which is replaced if it exists.
    units : str, optional
        The units, by their LAMMPS name. The default is "metal" if epsilon and mass are known, else "lj", with lengths in sigma and
        velocities in `sqrt(epsilon / m)`.
    symbols : dict, optional
        The element that replaces each symbol of the session, as in `Session.to_ase`. Types have the order of the mixture's species.

    Raises
    ------
    ValueError
        If the units are unknown, if they are not "lj" although epsilon and mass are not known, or if a symbol is not an element.
    """
    scale, own = session.scale, session.symbols()
    units = _checked_units(("lj" if scale.dt is None else "metal") if units is None else units)
    if units != "lj" and scale.dt is None:
        raise ValueError(f"units must be 'lj' where epsilon and mass are not known, got {units!r}")
    species = session.mixture.species if session.mixture else ()
    kinds = list(dict.fromkeys(ase_bridge.elements_of(list(species) or own, species, symbols)))
    elements, frame = ase_bridge.elements_of(own, species, symbols), next(session.frames([0]))
    atoms = ase_bridge.made(elements, frame.positions, frame.velocities, frame.step, scale)
    masses = [scale.mass or 1.0] * len(kinds)
    if units == "lj":
        # A frame has them in the unit of the file, per femtosecond or unit of time. LAMMPS needs them in sigma per unit of time.
        speeds = arrays.scaled(frame.velocities, scale.time(1) / scale.reduced_dt / scale.sigma * _metal())
        atoms.set_masses([1.0] * len(own))
        atoms.set_cell([scale.edge / scale.sigma] * 3, scale_atoms=True)
        atoms.set_velocities(speeds)
        masses = [1.0] * len(kinds)
    text = _text_of(atoms, kinds, masses, "metal" if units == "lj" else units)
    with open(path, "w", encoding="ascii", newline="\n") as file:
        file.write(text)


def _text_of(atoms: Any, kinds: List[str], masses: List[float], units: str) -> str:
    """A data file as ASE writes it, with the masses of its types added."""
    file = io.StringIO()
    library = optional.ase("ase.io.lammpsdata", WHY)
    library.write_lammps_data(file, atoms, specorder=kinds, velocities=True, units=units, atom_style="atomic")
    convert = optional.ase("ase.calculators.lammps", WHY).convert
    rows = "".join(f"{number} {float(convert(mass, 'mass', 'ASE', units))!r}\n" for number, mass in enumerate(masses, 1))
    head, mark, rest = file.getvalue().partition("Atoms ")
    return f"{head}Masses\n\n{rows}\n{mark}# atomic{rest}"


def _metal() -> float:
    """A velocity of 1 in `metal` units, converted to ASE's."""
    return float(optional.ase("ase.calculators.lammps", WHY).convert(1.0, "velocity", "metal", "ASE"))


def _checked_units(units: str) -> str:
    if units not in UNITS:
        raise ValueError(f"units must be one of {', '.join(UNITS)}, got {units!r}")
    return units


class _Types(Dict[int, int]):
    """The atomic number of each type. Raises ValueError for a type without one."""

    def __missing__(self, number: int) -> int:
        raise ValueError(f"symbols must have one for each type of the file, got {len(self)} and type {number}; use a list from type 1 on")
