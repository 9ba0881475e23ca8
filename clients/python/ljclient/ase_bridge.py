"""Conversion between sessions and ASE's `Atoms`, if ASE is installed."""
from __future__ import annotations

import importlib
from typing import Any, Dict, List, Optional, Sequence

from . import arrays
from .elements import Replacements, replaced, wanted
from .names import shortened
from .reading import Places
from .units import RING, Scale, time_unit

TIME_UNIT = time_unit(1.0, 1.0, 1.0)
"""The unit of time of ASE in femtoseconds: `angstrom sqrt(dalton / electronvolt)`."""
TWO_SPECIES = "of two species species=, first= and second= (sigma, epsilon), and mixed="


def potential_of(said: Dict[str, Any]) -> Dict[str, Any]:
    """The given arguments of the potential, for one species or for two. Raises ValueError if they fit neither."""
    words = {name: value for name, value in said.items() if value is not None}
    two = {"species", "first", "second"}
    if words.keys() != {"sigma", "epsilon"} and not two <= words.keys() <= {*two, "mixed"}:
        raise ValueError(
            f"sigma and epsilon must be given together, got {', '.join(words) or 'none of them'}; use sigma= and epsilon=, or {TWO_SPECIES}"
        )
    return words


def is_atoms(source: Any) -> bool:
    """Whether this is an `Atoms` of ASE, or has the same methods."""
    return all(hasattr(source, name) for name in ("get_chemical_symbols", "get_positions", "get_cell"))


def edge_of(atoms: Any) -> float:
    """The edge of the cubic cell of an `Atoms`, in angstrom."""
    cell = [[float(part) for part in row] for row in atoms.get_cell()]
    edge = cell[0][0]
    if not all(abs(cell[i][j] - edge * (i == j)) <= 1e-9 * abs(edge) for i in range(3) for j in range(3)) or edge <= 0:
        raise ValueError(f"the cell of the atoms must be cubic, got {shortened(cell)}; use edge=")
    return edge


def velocities_of(atoms: Any) -> Optional[List[List[float]]]:
    """The velocities of an `Atoms`, in angstrom per femtosecond. None if all its atoms are at rest."""
    read = getattr(atoms, "get_velocities", None)
    told = None if read is None else read()
    velocities = [] if told is None else [[float(part) / TIME_UNIT for part in velocity] for velocity in told]
    return velocities if any(map(any, velocities)) else None


def elements_of(symbols: Sequence[str], species: Sequence[str], replacements: Optional[Replacements]) -> List[str]:
    """The element of each atom: its symbol, or the replacement of its symbol.

    Raises ValueError if ASE does not know one of them. Without replacements, ASE must know all symbols and all species:
    beside a species A, B is not boron.
    """
    elements = importlib.import_module("ase.data").atomic_numbers
    names = list(symbols) if replacements is None else replaced(symbols, replacements)
    unknown = sorted({*names, *(species if replacements is None else ())} - set(elements))
    if unknown and replacements is None:
        named = {*symbols, *species}
        raise ValueError(
            f"a symbol must be an element of ASE, got {unknown[0]!r}; use {wanted(named)}, with an element for each symbol of the session"
        )
    if unknown:
        raise ValueError(f"symbols= must give elements of ASE, such as 'Ar', got {unknown[0]!r}")
    return names


def atoms_of(symbols: Sequence[str], now: Places, before: Places, scale: Scale) -> Any:
    """A frame as an `Atoms`: positions in the unit of the file, in a periodic cubic cell.

    Its step and time are in `info`. With epsilon and mass it has the mass of each atom, and the momenta of the step from the
    frame before to this one.
    """
    moved = arrays.least_images(now.places, before.places)
    velocities = arrays.scaled(moved, scale.edge / (RING * scale.time(1)))
    return made(symbols, arrays.of_positions(now.places, scale.edge), velocities, now.step, scale)


def made(symbols: Sequence[str], positions: Any, velocities: Any, step: int, scale: Scale) -> Any:
    """An `Atoms` of a step, from positions in the unit of the file and velocities in this unit per unit of time.

    It has masses and momenta if epsilon and mass are known.
    """
    ase = importlib.import_module("ase")
    info = {"step": step, "time": scale.time(step)}
    atoms = ase.Atoms(symbols=symbols, positions=positions, cell=[scale.edge] * 3, pbc=True, info=info)
    if scale.dt is not None:
        atoms.set_masses([scale.mass] * len(symbols))
        atoms.set_velocities(arrays.scaled(velocities, TIME_UNIT))
    return atoms
