"""Atoms of MDAnalysis as a source, with the methods of ASE's `Atoms`."""
from __future__ import annotations

from typing import Any, List, Optional, Sequence

from .ase_bridge import TIME_UNIT
from .names import shortened

PICOSECOND = 1000.0


class GroupAtoms:
    """An `AtomGroup` or a `Universe` of MDAnalysis at its present frame. Its box is from `dimensions`. Its symbols are from
    `elements`, else `types`, else `names`, if it has them. Its velocities are in angstrom / ps."""

    def __init__(self, group: Any):
        self._group = group

    def get_chemical_symbols(self) -> List[str]:
        for attribute in ("elements", "types", "names"):
            words = [str(word) for word in getattr(self._group, attribute, [])]
            if words and all(words):
                return words
        return []

    def get_positions(self) -> List[List[float]]:
        return [list(map(float, place)) for place in self._group.positions]

    def get_cell(self) -> List[List[float]]:
        """The cell. Raises ValueError if the frame has no box, or one that is not rectangular."""
        sides: Optional[Sequence[float]] = self._group.dimensions
        if sides is None or any(abs(float(angle) - 90) > 1e-3 for angle in sides[3:]):
            raise ValueError(f"the box of the atoms must be along the axes, got {shortened(sides)}; use edge=")
        return [[float(sides[axis]) * (axis == other) for axis in range(3)] for other in range(3)]

    def get_velocities(self) -> Optional[List[List[float]]]:
        """The velocities in the units of ASE; None if the frame has none."""
        if not self._group.universe.trajectory.ts.has_velocities:
            return None
        return [[float(part) * TIME_UNIT / PICOSECOND for part in velocity] for velocity in self._group.velocities]


def adapted(source: Any) -> Any:
    """Atoms of MDAnalysis as `GroupAtoms`, and any other source unchanged."""
    if all(hasattr(source, name) for name in ("atoms", "universe", "dimensions")):
        return GroupAtoms(source.atoms)
    return source
