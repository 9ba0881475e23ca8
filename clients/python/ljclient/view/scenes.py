"""What a page can show: the atoms of a file, or a crystal, with their scale and first temperature."""
from __future__ import annotations

import dataclasses
import itertools
import math
import os
from dataclasses import dataclass
from decimal import Decimal
from typing import Callable, List, Optional

from .. import Scale, Session, User, heating, xyz
from ..columns import without_columns
from ..units import MAX_STEP_FACTOR, RING
from .wishes import Answer, Wish, real_in, shown

# With this edge a ring unit is a millionth, the last digit of DUMP, so a frame has the places themselves.
EXACT_EDGE = "4294.967296"
MILLION = 10**6
DENSITY = 0.8442
# Cells of the crystal along each axis. With fewer, the box would not be five sigma wide; with more, there would be too many atoms.
CELLS, FEWEST_CELLS, MOST_CELLS = 4, 3, 10
FACES = ((0.0, 0.0, 0.0), (0.5, 0.5, 0.0), (0.5, 0.0, 0.5), (0.0, 0.5, 0.5))


@dataclass(frozen=True)
class Scene:
    """Atoms and how they begin.

    title        its title on a page
    body         the atoms as XYZ text
    scale        what whole numbers mean
    temperature  of the first velocities: in kelvin if epsilon is known, else in epsilon / k_B. With 0 the atoms are at rest
    seed         of the random numbers for these velocities
    is_crystal   whether it is the crystal, whose number of atoms may be changed
    """

    title: str
    body: bytes
    scale: Scale
    temperature: float = 0.0
    seed: int = 1
    is_crystal: bool = False

    @property
    def atoms(self) -> int:
        """The number of atoms, from the first word of the body. 0 if that is not a number; the program refuses the body then."""
        words = self.body.split(None, 1)
        return int(words[0]) if words and words[0].isdigit() else 0

    @property
    def dt(self) -> float:
        """The time step, in femtoseconds if epsilon and mass are known, else in `sigma sqrt(m / epsilon)`."""
        return self.scale.reduced_dt if self.scale.dt is None else self.scale.dt

    def settings(self) -> Answer:
        """The present settings, with which a page can begin again, and the numbers of atoms to choose from."""
        sizes = [len(FACES) * cells**3 for cells in range(FEWEST_CELLS, MOST_CELLS + 1)] if self.is_crystal else [self.atoms]
        return {"temperature": self.temperature, "dt": self.dt, "atoms": self.atoms, "sizes": sizes}

    def changed(self, wish: Wish) -> "Scene":
        """The scene with the temperature, the time step and the number of atoms of a wish, as far as it has them.

        Raises ValueError for a temperature below 0 or at which an atom would move by half the box in a step, for a time step
        without a step factor, and for a number of atoms that no crystal has.
        """
        scene = self
        if self.is_crystal and "atoms" in wish and wish["atoms"] != self.atoms:
            cells = round((real_in(wish, "atoms") / len(FACES)) ** (1 / 3))
            if not FEWEST_CELLS <= cells <= MOST_CELLS or len(FACES) * cells**3 != wish["atoms"]:
                raise ValueError(
                    f"atoms must be 4 n^3 for a crystal, with n from {FEWEST_CELLS} to {MOST_CELLS}, got {shown(wish['atoms'])}"
                )
            scene = crystal(self.scale.h, self.temperature, self.seed, cells)
        if "dt" in wish:
            scene = dataclasses.replace(scene, scale=scale_at(scene.scale, real_in(wish, "dt")))
        if "temperature" in wish:
            scene = dataclasses.replace(scene, temperature=real_in(wish, "temperature"))
        scene.displacements()
        return scene

    def displacements(self) -> List[heating.Displacement]:
        """The first displacement of each atom. Empty, for atoms at rest, if the temperature is 0 or there is only one atom."""
        if not self.temperature or self.atoms < 2:
            return []
        return heating.displacements(self.atoms, self.temperature, self.scale, self.seed)

    def begin(self, user: User, name: str) -> Session:
        """Loads the atoms in place of those in the session, so that each coordinate of DUMP gives a place exactly.

        They are loaded twice: first with the scale of the file, which rounds them to places, and then at exactly these places.
        A single atom begins at rest. Raises ValueError for a temperature at which an atom would move by half the box in a step.
        """
        moved, own = self.displacements(), [row[0] for row in xyz.present_atoms(("rest", self.body))] or None
        loaded = user.load(name, self.body, symbols=own, edge=self.scale.edge, sigma=self.scale.sigma, h=self.scale.h, replace=True)
        places, symbols = loaded.places(), loaded.symbols()
        rows = [(symbol, *(int(part) / MILLION for part in place)) for symbol, place in zip(symbols, places)]
        sigma = Decimal(self.scale.sigma_on_ring) / MILLION
        session = user.load(name, rows, symbols=symbols, edge=EXACT_EDGE, sigma=sigma, h=self.scale.h, replace=True, watch=False)
        user.ask_all(f"TUG {name} {atom} {x} {y} {z}" for atom, (x, y, z) in enumerate(moved))
        return session


def scale_at(scale: Scale, dt: float) -> Scale:
    """The scale with the step factor nearest to a time step, in femtoseconds if the scale has epsilon and mass.

    Raises ValueError if there is none.
    """
    unit = 1.0 if scale.dt is None else scale.dt / scale.reduced_dt
    h = round((dt / unit) ** 2 * RING) if 0 < dt < math.inf else 0
    if not 1 <= h <= MAX_STEP_FACTOR:
        shortest, longest = (unit * math.sqrt(limit / RING) for limit in (1, MAX_STEP_FACTOR))
        raise ValueError(f"dt must be from {shortest:.2g} to {longest:.3g}{'' if scale.dt is None else ' fs'}, got {dt:g}")
    return dataclasses.replace(scale, h=h)


def crystal(h: int, temperature: float, seed: int, cells: int = CELLS) -> Scene:
    """A face-centred cubic crystal, as dense as liquid argon, in reduced units: of 256 atoms by default."""
    atoms = len(FACES) * cells**3
    edge = round((atoms / DENSITY) ** (1 / 3), 6)
    corners = itertools.product(range(cells), repeat=3)
    sites = [[(i + part) * edge / cells for i, part in zip(corner, face)] for corner in corners for face in FACES]
    body = xyz.text_of((("Ar", site) for site in sites), "face-centred cubic")
    title = "A crystal that melts" if temperature else "A crystal"
    return Scene(title, body, Scale.of(edge, 1, h), temperature, seed, is_crystal=True)


def of_file(path: str, edge: Optional[float], scale_of: Callable[[float], Scale], temperature: float, seed: int) -> Scene:
    """The atoms of an XYZ file. The edge is for a file without a cubic Lattice. Raises ValueError if both are missing."""
    body = without_columns(xyz.body_of(path))
    try:
        found = xyz.lattice_edge(("rest", body)) or edge
    except ValueError:
        found = edge
    if found is None:
        raise ValueError("edge must be given for a file without a cubic Lattice, got none; use --edge, in the unit of the file")
    return Scene(os.path.basename(path), body, scale_of(found), temperature, seed)


def edge_in_sigma(scale: Scale) -> float:
    """The edge of the box, in units of sigma."""
    return RING / scale.sigma_on_ring
