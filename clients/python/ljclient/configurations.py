"""Starting configurations, at rest in a cubic box: lattices, slabs, droplets and mixtures, and a relaxation of overlapping atoms."""
from __future__ import annotations

import dataclasses
import itertools
import math
import random
from typing import Any, Dict, Iterator, List, Optional, Sequence, Tuple

from . import ase_bridge, scalars, units
from .names import checked_symbol, whole_of
from .optional import needed_numpy

Position = Tuple[float, float, float]
SITES: Dict[str, List[Position]] = {
    "sc": [(0.0, 0.0, 0.0)],
    "bcc": [(0.0, 0.0, 0.0), (0.5, 0.5, 0.5)],
    "fcc": [(0.0, 0.0, 0.0), (0.5, 0.5, 0.0), (0.5, 0.0, 0.5), (0.0, 0.5, 0.5)],
}
"""The positions in a cell of each lattice, in units of its edge."""
CLOSEST = 0.9
"""The default minimum distance after `relax`, in sigma. A pair has 6.6 epsilon there."""
MOST_ROUNDS = 2000
SKIN = 0.3
"""Pairs are listed up to the distance plus this part of it."""
BLOCK = 512
"""Number of atoms compared with all others at a time."""


@dataclasses.dataclass(frozen=True, eq=False)
class Configuration:
    """Atoms at rest in a cubic box, as a source for `User.load` and `User.load_mix`.

    Attributes
    ----------
    symbols : tuple of str
        The symbol of each atom.
    positions : tuple of tuple of float, shape (n_atoms, 3)
        The position of each atom, in the unit of sigma.
    edge : float
        The edge of the box, in the same unit.
    sigma : float
        The length of the potential, in the same unit.
    """

    symbols: Tuple[str, ...] = dataclasses.field(repr=False)
    positions: Tuple[Position, ...] = dataclasses.field(repr=False)
    edge: float
    sigma: float = 1.0

    @property
    def n_atoms(self) -> int:
        """The number of atoms."""
        return len(self.positions)

    @property
    def density(self) -> float:
        """The number of atoms per sigma^3 of the box."""
        return self.n_atoms * (self.sigma / self.edge) ** 3

    def get_chemical_symbols(self) -> List[str]:
        """The symbol of each atom, as in ASE's `Atoms`.

        Returns
        -------
        list of str
            The symbols.
        """
        return list(self.symbols)

    def get_positions(self) -> List[Position]:
        """The positions, as in ASE's `Atoms`.

        Returns
        -------
        list of tuple of float
            In the unit of the edge.
        """
        return list(self.positions)

    def get_cell(self) -> List[List[float]]:
        """The cell, as in ASE's `Atoms`.

        Returns
        -------
        list of list of float
            Three vectors, in the unit of the edge.
        """
        return [[self.edge * (axis == other) for axis in range(3)] for other in range(3)]


def lattice(
    kind: str, *, density: float, atoms: int, sigma: float = 1.0, mass: Optional[float] = None, symbol: str = "Ar", seed: int = 0
) -> Configuration:
    """Atoms on a lattice that fills a periodic box, or at random.

    Parameters
    ----------
    kind : {"fcc", "bcc", "sc", "random"}
        The lattice: face-centred, body-centred or simple cubic. Random atoms are relaxed: no two are nearer than 0.9 sigma.
    density : float
        The number of atoms per sigma^3; with `mass`, grams per cubic centimetre.
    atoms : int
        The number of atoms: 4 n^3 for "fcc", 2 n^3 for "bcc" and n^3 for "sc", with a whole number n.
    sigma : float, optional
        The length of the potential, in the unit of the positions: 1 in reduced units, 3.4 for argon in angstrom.
    mass : float, optional
        The mass of an atom in dalton. With it, sigma is in angstrom.
    symbol : str, optional
        The symbol of all atoms.
    seed : int, optional
        The same seed gives the same random atoms.

    Returns
    -------
    Configuration
        The atoms, at rest.

    Raises
    ------
    ValueError
        If there is no such lattice, `atoms` does not fit it, or there is no room for random atoms.

    Examples
    --------
    >>> from ljclient.state_points import lattice
    >>> crystal = lattice("fcc", density=0.8442, atoms=256)
    >>> round(crystal.edge, 6)
    6.718385
    """
    count = whole_of(atoms, "the number of atoms")
    edge = units.edge_of_density(count, density, mass=mass) if mass else units.edge_of_density(count, density, sigma=sigma)
    if kind == "random":
        drawn = random.Random(whole_of(seed, "seed"))
        sites = [(edge * drawn.random(), edge * drawn.random(), edge * drawn.random()) for _ in range(count)]
        return relax(_alike(sites, edge, sigma, symbol))
    basis = _sites_of(kind)
    cells = _cells_of(kind, count)
    return _alike(_filled(basis, edge / cells, (cells, cells, cells)), edge, sigma, symbol)


def slab(kind: str, *, density: float, edge: float, thickness: float, sigma: float = 1.0, symbol: str = "Ar") -> Configuration:
    """A slab of a lattice across the middle of a box, with vacuum on both sides along z.

    Parameters
    ----------
    kind : {"fcc", "bcc", "sc"}
        The lattice.
    density : float
        The number of atoms per sigma^3 of the slab.
    edge : float
        The edge of the box, in the unit of sigma. It is rounded to a whole number of lattice cells along x and y.
    thickness : float
        The thickness of the slab along z, in the unit of sigma, rounded to a whole number of cells. It is less than the edge.
    sigma : float, optional
        As in `lattice`.
    symbol : str, optional
        As in `lattice`.

    Returns
    -------
    Configuration
        The atoms, at rest, with the rounded edge of the box.

    Raises
    ------
    ValueError
        If there is no such lattice, or the slab has no cell or fills the box.
    """
    basis = _sites_of(kind)
    cell = sigma * (len(basis) / scalars.checked_positive("density", density)) ** (1 / 3)
    cells, layers = round(scalars.checked_positive("edge", edge) / cell), round(scalars.checked_positive("thickness", thickness) / cell)
    if not 0 < layers < cells:
        raise ValueError(f"thickness must be from {cell / 2:.4g} to less than edge={edge!r}, in cells of {cell:.4g}, got {thickness!r}")
    raised = (cells - layers) * cell / 2
    sites = [(x, y, z + raised) for x, y, z in _filled(basis, cell, (cells, cells, layers))]
    return _alike(sites, cells * cell, sigma, symbol)


def droplet(kind: str, *, density: float, radius: float, edge: float, sigma: float = 1.0, symbol: str = "Ar") -> Configuration:
    """A sphere of a lattice in the middle of a box.

    Parameters
    ----------
    kind : {"fcc", "bcc", "sc"}
        The lattice.
    density : float
        The number of atoms per sigma^3 of the droplet.
    radius, edge : float
        The radius of the sphere and the edge of the box, in the unit of sigma. The diameter is less than the edge.
    sigma : float, optional
        As in `lattice`.
    symbol : str, optional
        As in `lattice`.

    Returns
    -------
    Configuration
        The atoms, at rest.

    Raises
    ------
    ValueError
        If there is no such lattice, or the box is too small for the sphere.
    """
    basis = _sites_of(kind)
    cell = sigma * (len(basis) / scalars.checked_positive("density", density)) ** (1 / 3)
    if not 2 * scalars.checked_positive("radius", radius) < scalars.checked_positive("edge", edge):
        raise ValueError(f"edge must be above {2 * radius:g}, the diameter of the droplet, got {edge!r}")
    cells = 2 * math.ceil(radius / cell)
    middle = cells * cell / 2
    near = [site for site in _filled(basis, cell, (cells, cells, cells)) if math.dist(site, (middle, middle, middle)) <= radius]
    return _alike([(x + edge / 2 - middle, y + edge / 2 - middle, z + edge / 2 - middle) for x, y, z in near], edge, sigma, symbol)


def binary(
    configuration: Configuration, species: Sequence[str], *, fraction: float = 0.5, apart: bool = False, seed: int = 0
) -> Configuration:
    """The atoms with symbols of two species, for `User.load_mix`.

    Parameters
    ----------
    configuration : Configuration
        The atoms.
    species : sequence of str
        The two symbols.
    fraction : float, optional
        The fraction of the atoms that get the second species, from 0 to 1, rounded to whole atoms.
    apart : bool, optional
        True: the atoms with the greatest x get the second species. False: they are drawn at random.
    seed : int, optional
        The same seed draws the same atoms.

    Returns
    -------
    Configuration
        The atoms, with these symbols.

    Raises
    ------
    ValueError
        If there are not two symbols, or the fraction is not from 0 to 1.
    """
    if isinstance(species, str) or len(species) != 2:
        raise ValueError(f"species must be two symbols, such as ('A', 'B'), got {species!r}")
    if not 0 <= scalars.real_of("fraction", fraction) <= 1:
        raise ValueError(f"fraction must be from 0 to 1, got {fraction!r}")
    numbers = list(range(configuration.n_atoms))
    if apart:
        numbers.sort(key=lambda atom: configuration.positions[atom][0], reverse=True)
    else:
        random.Random(whole_of(seed, "seed")).shuffle(numbers)
    second = set(numbers[: round(fraction * configuration.n_atoms)])
    symbols = tuple(checked_symbol(species[atom in second]) for atom in range(configuration.n_atoms))
    return dataclasses.replace(configuration, symbols=symbols)


def relax(source: Any, closest: float = CLOSEST, sigma: Optional[float] = None) -> Configuration:
    """Pushes overlapping atoms apart, until no two are nearer than a distance. It needs numpy.

    Each pair that is closer is pushed apart along the line between its atoms; other atoms stay. A liquid of density 0.85 takes about
    ten rounds. The remaining potential energy becomes heat in the first steps, so set the temperature of the session after that.

    Parameters
    ----------
    source : Configuration or ase.Atoms
        The atoms, at any positions, in a cubic box.
    closest : float, optional
        The minimum distance, in sigma.
    sigma : float, optional
        The length of the potential, in the unit of the positions. It is required for `Atoms` of ASE.

    Returns
    -------
    Configuration
        The atoms at their new positions, in the box.

    Raises
    ------
    ValueError
        If there is no room for the atoms at this distance, no such positions are found in 2,000 rounds, or sigma is not known.
    """
    numpy, configuration = needed_numpy("a relaxation"), _taken(source, sigma)
    positions, edge = numpy.array(configuration.positions, dtype=float) % configuration.edge, configuration.edge
    distance = scalars.checked_positive("closest", closest) * configuration.sigma
    if configuration.n_atoms * distance**3 / math.sqrt(2) >= edge**3:
        raise ValueError(f"closest must be below that of a close packing of {configuration.n_atoms} atoms, got {closest!r}")
    drawn, moved = numpy.random.default_rng(0), numpy.inf
    for _ in range(MOST_ROUNDS):
        if moved > SKIN * distance / 2:
            pairs, moved = _pairs(positions, edge, distance * (1 + SKIN)), 0.0
        moves = _pushes(positions, edge, distance, pairs, drawn)
        if moves is None:
            return dataclasses.replace(configuration, positions=tuple(map(tuple, positions.tolist())))
        positions = (positions + moves) % edge
        moved += float(numpy.sqrt((moves**2).sum(axis=1)).max())
    raise ValueError(f"closest must leave room for {configuration.n_atoms} atoms, got {closest!r}, for which none was found; use less")


def _taken(source: Any, sigma: Optional[float]) -> Configuration:
    """A source as a configuration, with this sigma if it is given."""
    if isinstance(source, Configuration):
        return source if sigma is None else dataclasses.replace(source, sigma=scalars.checked_positive("sigma", sigma))
    if not ase_bridge.is_atoms(source):
        raise TypeError(f"source must be a Configuration or Atoms of ASE, got {type(source).__name__}")
    if sigma is None:
        raise ValueError("sigma must be given unless the source is a Configuration, got None; use sigma=")
    positions = tuple((float(x), float(y), float(z)) for x, y, z in source.get_positions())
    symbols = tuple(source.get_chemical_symbols())
    return Configuration(symbols, positions, ase_bridge.edge_of(source), scalars.checked_positive("sigma", sigma))


def _pairs(positions: Any, edge: float, reach: float) -> Any:
    """The pairs of atoms nearer than `reach`, as two arrays of atom numbers."""
    numpy, found = needed_numpy("a relaxation"), []
    for start in range(0, len(positions), BLOCK):
        block = positions[start : start + BLOCK]
        square = sum(_image(block[:, None, axis] - positions[None, start:, axis], edge) ** 2 for axis in range(3))
        one, other = numpy.nonzero(square < reach**2)
        later = other > one
        found.append(numpy.array([one[later], other[later]]) + start)
    return numpy.hstack(found)


def _image(apart: Any, edge: float) -> Any:
    """The minimum images of differences."""
    return apart - edge * needed_numpy("a relaxation").rint(apart / edge)


def _pushes(positions: Any, edge: float, distance: float, pairs: Any, drawn: Any) -> Any:
    """The displacements of atoms away from atoms nearer than a distance: half of the missing distance each, and a bit more. None if no
    atoms are nearer. Atoms at the same place are pushed in a random direction."""
    numpy = needed_numpy("a relaxation")
    apart = _image(positions[pairs[0]] - positions[pairs[1]], edge)
    lengths = numpy.sqrt((apart**2).sum(axis=1))
    near = lengths < distance
    if not near.any():
        return None
    (one, other), apart, lengths = pairs[:, near], apart[near], lengths[near]
    same = lengths < 1e-6 * distance
    apart[same] = drawn.normal(size=(int(same.sum()), 3)) * distance
    lengths = numpy.sqrt((apart**2).sum(axis=1))
    pushes = apart * ((numpy.where(same, distance, distance * 1.02 - lengths)) / lengths / 2)[:, None]
    moves = numpy.zeros_like(positions)
    numpy.add.at(moves, one, pushes)
    numpy.subtract.at(moves, other, pushes)
    return moves


def _alike(sites: Sequence[Position], edge: float, sigma: float, symbol: str) -> Configuration:
    """Atoms of one symbol. Raises ValueError if there are none."""
    scalars.checked_positive("sigma", sigma)
    if not sites:
        raise ValueError("the configuration must have at least one atom, got none; use a greater density or radius")
    return Configuration((checked_symbol(symbol),) * len(sites), tuple(sites), edge, sigma)


def _sites_of(kind: str) -> List[Position]:
    """The atoms of a cell of a lattice."""
    if kind not in SITES:
        raise ValueError(f"kind must be one of {', '.join(sorted(SITES))}, got {kind!r}")
    return SITES[kind]


def _cells_of(kind: str, atoms: int) -> int:
    """The number of cells along each axis for a number of atoms. Raises ValueError, with the nearest numbers, if none fits."""
    each = len(SITES[kind])
    cells = max(1, round(math.exp(math.log(atoms / each) / 3)))
    if each * cells**3 != atoms:
        near = sorted({each * max(1, cells + by) ** 3 for by in (-1, 0, 1)})
        raise ValueError(f"atoms must be {each} n^3 for {kind!r}, such as {', '.join(map(str, near))}, got {atoms}")
    return cells


def _filled(basis: Sequence[Position], cell: float, counts: Tuple[int, int, int]) -> List[Position]:
    """The positions of a lattice with these numbers of cells, shifted by a quarter of a cell along each axis."""
    corners: Iterator[Tuple[int, ...]] = itertools.product(*map(range, counts))
    shifted = [(x + 0.25, y + 0.25, z + 0.25) for x, y, z in basis]
    return [(cell * (i + x), cell * (j + y), cell * (k + z)) for i, j, k in corners for x, y, z in shifted]
