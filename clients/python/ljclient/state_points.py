"""Starting configurations, and sessions at a temperature and a density: lattices, slabs, droplets, mixtures, equations of state.

    from ljclient import run, state_points

    with run() as user:
        for point in state_points.equation_of_state(user, [0.2, 0.4, 0.6, 0.7, 0.8], temperature=1.5):
            print(point)

`user.load("a", lattice(..), sigma=1, h=4295)` loads such a configuration with its box.
"""
from __future__ import annotations

import dataclasses
import math
from typing import TYPE_CHECKING, Any, Dict, Iterable, Iterator, List, NamedTuple, Optional, Sequence, Tuple

from . import scalars, units
from .configurations import Configuration, Position, binary, droplet, lattice, relax, slab
from .johnson import johnson
from .mixture import Mixture
from .names import whole_of
from .optional import needed_numpy, pyplot
from .sampling import Progress
from .units import RING, Scale

if TYPE_CHECKING:
    from .session import Session
    from .user import User

__all__ = [
    "Configuration",
    "EquationOfState",
    "Mean",
    "StatePoint",
    "binary",
    "droplet",
    "equation_of_state",
    "equilibrate",
    "johnson",
    "lattice",
    "relax",
    "slab",
    "state_point",
]

FRAMES, BLOCKS = 500, 10
"""The default number of frames of a mean, and the number of blocks of frames for its error."""
CUTOFF = 2.5


class Mean(NamedTuple):
    """A mean over frames.

    Attributes
    ----------
    value : float
        The mean.
    error : float
        Its standard error, from the means of ten blocks of frames.
    """

    value: float
    error: float

    def __str__(self) -> str:
        return f"{self.value:.4g} +- {self.error:.2g}"


@dataclasses.dataclass(frozen=True, eq=False)
class StatePoint:
    """Mean values of a session at constant energy.

    Attributes
    ----------
    session : Session
        The session, at the end of the run.
    density : float
        The number of atoms per sigma^3.
    temperature : Mean
        In kelvin if epsilon is known, else in epsilon / k_B.
    pressure : Mean
        In epsilon / sigma^3, with the tail correction for pairs beyond the cutoff.
    energy : Mean
        The potential energy per atom in epsilon, with the tail correction for pairs beyond the cutoff.
    tails : tuple of float
        The tail corrections of pressure and energy, for a fluid that is uniform beyond 2.5 sigma.
    n_frames : int
        The number of frames in these means.
    """

    session: "Session" = dataclasses.field(repr=False)
    density: float
    temperature: Mean
    pressure: Mean
    energy: Mean
    tails: Tuple[float, float]
    n_frames: int

    @property
    def reduced_temperature(self) -> float:
        """The mean temperature in epsilon / k_B."""
        return self.temperature.value / self.session.scale.temperature_unit

    def __str__(self) -> str:
        unit = "epsilon / k_B" if self.session.scale.epsilon is None else "K"
        where = f"density {self.density:.4f}, temperature {self.temperature} {unit}"
        return f"{where}: pressure {self.pressure} epsilon / sigma^3, potential energy {self.energy} epsilon per atom"


class EquationOfState(List[StatePoint]):
    """State points at one temperature: a list with a method `plot`.

    Parameters
    ----------
    iterable : iterable of StatePoint
        The points.
    """

    def plot(self, axes: Any = None) -> Any:
        """Draws the pressures against the densities, with Johnson's equation at the mean temperature.

        Parameters
        ----------
        axes : matplotlib.axes.Axes, optional
            The axes to draw into. The default is a new figure.

        Returns
        -------
        matplotlib.axes.Axes
            The axes.
        """
        axes = pyplot("a plot needs").subplots(layout="constrained")[1] if axes is None else axes
        densities = [point.density for point in self]
        values, errors = zip(*(point.pressure for point in self))
        mean = sum(point.reduced_temperature for point in self) / len(self)
        curve = [max(densities) * (number + 1) / 100 for number in range(105)]
        axes.plot(curve, [johnson(density, mean) for density in curve], color="gray", label=f"Johnson et al., $k_BT$ = {mean:.3f} ε")
        axes.errorbar(densities, values, errors, fmt="o", capsize=3, label="ljserve")
        axes.set(xlabel="density / σ$^{-3}$", ylabel="pressure / εσ$^{-3}$")
        axes.legend()
        return axes

    def __str__(self) -> str:
        return "\n".join(map(str, self))


def state_point(session: "Session", steps: int, every: Optional[int] = None, progress: Progress = False) -> StatePoint:
    """Advances at constant energy, and returns the means of temperature, pressure and potential energy. It needs numpy.

    Parameters
    ----------
    session : Session
        A session whose scale is known, already at the temperature of interest.
    steps : int
        The number of steps to advance.
    every : int, optional
        The number of steps between frames. The default is a five hundredth of `steps`.
    progress : bool or callable, optional
        As in `Session.advance`.

    Returns
    -------
    StatePoint
        The means with their errors.

    Raises
    ------
    ValueError
        If there are fewer than ten frames.
    """
    needed_numpy("a state point")
    total, part = whole_of(steps, "the number of steps"), 1
    part = max(1, total // FRAMES) if every is None else whole_of(every, "every")
    if part < 1 or total // part + 1 < BLOCKS:
        raise ValueError(f"steps must be at least {(BLOCKS - 1) * max(part, 1)} for ten frames, got {steps}; use more, or a smaller every=")
    rows = [
        (frame.temperature, frame.pressure, frame.energies.potential)
        for frame in session.frames(every=part, n=total // part + 1, progress=progress)
    ]
    temperatures, pressures, potentials = zip(*rows)
    count, density, tails = session.n_atoms, _density_of(session), _tails_of(session)
    energies = [potential / count + tails[1] for potential in potentials]
    pressure = _mean_of([each + tails[0] for each in pressures])
    return StatePoint(session, density, _mean_of(temperatures), pressure, _mean_of(energies), tails, len(rows))


def equilibrate(
    session: "Session",
    temperature: float,
    density: Optional[float] = None,
    steps: int = 10_000,
    *,
    seed: int = 0,
    progress: Progress = False,
) -> StatePoint:
    """Brings a session to a temperature and a density, and returns means with their errors. It needs numpy.

    For another density the session is replaced: all positions are scaled to another box, overlapping atoms are pushed apart, and new
    velocities are drawn. Branches and a record are then lost. The first half of the steps brings the session to the temperature, as by
    `Session.equilibrate`. The means are taken in the second half, at constant energy.

    Parameters
    ----------
    session : Session
        A session whose scale is known.
    temperature : float
        In kelvin if epsilon is known, else in epsilon / k_B.
    density : float, optional
        The number of atoms per sigma^3. The default is the density of the session.
    steps : int, optional
        The total number of steps.
    seed : int, optional
        The same seed gives the same velocities.
    progress : bool or callable, optional
        As in `Session.advance`.

    Returns
    -------
    StatePoint
        The means. Continue with its `session`.

    Raises
    ------
    ValueError
        If the temperature, the density or the steps are out of range. The session then stays as it was.

    Examples
    --------
    >>> from ljclient import run, state_points
    >>> with run() as user:
    ...     fluid = user.load("fluid", state_points.lattice("fcc", density=0.2, atoms=32), sigma=1, h=4295, order="space")
    ...     point = state_points.equilibrate(fluid, 2.0, density=0.1, steps=40)
    ...     print(round(point.session.edge, 6), round(point.density, 6))
    6.839904 0.1
    """
    needed_numpy("an equilibration")
    half = whole_of(steps, "the number of steps") // 2
    if half < BLOCKS:
        raise ValueError(f"steps must be at least {2 * BLOCKS}, got {steps}")
    scalars.checked_positive("temperature", temperature)
    if density is not None:
        session = _at_density(session, scalars.checked_positive("density", density))
    session.equilibrate(temperature, half, progress=progress, seed=seed)
    return state_point(session, half, progress=progress)


def equation_of_state(
    user: "User",
    densities: Iterable[float],
    temperature: float,
    *,
    atoms: int = 500,
    h: int = 4295,
    steps: int = 20_000,
    name: str = "fluid",
) -> EquationOfState:
    """The pressures of a fluid in reduced units at some densities, each with its measured temperature. It needs numpy.

    Parameters
    ----------
    user : User
        The user for the session.
    densities : iterable of float
        The densities, in atoms per sigma^3.
    temperature : float
        In epsilon / k_B.
    atoms : int, optional
        The number of atoms: 4 n^3.
    h : int, optional
        The step factor.
    steps : int, optional
        The number of steps for each density.
    name : str, optional
        The name of the session. It replaces a session of this name, and is dropped at the end.

    Returns
    -------
    EquationOfState
        A state point for each density, as a list. `plot()` draws them with Johnson's equation.

    Raises
    ------
    ValueError
        If there is no density, or one of the numbers is out of range.
    """
    wanted = [scalars.checked_positive("density", density) for density in densities]
    if not wanted:
        raise ValueError("densities must have at least one, got none")
    begin = lattice("fcc", density=wanted[0], atoms=atoms)
    session = user.load(name, begin, sigma=1, h=h, order="space", replace=True)
    points = EquationOfState()
    for density in wanted:
        points.append(equilibrate(session, temperature, None if density == wanted[0] and not points else density, steps))
        session = points[-1].session
    session.drop()
    return points


def _at_density(session: "Session", density: float) -> "Session":
    """The session that replaces this one: its atoms at rest, in a box of another density."""
    user, scale, mixture = session.user, session.scale, session.mixture
    edge = units.edge_of_density(session.n_atoms, density, sigma=scale.sigma)
    positions = tuple(_scaled(session.positions(), edge / scale.edge))
    widest = max(each.sigma for each in (mixture.classes if mixture else (scale,)))
    source = relax(Configuration(tuple(session.symbols()), positions, edge, widest))
    known = user._known_of(session.name)
    load: Any = user.load if mixture is None else user.load_mix
    words = {"sigma": scale.sigma, "h": scale.h, "symbols": source.symbols[0]} if mixture is None else words_of(mixture)
    words |= {"epsilon": scale.epsilon, "mass": scale.mass, "watch": known.watch.is_on}
    loaded: "Session" = load(session.name, source, order="space" if known.is_sorted else None, replace=True, **words)
    return loaded


def words_of(mixture: Mixture) -> Dict[str, Any]:
    """The arguments of `load_mix` for a mixture."""
    return {"species": mixture.species, "classes": [(each.sigma, each.h, each.weight) for each in mixture.classes]}


def _scaled(positions: Any, factor: float) -> Iterator[Position]:
    for x, y, z in positions:
        yield float(x) * factor, float(y) * factor, float(z) * factor


def _mean_of(values: Sequence[float]) -> Mean:
    """The mean of a series of values, and its standard error from the means of blocks."""
    numpy = needed_numpy("a mean")
    means = [block.mean() for block in numpy.array_split(numpy.array(values, dtype=float), BLOCKS)]
    return Mean(float(numpy.mean(values)), float(numpy.std(means, ddof=1)) / math.sqrt(BLOCKS))


def _density_of(session: "Session") -> float:
    """The number of atoms per sigma^3, with sigma as the program rounds it."""
    return session.n_atoms * (session.scale.sigma_on_ring / RING) ** 3


def _tails_of(session: "Session") -> Tuple[float, float]:
    """The tail corrections of the pressure and of the energy per atom, for a fluid that is uniform beyond the cutoff."""
    first, density = session.scale, _density_of(session)
    inverse = 1 / CUTOFF**3
    pressure, energy = (_weighed(session, first, what) for what in ("h", "weight"))
    pressure *= 16 / 3 * math.pi * density**2 * (2 / 3 * inverse**3 - inverse)
    energy *= 8 / 3 * math.pi * density * (inverse**3 / 3 - inverse)
    return pressure, energy


def _weighed(session: "Session", first: Scale, what: str) -> float:
    """The mean of epsilon sigma^3 over all pairs, relative to the first class: by h for forces, or by weight for energies."""
    if session.mixture is None:
        return 1.0
    second = session.symbols().count(session.mixture.species[1]) / session.n_atoms
    parts = ((1 - second) ** 2, 2 * second * (1 - second), second**2)
    return sum(part * _volume(each, first, what) for part, each in zip(parts, session.mixture.classes))


def _volume(scale: Scale, first: Scale, what: str) -> float:
    """Epsilon sigma^3 of a class relative to the first one. Epsilon is h sigma^2 for forces, and the weight for energies."""
    ratio = scale.sigma_on_ring / first.sigma_on_ring
    return scale.h / first.h * ratio**5 if what == "h" else scale.weight / first.weight * ratio**3
