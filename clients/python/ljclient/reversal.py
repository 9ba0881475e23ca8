"""What exact reversal makes possible: echoes, the divergence of runs, the entropy of mixing and the direction of time.

Each function makes steps, and leaves the session as it was, bit for bit. It uses a branch, so the quota needs room for one. All numbers
are in reduced units: distances in sigma, energies in epsilon per atom, times in `sigma sqrt(m / epsilon)`, entropies in k_B per atom.
The functions need numpy, and `plot()` needs matplotlib:

    from ljclient import reversal, run, state_points

    with run() as user:
        liquid = user.load("liquid", state_points.lattice("fcc", density=0.8442, atoms=256), sigma=1, h=4295)
        liquid.heat(1.44)
        print(reversal.echo(liquid, 1000))
"""
from __future__ import annotations

import dataclasses
import math
from typing import TYPE_CHECKING, Any, Dict, List, NamedTuple, Optional, Sequence, Tuple, Union

from . import arrays
from .names import count_of, displacement_of
from .optional import needed_numpy, pyplot
from .quantities import above_maxwell, departure, mixing_entropy, rank_correlation
from .there_and_back import START, at_least_1, back_of, kept, on_the_way, stops_of, there_and_back

if TYPE_CHECKING:
    from .session import Session
    from .snapshots import Snapshot

__all__ = ["Arrow", "Divergence", "Echo", "Kick", "Mixing", "arrow", "divergence", "echo", "entropy_of_mixing"]

NEAR, FAR = 1 / 256, 1 / 10
"""Between these distances the liquid's chaos determines how fast two runs separate; below them the bins of the table do."""
TELLING_TREND, TELLING_DEPARTURE = 0.5, 5.0
"""The least rank correlation with time, or departure in standard deviations, that shows the direction of time."""
SHUFFLES = 20
"""The number of random mixtures in the mean."""


class Kick(NamedTuple):
    """A displacement per step that is added to the motion of one atom, as by `Session.tug`.

    Attributes
    ----------
    atom : int
        The number of the atom.
    displacement : tuple of int
        Along x, y and z, in ring units (edge / 2^32).
    """

    atom: int = 0
    displacement: Tuple[int, int, int] = (1, 0, 0)


@dataclasses.dataclass(frozen=True, eq=False)
class Echo:
    """How far a reversed run is from its own path on the way there.

    Attributes
    ----------
    steps : numpy.ndarray of int, shape (n_frames,)
        The number of steps since the reversal.
    times : numpy.ndarray, shape (n_frames,)
        The time of these steps, in `sigma sqrt(m / epsilon)`.
    distances : numpy.ndarray, shape (n_frames,)
        The root mean square distance of the atoms from where they were at the same step on the way there, in sigma.
    kick : Kick or None
        The kick at the reversal, or None.
    """

    steps: arrays.IntArray
    times: arrays.FloatArray
    distances: arrays.FloatArray
    kick: Optional[Kick]

    @property
    def returned(self) -> float:
        """The final distance of the atoms from the start, in sigma. It is 0.0 if each atom is exactly back at its place."""
        return float(self.distances[-1])

    def plot(self, axes: Any = None) -> Any:
        """Draws the distance against the time since the reversal.

        Parameters
        ----------
        axes : matplotlib.axes.Axes, optional
            The axes to draw into. The default is a new figure.

        Returns
        -------
        matplotlib.axes.Axes
            The axes.
        """
        axes = _axes(axes)
        label, apart = "no kick", self.distances > 0
        if self.kick is None or not apart.any():
            axes.plot(self.times, self.distances, label=label)
        else:
            label = f"kick {self.kick.displacement} in units of edge / $2^{{32}}$"
            axes.semilogy(self.times[apart], self.distances[apart], label=label)
        axes.set(xlabel="time since the turn / τ", ylabel="distance from the way there / σ")
        axes.legend()
        return axes

    def __str__(self) -> str:
        what = "without a kick" if self.kick is None else f"with atom {self.kick.atom} kicked by {self.kick.displacement}"
        told = f"{self.returned:.3g} sigma from the start" if self.returned else "0 sigma from the start, bit for bit"
        return f"{self.steps[-1]} steps there and back, {what}: {told}"


@dataclasses.dataclass(frozen=True, eq=False)
class Divergence:
    """How fast kicked runs separate from the run without a kick.

    Attributes
    ----------
    steps : numpy.ndarray of int, shape (n_frames,)
        The number of steps since the kick.
    times : numpy.ndarray, shape (n_frames,)
        The time of these steps, in `sigma sqrt(m / epsilon)`.
    distances : numpy.ndarray, shape (n_kicks, n_frames)
        The root mean square distance of the atoms of each run from those of the run without a kick, in sigma.
    kicks : tuple of Kick
        The kick of each run.
    exponents : numpy.ndarray, shape (n_fitted,)
        The slope of the logarithm of each distance against time, fitted from 1/256 to 1/10 sigma, for runs with at least three
        frames in this range. Below 1/256 sigma, the width of a bin, runs separate two to three times as fast as the liquid's
        Lyapunov exponent predicts.
    """

    steps: arrays.IntArray
    times: arrays.FloatArray
    distances: arrays.FloatArray
    kicks: Tuple[Kick, ...]
    exponents: arrays.FloatArray

    @property
    def exponent(self) -> float:
        """The Lyapunov exponent: the mean of `exponents`, per `sigma sqrt(m / epsilon)`. It is nan if no run was fitted."""
        return float(self.exponents.mean()) if len(self.exponents) else math.nan

    @property
    def error(self) -> float:
        """The standard error of `exponent` over the runs. It is nan if fewer than two were fitted."""
        fitted = len(self.exponents)
        return float(self.exponents.std(ddof=1)) / math.sqrt(fitted) if fitted > 1 else math.nan

    def plot(self, axes: Any = None) -> Any:
        """Draws the distances against time, with their geometric mean and the fitted exponential.

        Parameters
        ----------
        axes : matplotlib.axes.Axes, optional
            The axes to draw into. The default is a new figure.

        Returns
        -------
        matplotlib.axes.Axes
            The axes.
        """
        axes, numpy = _axes(axes), needed_numpy("a plot")
        means = numpy.exp(numpy.log(self.distances[:, 1:]).mean(axis=0))
        axes.semilogy(self.times[1:], self.distances[:, 1:].T, color="tab:red", linewidth=0.5, alpha=0.4)
        axes.semilogy(self.times[1:], means, color="black", label=f"mean of {len(self.kicks)} runs")
        axes.axhspan(NEAR, FAR, color="tab:blue", alpha=0.1, linewidth=0)
        inside = [number for number in _inside(means)]
        if inside and len(self.exponents):
            times = self.times[1:][inside]
            fit = means[inside[0]] * numpy.exp(self.exponent * (times - times[0]))
            axes.semilogy(times, fit, "--", color="tab:blue", label=f"exp({self.exponent:.2f} t), from σ/256 to σ/10")
        axes.set(xlabel="time / τ", ylabel="distance from the run without a kick / σ")
        axes.legend(loc="lower right")
        return axes

    def __str__(self) -> str:
        if not len(self.exponents):
            return "no Lyapunov exponent: too few frames from 1/256 to 1/10 sigma; take more steps, or a smaller every="
        runs = f"{len(self.exponents)} of {len(self.kicks)} runs"
        return f"Lyapunov exponent {self.exponent:.2f} +- {self.error:.2f} per sigma sqrt(m / epsilon), over {runs}"


@dataclasses.dataclass(frozen=True, eq=False)
class Mixing:
    """The entropy of mixing on the way there and back.

    Attributes
    ----------
    steps : numpy.ndarray of int, shape (n_frames,)
        The number of steps from the start to each frame.
    there : numpy.ndarray, shape (n_frames,)
        The entropy of mixing at these steps on the way there, in k_B per atom.
    back : numpy.ndarray, shape (n_frames,)
        The entropy of mixing on the way back, at the same steps.
    ideal : float
        The value if each cell has the composition of the whole box: ln 2 for two kinds in equal numbers.
    random : float
        The mean value of a random mixture, computed from the frame at the reversal with shuffled kinds. It is smaller than `ideal`,
        since a cell has few atoms.
    cells : int
        The number of cells along each axis.
    """

    steps: arrays.IntArray
    there: arrays.FloatArray
    back: arrays.FloatArray
    ideal: float
    random: float
    cells: int

    @property
    def is_exact(self) -> bool:
        """Whether both ways have the same entropies, bit for bit."""
        return bool((self.there == self.back).all())

    def plot(self, axes: Any = None) -> Any:
        """Draws the entropy against the steps made, there and back.

        Parameters
        ----------
        axes : matplotlib.axes.Axes, optional
            The axes to draw into. The default is a new figure.

        Returns
        -------
        matplotlib.axes.Axes
            The axes.
        """
        axes = _both_ways(_axes(axes), self.steps, self.there, self.back)
        axes.axhline(self.random, color="gray", linestyle="--", linewidth=1, label="a random mixture")
        axes.set(xlabel="steps made", ylabel="entropy of mixing / $k_B$ per atom", ylim=(0, None))
        axes.legend(loc="lower center")
        return axes

    def __str__(self) -> str:
        start, turn, end = self.there[0], self.there[-1], self.back[0]
        told = f"{start:.4f} at the start, {turn:.4f} after {self.steps[-1]} steps and {end:.4f} back at the start"
        return f"entropy of mixing {told}, in k_B for each atom ({self.random:.4f} of a random mixture)"


@dataclasses.dataclass(frozen=True, eq=False)
class Arrow:
    """Quantities of a run, and which of them show the direction of time.

    Attributes
    ----------
    steps : numpy.ndarray of int, shape (n_frames,)
        The number of steps from the start to each frame.
    there : dict of str to numpy.ndarray, shape (n_frames,)
        Quantities at these steps on the way there. `kinetic`, `potential` and `total` are energies in epsilon per atom;
        `distance` is the root mean square distance from the start in sigma; `maxwell` is how far the velocities are from the
        Maxwell-Boltzmann distribution: Boltzmann's H above its minimum, per velocity component.
    back : dict of str to numpy.ndarray, shape (n_frames,)
        The quantities on the way back, at the same steps.
    """

    steps: arrays.IntArray
    there: Dict[str, arrays.FloatArray]
    back: Dict[str, arrays.FloatArray]

    @property
    def is_exact(self) -> bool:
        """Whether the quantities are the same on both ways, bit for bit. Then no single frame except the start shows the direction."""
        return all(bool((self.there[name] == self.back[name]).all()) for name in self.there)

    @property
    def trends(self) -> Dict[str, float]:
        """Kendall's rank correlation of each quantity with the time on the way there, from -1 to 1.

        On the way back it has the opposite sign. It is near 0 for a quantity that only fluctuates.
        """
        return {name: rank_correlation(values) for name, values in self.there.items()}

    @property
    def departures(self) -> Dict[str, float]:
        """How far the start is from the mean of the second half of the way there, in standard deviations of that half.

        A run that begins far from the mean relaxes to equilibrium. A run that ends far from the mean was reversed.
        """
        return {name: departure(values) for name, values in self.there.items()}

    @property
    def telling(self) -> List[str]:
        """The quantities that show the direction: the absolute trend is 0.5 or more, or the absolute departure 5 or more."""
        trends, departures = self.trends, self.departures
        return [name for name in trends if abs(trends[name]) >= TELLING_TREND or abs(departures[name]) >= TELLING_DEPARTURE]

    def plot(self, axes: Any = None) -> Any:
        """Draws each quantity, scaled to its own range, against the steps made.

        Parameters
        ----------
        axes : matplotlib.axes.Axes, optional
            The axes to draw into. The default is a new figure.

        Returns
        -------
        matplotlib.axes.Axes
            The axes.
        """
        axes, trends, departures = _axes(axes), self.trends, self.departures
        for name, values in self.there.items():
            low, span = values.min(), values.max() - values.min() or 1.0
            both = [*values, *self.back[name][-2::-1]]
            made = [*self.steps, *(2 * self.steps[-1] - self.steps[-2::-1])]
            axes.plot(
                made, [(value - low) / span for value in both], label=f"{name}: {trends[name]:+.2f}, {departures[name]:+.1f}", linewidth=1
            )
        axes.axvline(self.steps[-1], color="gray", linestyle=":", linewidth=1)
        axes.set(xlabel="steps made", ylabel="from least to greatest", xlim=(0, 2 * self.steps[-1]))
        axes.legend(title="trend, departure", fontsize="small", loc="center left", bbox_to_anchor=(1, 0.5))
        return axes

    def __str__(self) -> str:
        departures = self.departures
        told = ", ".join(f"{name} {trend:+.2f} ({departures[name]:+.1f})" for name, trend in self.trends.items())
        return f"rank correlation with the time on the way there, which has the other sign back (departure of the start): {told}"


def echo(session: "Session", steps: int, kick: Optional[Kick] = Kick(), every: Optional[int] = None) -> Echo:
    """Makes steps, reverses the motion, kicks an atom, and makes the same number of steps: a Loschmidt echo.

    Parameters
    ----------
    session : Session
        A session whose scale is known. Its state is restored at the end.
    steps : int
        The number of steps in each direction.
    kick : Kick, optional
        The kick at the reversal. By default atom 0 is kicked by one ring unit along x. With None, each atom returns exactly to its
        place.
    every : int, optional
        The number of steps between frames. The default is a hundredth of `steps`.

    Returns
    -------
    Echo
        The distances between the way back and the way there.

    Raises
    ------
    ValueError
        If `steps` or `every` is below 1, or the kicked atom does not exist.
    Refused
        If the quota has no place for a branch.

    Examples
    --------
    >>> from ljclient import reversal, run, state_points
    >>> with run() as user:
    ...     liquid = user.load("liquid", state_points.lattice("fcc", density=0.2, atoms=32), sigma=1, h=4295)
    ...     temperature = liquid.heat(1.5)
    ...     print(reversal.echo(liquid, 20, kick=None))
    20 steps there and back, without a kick: 0 sigma from the start, bit for bit
    """
    numpy = needed_numpy("an echo")
    stops, unit = stops_of(steps, every), session.scale.sigma_on_ring
    kick = None if kick is None else _checked_kick(session, kick)
    with kept(session):
        there = on_the_way(session, stops, session.places)
        session.reverse()
        if kick is not None:
            session.tug(*kick)
        back = on_the_way(session, back_of(stops), session.places)
    # At the turn itself the kick has moved nothing yet.
    distances = [0.0, *(arrays.distance(*pair) / unit for pair in zip(back, there[-2::-1]))]
    made = numpy.array([stops[-1] - stop for stop in reversed(stops)])
    return Echo(made, made * session.scale.reduced_dt, numpy.array(distances), kick)


def divergence(session: "Session", steps: int, kicks: Union[int, Sequence[Kick]] = 8, every: Optional[int] = None) -> Divergence:
    """Runs a session without a kick, and again from the same start with each kick, and fits a Lyapunov exponent.

    Parameters
    ----------
    session : Session
        A session whose scale is known. Its state is restored at the end.
    steps : int
        The number of steps of each run. In a liquid, a kick of one ring unit grows to 1/10 sigma in a time of about 3, in
        `sigma sqrt(m / epsilon)`.
    kicks : int or sequence of Kick, optional
        The kick of each run, or the number of runs. With a number, each run kicks a different atom by one ring unit along x.
    every : int, optional
        The number of steps between frames. The default is a hundredth of `steps`.

    Returns
    -------
    Divergence
        The distances of the runs, and the exponent fitted from 1/256 to 1/10 sigma.

    Raises
    ------
    ValueError
        If `steps` or `every` is below 1, a kicked atom does not exist, or there is no kick.
    Refused
        If the quota has no place for a branch.
    """
    numpy = needed_numpy("a divergence")
    stops, wanted = stops_of(steps, every), _checked_kicks(session, kicks)
    with kept(session):
        alone = on_the_way(session, stops, session.places)
        rows = [_distances_of(session, kick, stops, alone) for kick in wanted]
    made = numpy.array(stops)
    times = made * session.scale.reduced_dt
    fitted = [(row, inside) for row in rows if len(inside := _inside(row)) >= 3]
    exponents = [numpy.polyfit(times[inside], numpy.log(numpy.array(row)[inside]), 1)[0] for row, inside in fitted]
    return Divergence(made, times, numpy.array(rows), wanted, numpy.array(exponents))


def entropy_of_mixing(
    session: "Session", steps: int, every: Optional[int] = None, cells: int = 4, labels: Optional[Sequence[object]] = None
) -> Mixing:
    """Makes steps there and back, and measures the entropy of mixing on both ways.

    The box is divided into cells. The entropy is `- sum n ln(n / m)` over all kinds and cells, in k_B and per atom, where n of the m
    atoms in a cell are of one kind.

    Parameters
    ----------
    session : Session
        A session whose scale is known. Its state is restored at the end.
    steps : int
        The number of steps in each direction.
    every : int, optional
        The number of steps between frames. The default is a hundredth of `steps`.
    cells : int, optional
        The number of cells along each axis. With 10 atoms per cell, a random mixture is 0.05 below an ideal one.
    labels : sequence, optional
        The kind of each atom, for example its region at the start. The default is its symbol.

    Returns
    -------
    Mixing
        The entropies there and back, which are the same bit for bit.

    Raises
    ------
    ValueError
        If `steps`, `every` or `cells` is below 1, `labels` has another length, or the atoms are all of one kind.
    Refused
        If the quota has no place for a branch.
    """
    numpy = needed_numpy("an entropy of mixing")
    stops, cells = stops_of(steps, every), at_least_1(cells, "cells")
    kinds = list(session.symbols() if labels is None else labels)
    if len(kinds) != session.n_atoms or len(set(kinds)) < 2:
        raise ValueError(f"labels must be one for each of the {session.n_atoms} atoms, and of at least two kinds; use labels=")
    numbers = numpy.array([sorted(set(kinds), key=repr).index(kind) for kind in kinds])
    frames, returned = there_and_back(session, stops, session.places)
    there, back = (numpy.array([mixing_entropy(places, numbers, cells) for places in way]) for way in (frames, returned))
    parts, drawn = numpy.bincount(numbers) / len(numbers), numpy.random.default_rng(0)
    shuffled = [mixing_entropy(frames[-1], drawn.permutation(numbers), cells) for _ in range(SHUFFLES)]
    ideal = float(-(parts * numpy.log(parts)).sum())
    return Mixing(numpy.array(stops), there, back, ideal, float(numpy.mean(shuffled)), cells)


def arrow(session: "Session", steps: int, every: Optional[int] = None) -> Arrow:
    """Makes steps there and back, and finds the quantities that show the direction of time.

    Each quantity has the same values on both ways, so a single frame does not show the direction. A quantity that rises or falls
    during the whole run does: a melting crystal loses potential energy only on the way back. In a liquid in equilibrium only the
    distance from a known start shows it. With a long time step the total energy shows it too, since it grows.

    Parameters
    ----------
    session : Session
        A session whose scale is known. Its state is restored at the end.
    steps : int
        The number of steps in each direction.
    every : int, optional
        The number of steps between frames. The default is a hundredth of `steps`.

    Returns
    -------
    Arrow
        The quantities there and back, and their trends.

    Raises
    ------
    ValueError
        If `steps` or `every` is below 1.
    Refused
        If the quota has no place for a branch.
    """
    numpy = needed_numpy("an arrow of time")
    stops, start = stops_of(steps, every), session.places()
    there, back = there_and_back(session, stops, lambda: _quantities_of(next(session.frames([0])), start))
    ways = [{name: numpy.array([each[name] for each in way]) for name in way[0]} for way in (there, back)]
    return Arrow(numpy.array(stops), *ways)


def _distances_of(session: "Session", kick: Kick, stops: Sequence[int], alone: Sequence[Any]) -> List[float]:
    """The distance at each stop between a run kicked at the start and the run without a kick, in sigma."""
    session.restore(START)
    session.tug(*kick)
    frames = on_the_way(session, stops, session.places)
    return [arrays.distance(*pair) / session.scale.sigma_on_ring for pair in zip(frames, alone)]


def _inside(distances: Sequence[float]) -> List[int]:
    """The numbers of the frames to fit: from the first that reaches NEAR to the last before one reaches FAR."""
    first, after = (next((number for number, far in enumerate(distances) if far >= limit), len(distances)) for limit in (NEAR, FAR))
    return list(range(first, after))


def _quantities_of(frame: "Snapshot", start: Any) -> Dict[str, float]:
    """The quantities of a frame by which `arrow` looks for the direction of time."""
    energies, atoms = frame.energies, len(start)
    return {
        "kinetic": energies.kinetic / atoms,
        "potential": energies.potential / atoms,
        "total": energies.total / atoms,
        "distance": arrays.distance(frame.places, start) / frame.scale.sigma_on_ring,
        "maxwell": above_maxwell(frame.velocities),
    }


def _checked_kicks(session: "Session", kicks: Union[int, Sequence[Kick]]) -> Tuple[Kick, ...]:
    """The given kicks, or a number of default kicks, each of a different atom."""
    atoms = session.n_atoms
    if not isinstance(kicks, Sequence):
        count = at_least_1(kicks, "kicks")
        if count > atoms:
            raise ValueError(f"kicks must be at most {atoms}, the number of atoms, got {count}")
        return tuple(Kick(number * atoms // count) for number in range(count))
    wanted = tuple(_checked_kick(session, kick) for kick in kicks)
    if not wanted:
        raise ValueError("kicks must have at least one, got none")
    return wanted


def _checked_kick(session: "Session", kick: Kick) -> Kick:
    """The kick. Raises ValueError if its atom does not exist."""
    atom, displacement = kick
    if (number := count_of(atom, "the number of an atom")) >= session.n_atoms:
        raise ValueError(f"the atom of a kick must be below {session.n_atoms}, the number of atoms, got {number}")
    return Kick(number, displacement_of(displacement))


def _axes(axes: Any) -> Any:
    """The axes that are given, or new ones."""
    return pyplot("a plot needs").subplots(layout="constrained")[1] if axes is None else axes


def _both_ways(axes: Any, steps: Any, there: Any, back: Any) -> Any:
    """Draws a quantity against the steps made, for both ways."""
    turn = steps[-1]
    axes.plot(steps, there, color="tab:red", label="there")
    axes.plot(2 * turn - steps, back, color="tab:blue", label="back: after reverse")
    axes.axvline(turn, color="gray", linestyle=":", linewidth=1)
    axes.set(xlim=(0, 2 * turn))
    return axes
