"""Molecular dynamics for ASE: `ReversibleVerlet`, a driver like those of `ase.md` whose motion can be reversed exactly.

    from ase import units
    from ase.build import bulk
    from ase.md.velocitydistribution import MaxwellBoltzmannDistribution
    from ljclient.ase import ReversibleVerlet

    atoms = bulk("Ar", "fcc", a=5.26, cubic=True) * (4, 4, 4)
    MaxwellBoltzmannDistribution(atoms, temperature_K=120)
    with ReversibleVerlet(atoms, 2 * units.fs, sigma=3.4, epsilon=119.8 * units.kB, trajectory="argon.traj") as dyn:
        dyn.run(1000)
        dyn.reverse()
        dyn.run(1000)

Numbers are in the units of ASE. Importing this module without ASE raises `Missing`.
"""
from __future__ import annotations

import contextlib
import operator
from typing import Any, Iterator, Optional, Sequence

from . import arrays, ase_bridge, optional
from .arrays import least_images, numpy
from .ase_bridge import TIME_UNIT, TWO_SPECIES, potential_of
from .centred import three_frames
from .mixture import Pair
from .names import count_of
from .session import Session
from .units import RING
from .unwrapping import Path
from .connecting import run
from .user import User

WHY = "ljclient.ase needs"
_Driver: Any = optional.ase("ase.md.md", WHY).MolecularDynamics
_Calculator: Any = optional.ase("ase.calculators.singlepoint", WHY).SinglePointCalculator

# Methods whose results are compared, besides positions, to detect changed atoms.
KEPT = operator.methodcaller("get_atomic_numbers"), operator.methodcaller("get_cell"), operator.methodcaller("get_momenta")
# The places are read after at most this many steps, so that each atom can be unwrapped.
MOST_STEPS = 100


class ReversibleVerlet(_Driver):  # type: ignore[misc]
    """Molecular dynamics of Lennard-Jones atoms by `ljserve`, as a driver of ASE.

    `attach`, `run`, `irun`, `step`, `nsteps` and `get_time` are as in ASE. Attached functions are called at their intervals; the steps
    between are made by commands of at most 100 steps. When a function is called, the atoms have the positions and momenta of the step,
    and a `SinglePointCalculator` with energy and forces. Positions continue outside the cell if atoms leave it.

    If your script changes the atoms between two steps, for example by `MaxwellBoltzmannDistribution`, they are loaded again before the
    next step. A reversed run goes back no further than this change. A constraint that is added later raises a ValueError at the next step.

    Parameters
    ----------
    atoms : ase.Atoms
        The atoms, in a periodic cubic cell, without constraints, and with equal masses. The driver moves them.
    timestep : float
        The time step in ASE's unit of time, such as `2 * ase.units.fs`.
    trajectory : ase.io.Trajectory or str, optional
        A file for frames, one every `loginterval` steps. It is replaced, or with `append_trajectory=True` extended.
    logfile : file or str, optional
        A file, its name or "-", to which ASE's `MDLogger` writes every `loginterval` steps.
    loginterval : int, optional
        As in ASE.
    append_trajectory : bool, optional
        As in ASE.
    sigma, epsilon : float, optional
        For atoms with the same symbol: the distance in angstrom and the depth of the potential in electronvolt.
    species : sequence of str, optional
        The two symbols of a mixture.
    first, second, mixed : tuple of float, optional
        For a mixture: pairs of sigma and epsilon, as in `User.load_mix`.
    mass : float, optional
        The new mass of each atom in dalton. By default atoms keep their masses.
    user : User, optional
        The user for the session, from `connect(..)` or `run()`. By default a new program is started.
    name : str, optional
        The name of the session. It replaces a session of this name.

    Attributes
    ----------
    session : Session
        The session, at the step of the atoms. After `reverse` its step numbers fall, while `nsteps` rises.
    dt : float
        The rounded time step of the simulation, in ASE's unit.

    Raises
    ------
    ValueError
        If the atoms are not as described under `atoms`.
    ClientError
        As `run` and `User.load` do.
    """

    def __init__(
        self,
        atoms: Any,
        timestep: float,
        trajectory: Any = None,
        logfile: Any = None,
        loginterval: int = 1,
        append_trajectory: bool = False,
        *,
        sigma: Optional[float] = None,
        epsilon: Optional[float] = None,
        species: Optional[Sequence[str]] = None,
        first: Optional[Pair] = None,
        second: Optional[Pair] = None,
        mixed: Optional[Pair] = None,
        mass: Optional[float] = None,
        user: Optional[User] = None,
        name: str = "ase",
    ):
        said = {"sigma": sigma, "epsilon": epsilon, "species": species, "first": first, "second": second, "mixed": mixed}
        self._words = {**potential_of(said), "dt": timestep * TIME_UNIT, "mass": _mass_of(atoms, mass)}
        self._name = name
        self.atoms = atoms
        with contextlib.ExitStack() as opened:
            self._user = opened.enter_context(run()) if user is None else user
            self._load()
            super().__init__(atoms, timestep, trajectory, logfile, loginterval, append_trajectory=append_trajectory)
            self.closelater(opened.pop_all())
        self.dt: float = self.session.scale.time(1) / TIME_UNIT

    def run(self, steps: int = 50) -> bool:
        """Makes steps, and calls the attached functions at their intervals.

        Parameters
        ----------
        steps : int, optional
            The number of steps.

        Returns
        -------
        bool
            True, as other drivers of `ase.md` return.
        """
        for _ in self._going(steps, MOST_STEPS):
            pass
        return True

    def irun(self, steps: int = 50) -> Iterator[bool]:
        """Makes steps as `run`, and yields after each step, before attached functions are called, so that you can read or change the atoms.

        Parameters
        ----------
        steps : int, optional
            The number of steps.

        Returns
        -------
        iterator of bool
            False before the first step and after each step, then True.
        """
        return self._going(steps, 1)

    def step(self, forces: Any = None) -> Any:
        """Makes one step, and calls no attached function.

        Parameters
        ----------
        forces : object, optional
            As in ASE; it is ignored.

        Returns
        -------
        numpy.ndarray, shape (atoms, 3)
            The forces.
        """
        self._take_up()
        self.session.advance(1)
        self._show()
        return self.atoms.get_forces()

    def reverse(self) -> None:
        """Reverses the motion: each atom stays where it is, and gets the opposite momentum.

        `run(n)`, `reverse()`, `run(n)` and `reverse()` restore positions and momenta, bit for bit.
        """
        self._take_up()
        self.session._step_and_turn()
        self._show()

    def _going(self, steps: int, most: int) -> Iterator[bool]:
        """Makes steps, and yields where attached functions are called, and after at most `most` steps."""
        self.max_steps = self.nsteps + count_of(steps, "the number of steps")
        self._take_up()
        yield False
        if self.nsteps == 0:
            self.call_observers()
        while self.nsteps < self.max_steps:
            self._take_up()
            count = min(most, self._steps_to_call(), self._steps_within_reach())
            self._advance(count)
            yield False
            self.call_observers()
        yield True

    def _advance(self, count: int) -> None:
        """Makes `count` steps. If they are interrupted, finished steps count, and the atoms are updated from the session."""
        start = self.session.get_step()
        try:
            self.session.advance(count)
        finally:
            if self.session._is_free:
                self.nsteps += abs(self.session.get_step() - start)
                self._show()

    def _steps_to_call(self) -> int:
        """The number of steps until an attached function is called, or until the end."""
        stops = [self.max_steps]
        for _, interval, *_ in self.observers:
            stops.append((self.nsteps // interval + 1) * interval if interval > 0 else -interval)
        return int(min(stop for stop in stops if stop > self.nsteps) - self.nsteps)

    def _steps_within_reach(self) -> int:
        """The number of steps in which the fastest atom moves an eighth of the cell, so that unwrapping is unambiguous."""
        farthest = float(abs(self.atoms.get_velocities()).max()) * self.dt
        return max(1, int(self.session.edge / max(8 * farthest, self.session.edge / MOST_STEPS)))

    def _load(self) -> None:
        """Loads the atoms at rest, and then adds the displacements that give them their momenta at this step.

        The displacement before a step is `v dt` minus half of the step's push, which is read from three frames at rest.
        """
        atoms, name = self.atoms, self._name
        at_rest, symbols = _checked(atoms).copy(), atoms.get_chemical_symbols()
        at_rest.set_momenta(None)
        is_mixture = "species" in self._words
        if not is_mixture and len(set(symbols)) > 1:
            raise ValueError(
                f"the atoms must have one symbol for one sigma and epsilon, got {', '.join(sorted(set(symbols)))}; use {TWO_SPECIES}"
            )
        load: Any = self._user.load_mix if is_mixture else self._user.load
        self.session: Session = load(name, at_rest, symbols=symbols, order="space", replace=True, **self._words)
        three, ring = three_frames(self._user, name), RING / self.session.edge
        velocities = numpy.array(ase_bridge.velocities_of(atoms) or numpy.zeros((len(atoms), 3)))
        moved = numpy.rint(velocities * self.session.scale.time(1) * ring - least_images(three.after, three.now) / 2).astype(int)
        self.session._tug_all(moved.tolist(), arrays.listed(three.now), arrays.listed(three.before))
        self._path = Path(name)
        cells = numpy.rint((atoms.get_positions() * ring - three.now) / RING).astype(int)
        self._start = three.now + cells * RING
        self._show()

    def _show(self) -> None:
        """Updates the atoms from the session."""
        atoms, frame = self.atoms, next(self.session.frames([0]))
        atoms.set_positions((self._start + self._path.to(frame.places)) * self.session.edge / RING)
        atoms.set_masses([self._words["mass"]] * len(atoms))
        atoms.set_velocities(frame.velocities * TIME_UNIT)
        energy = frame.energies.potential * (frame.scale.epsilon or 1.0)
        atoms.calc = _Calculator(atoms, energy=energy, forces=frame.forces)
        self._shown = atoms.copy()

    def _take_up(self) -> None:
        """Loads the atoms again if they have changed since `_show`. Shifts by whole cells, as by `atoms.wrap()`, are no change.

        Raises ValueError if they now have constraints, or a cell that is not periodic.
        """
        atoms, shown, edge = _checked(self.atoms), self._shown, self.session.edge
        if all(numpy.array_equal(*map(read, (atoms, shown))) for read in KEPT):
            moved = atoms.positions - shown.positions
            cells = numpy.rint(moved / edge)
            if abs(moved - cells * edge).max() < 1e-12 * edge:
                self._start = self._start + cells.astype(int) * RING
                self._shown = atoms.copy()
                return
        self._load()


def _mass_of(atoms: Any, mass: Optional[float]) -> float:
    """The mass of each atom. Raises ValueError if they differ and no mass is given."""
    if mass is not None:
        return mass
    masses = set(map(float, atoms.get_masses()))
    if len(masses) != 1:
        raise ValueError(f"the atoms must all have one mass, got {len(masses)} masses; use mass=")
    return masses.pop()


def _checked(atoms: Any) -> Any:
    """Atoms without constraints in a periodic cell. Raises ValueError for others."""
    if atoms.constraints:
        raise ValueError("the atoms must have no constraints, since they are not kept here; use atoms.set_constraint() to remove them")
    if not all(atoms.pbc):
        raise ValueError(f"the cell must be periodic along each axis, got pbc={atoms.pbc.tolist()}; use atoms.pbc = True")
    return atoms
