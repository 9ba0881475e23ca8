"""Queries of a session, which leave it as it is."""
from __future__ import annotations

from typing import TYPE_CHECKING, Any, List, Optional, Tuple

from . import arrays, ase_bridge, frames
from .elements import Replacements, with_symbols
from .guards import RESERVED
from .handle import Handle
from .later import Later
from .measurement import Measurement
from .replies import Saved, fields, whole_number
from .state import symbols_of
from .threads import whole
from .units import RING

if TYPE_CHECKING:
    from . import centred, pressure
else:
    centred, pressure = map(Later, (".centred", ".pressure"))


class Looks(Handle):
    """The methods of a session that query it."""

    __slots__ = ()

    def get_step(self) -> int:
        """Asks for the step number, after all steps that were started.

        Returns
        -------
        int
            The step number.
        """
        return self._number(f"ADVANCE {self.name} 0", 2)

    def get_target(self) -> int:
        """Asks for the step number that the session will reach. This does not wait for steps.

        Returns
        -------
        int
            The step number after all steps that were started.
        """
        return self._row().step

    @whole
    def measure(self) -> Measurement:
        """Measures momentum, kinetic energy and potential energy.

        Returns
        -------
        Measurement
            The whole numbers of the reply, and the physical quantities.
        """
        return self._measured(self._user.ask(f"MEASURE {self.name}").words)

    @whole
    def place(self, atom: int) -> Tuple[int, int, int]:
        """The place of an atom.

        Parameters
        ----------
        atom : int
            The number of the atom, from 0 on.

        Returns
        -------
        tuple of int
            Along x, y and z, in ring units: whole numbers from 0 to 2^32 - 1.
        """
        number = self._number_of(atom)
        return frames.place(self._user, self.name, number)

    def places(self) -> arrays.IntArray:
        """The places of all atoms, which are the simulation itself.

        Returns
        -------
        numpy.ndarray of int, shape (atoms, 3)
            In ring units: whole numbers from 0 to 2^32 - 1. A list of tuples if numpy is not installed.
        """
        return self._frames_of_places()[0].places

    def positions(self) -> arrays.FloatArray:
        """The positions of all atoms: `place * edge / 2^32`.

        Returns
        -------
        numpy.ndarray, shape (atoms, 3)
            In the unit of the file, from 0 up to the edge. A list of tuples if numpy is not installed.
        """
        edge = self.scale.edge
        return arrays.of_positions(self.places(), edge)

    @whole
    def velocities(self) -> arrays.FloatArray:
        """The velocities of all atoms at this step, `(x(n+1) - x(n-1)) / (2 dt)`.

        After `reverse` they have the opposite sign. The client makes a step to read the next frame, and undoes this step exactly, so the
        session stays as it was. If the connection is lost meanwhile, the next connection restores the session.

        Returns
        -------
        numpy.ndarray, shape (atoms, 3)
            In angstrom / femtosecond if epsilon and mass are known, else in the unit of the file for each `sigma sqrt(m / epsilon)`. A
            list of tuples if numpy is not installed.
        """
        return centred.three_frames(self._user, self.name).velocities(self.scale)

    @whole
    def forces(self) -> arrays.FloatArray:
        """The force on each atom at this step, which is `x(n+1) - 2 x(n) + x(n-1)` by the definition of a step.

        They are read as `velocities` are.

        Returns
        -------
        numpy.ndarray, shape (atoms, 3)
            In electronvolt / angstrom if epsilon is known, else in epsilon / unit of the file. A list of tuples if numpy is not
            installed.
        """
        return centred.three_frames(self._user, self.name).forces(self.scale)

    @whole
    def pressure(self, tail: bool = False) -> float:
        """The pressure at this step, `(2 K + W) / (3 V)`. It needs numpy.

        K is the kinetic energy of `velocities`, and W the virial of all pairs by the program's own table.

        Parameters
        ----------
        tail : bool, optional
            Adds the contribution of the pairs beyond the cutoff, assuming a uniform density there.

        Returns
        -------
        float
            In epsilon / sigma^3; for a mixture, those of its first class. Multiply by `epsilon / sigma**3 / units.bar` to get bar.
        """
        return pressure.pressure(self, self._user, tail)

    @whole
    def energy(self, tail: bool = False) -> float:
        """The potential energy at this step.

        Parameters
        ----------
        tail : bool, optional
            As in `pressure`.

        Returns
        -------
        float
            In epsilon, as in `measure`.

        Examples
        --------
        >>> with run() as user:
        ...     pair = user.load("pair", [(0, 0, 0), (1.5, 0, 0)], symbols="Ar", edge=20, sigma=1, h=4295)
        ...     print(f"{pair.energy():.4f} {pair.energy(tail=True) - pair.energy():.5f}")
        ...     print(f"{pair.pressure():.3e} {pair.pressure(tail=True) - pair.pressure():.3e}")
        -0.3188 -0.00027
        -7.196e-05 -6.684e-08
        """
        return self.measure().potential_energy + (pressure.lacking_energy(self, self._user) if tail else 0.0)

    @whole
    def displacements(self) -> arrays.FloatArray:
        """How far each atom has moved since the first call, also across the borders of the periodic box.

        Atoms are followed from call to call, by the shorter way around the box. So no atom may move by half the edge or more between two
        calls. If one moves by a quarter of the edge or more, a warning is given.

        Returns
        -------
        numpy.ndarray, shape (atoms, 3)
            In the unit of the file; zeros at the first call. A list of tuples if numpy is not installed.
        """
        scale, places = self.scale, self.places()
        return arrays.scaled(self._path.to(places), scale.edge / RING)

    @whole
    def symbols(self) -> List[str]:
        """The symbol of each atom.

        Returns
        -------
        list of str
            The symbols in the order of the atoms.
        """
        return list(symbols_of(self._user, self.name))

    @whole
    def saved(self) -> List[Saved]:
        """The simulations that `branch` has saved in this session.

        Returns
        -------
        list of Saved
            Names and steps, in order of saving.
        """
        lines = self._user.ask(f"LIST {self.name}").lines
        rows, known_of = [fields(line, 2) for line in lines], self._user._known_of(self.name)
        own = [(name, whole_number(step)) for name, step in rows if name not in RESERVED]
        return [Saved(name, known_of.branch_order(name).step_of(step)) for name, step in own]

    def dump(self, symbols: Optional[Replacements] = None) -> str:
        """The frame as XYZ text.

        Parameters
        ----------
        symbols : dict, optional
            As in `write_trajectory`.

        Returns
        -------
        str
            Symbols, and positions in the unit of the file, rounded down to six decimals.
        """
        frame = with_symbols(self._frame(), symbols)
        return frame.text(f"step {frame.step}")

    @whole
    def to_ase(self, symbols: Optional[Replacements] = None) -> Any:
        """The frame as an `Atoms` of ASE, which has to be installed.

        Parameters
        ----------
        symbols : dict, optional
            The element that replaces each symbol of the session, such as `{"A": "Ar", "B": "Kr"}`.

        Returns
        -------
        ase.Atoms
            Positions in the periodic cell, and step and time in `info`. If epsilon and mass are known, also masses, and momenta half a
            step ago, like kinetic energies.

        Raises
        ------
        ValueError
            If a symbol has no replacement; without `symbols`, if one of the symbols is not an element.
        """
        scale, species = self.scale, self.mixture.species if self.mixture else ()
        elements = ase_bridge.elements_of(self.symbols(), species, symbols)
        now, before = self._frames_of_places(both=True)
        return ase_bridge.atoms_of(elements, now, before, scale)
