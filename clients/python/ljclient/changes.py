"""The methods that change a session, except for steps."""
from __future__ import annotations

from typing import TYPE_CHECKING, Sequence, Union

from . import arrays
from .guards import checked_branch
from .later import Later
from .looks import Looks
from .threads import whole

if TYPE_CHECKING:
    from . import heating
else:
    heating = Later(".heating")


class Changes(Looks):
    """The methods of a session that change it or save it."""

    __slots__ = ()

    @whole
    def tug(self, atom: int, displacement: Union[Sequence[int], arrays.IntArray]) -> int:
        """Adds a displacement per step to the motion of an atom.

        While two runs of a liquid differ by less than 1/256 sigma, the width of a bin of the table, they separate two to three times as
        fast as the liquid's Lyapunov exponent predicts. So fit a Lyapunov exponent only to distances above 1/256 sigma.

        Parameters
        ----------
        atom : int
            The number of the atom.
        displacement : sequence of int
            Along x, y and z, in ring units (edge / 2^32).

        Returns
        -------
        int
            The step number.
        """
        return self._number(self._tug(atom, displacement), 3)

    @whole
    def heat(self, temperature: float, seed: int = 0) -> float:
        """Replaces the velocities of the atoms by random ones of a temperature.

        The new velocities have no net momentum. They are the velocities half a step ago, like kinetic energies. A crystal at rest keeps
        about half of this temperature; the other half becomes potential energy.

        Parameters
        ----------
        temperature : float
            In kelvin if epsilon is known, else in epsilon / k_B.
        seed : int, optional
            The same seed gives the same velocities.

        Returns
        -------
        float
            The temperature of the rounded velocities.
        """
        scale, (now, before) = self.scale, self._frames_of_places(both=True)
        self._set_in_motion(now, before, heating.displacements(len(before.places), temperature, scale, seed))
        return self.measure().temperature

    @whole
    def rescale(self, temperature: float) -> float:
        """Multiplies the velocities of all atoms by one factor, so that they have a temperature.

        A net momentum is multiplied too. The client tugs the atoms, so branches stay, and `restore` undoes `rescale`.

        Parameters
        ----------
        temperature : float
            As in `heat`. `measure` then returns this temperature, which is the value half a step ago.

        Returns
        -------
        float
            The temperature of the rounded velocities.

        Raises
        ------
        ValueError
            If all atoms are at rest.
        """
        scale, (now, before) = self.scale, self._frames_of_places(both=True)
        moved = arrays.listed(arrays.least_images(now.places, before.places))
        self._set_in_motion(now, before, heating.rescaled(moved, temperature, scale))
        return self.measure().temperature

    @whole
    def branch(self, name: str) -> int:
        """Saves the simulation under a name.

        Parameters
        ----------
        name : str
            1 to 16 letters, digits, `_` or `-`.

        Returns
        -------
        int
            Its step number.
        """
        step = self._number(f"BRANCH {self.name} {checked_branch(name)}", 3)
        self._user._known_of(self.name).branches[name] = self.order
        return step

    def restore(self, name: str) -> int:
        """Returns to a saved simulation, which stays saved.

        Parameters
        ----------
        name : str
            The name that it was saved under.

        Returns
        -------
        int
            Its step number.
        """
        return self._user._restore(self.name, checked_branch(name))

    @whole
    def forget(self, name: str) -> None:
        """Deletes a saved simulation.

        Parameters
        ----------
        name : str
            The name that it was saved under.
        """
        self._ask(f"FORGET {self.name} {checked_branch(name)}")
        self._user._known_of(self.name).branches.pop(name, None)

    def resort(self) -> None:
        """Sorts the atoms in space at the server, so that steps of many atoms take less time. The client keeps their numbers.

        With `load(.., order="space")`, `advance` sorts them every 250 steps. Atoms of the same symbol change places by tugs, so the
        session, its box and its step numbers stay.

        Raises
        ------
        ValueError
            If the session has a branch, in which the atoms have the old order.
        Refused
            If the quota has no room for a branch.
        """
        self._user._resort(self.name)

    def drop(self) -> None:
        """Deletes the session with all its branches."""
        self._ask(f"DROP {self.name}")
