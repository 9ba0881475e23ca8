"""Energies and temperature of a session during a run, in rows."""
from __future__ import annotations

import contextlib
from typing import TYPE_CHECKING, Callable, Iterator, List, NamedTuple, Optional, Tuple

from .errors import ClientError
from .guards import Way, look
from .interrupts import held
from .measurement import Measurement, known
from .sampling import Progress, stops
from .stepping import Ask

if TYPE_CHECKING:
    from .loading import Loader
    from .session import Session


class Thermo(NamedTuple):
    """Temperature and energies of a session at a step. `str` shows them with their units.

    Attributes
    ----------
    step : int
        The step number.
    temperature : float
        Two thirds of the kinetic energy of an atom, in epsilon / k_B. If epsilon is known, the row is a `ThermoInKelvin`, and
        the temperature is in kelvin.
    kinetic : float
        The kinetic energy in epsilon: the mean of its values half a step before and half a step after.
    potential : float
        The potential energy in epsilon.
    total : float
        The sum of both, in epsilon.
    """

    step: int
    temperature: float
    kinetic: float
    potential: float
    total: float

    @staticmethod
    def of(here: Measurement, after: Measurement) -> "Thermo":
        """The row of a step, from measurements there and one step later."""
        kinetic = (here.kinetic_energy + after.kinetic_energy) / 2
        potential, epsilon = here.potential_energy, known(here.scale).epsilon
        numbers = here.step, here.temperature_at(kinetic), kinetic, potential, potential + kinetic
        return Thermo(*numbers) if epsilon is None else ThermoInKelvin.with_epsilon(numbers, epsilon)

    def in_electronvolt(self) -> "ThermoInElectronvolt":
        """The same row with its energies in electronvolt.

        Returns
        -------
        ThermoInElectronvolt
            The row.

        Raises
        ------
        ValueError
            If epsilon is not known.
        """
        raise ValueError("epsilon must be known, got None; use epsilon= (in electronvolt) where the session is loaded")

    def __str__(self) -> str:
        return self._told("epsilon / k_B")

    def _told(self, unit: str, energy: str = "epsilon") -> str:
        """The row as a line, with these units of temperature and energies."""
        energies = f"kinetic {self.kinetic:.6g}, potential {self.potential:.6g} and total energy {self.total:.6g} {energy}"
        return f"step {self.step}: temperature {self.temperature:.6g} {unit}; {energies}"


class ThermoInKelvin(Thermo):
    """A `Thermo` whose temperature is in kelvin. Its energies are in epsilon; `in_electronvolt` converts them.

    Attributes
    ----------
    step : int
        The step number.
    temperature : float
        In kelvin.
    kinetic, potential, total : float
        In epsilon.
    epsilon : float or None
        Epsilon in electronvolt.
    """

    epsilon: Optional[float] = None

    @classmethod
    def with_epsilon(cls, numbers: Tuple[int, float, float, float, float], epsilon: float) -> "ThermoInKelvin":
        """The row of these numbers.

        Parameters
        ----------
        numbers : tuple
            The fields of a `Thermo`, in order.
        epsilon : float
            Epsilon in electronvolt.

        Returns
        -------
        ThermoInKelvin
            The row.
        """
        row = cls(*numbers)
        row.epsilon = epsilon
        return row

    def in_electronvolt(self) -> "ThermoInElectronvolt":
        """The same row with its energies in electronvolt.

        Returns
        -------
        ThermoInElectronvolt
            The row.
        """
        if self.epsilon is None:
            return super().in_electronvolt()
        energies = (energy * self.epsilon for energy in (self.kinetic, self.potential, self.total))
        return ThermoInElectronvolt(self.step, self.temperature, *energies)

    def __str__(self) -> str:
        return self._told("K")


class ThermoInElectronvolt(ThermoInKelvin):
    """A `Thermo` whose temperature is in kelvin, and whose energies are in electronvolt.

    Attributes
    ----------
    step : int
        The step number.
    temperature : float
        In kelvin.
    kinetic, potential, total : float
        In electronvolt.
    """

    def in_electronvolt(self) -> "ThermoInElectronvolt":
        """The row itself.

        Returns
        -------
        ThermoInElectronvolt
            The row.
        """
        return self

    def __str__(self) -> str:
        return self._told("K", "eV")


# Receives a row, and the number of atoms.
Look = Callable[[Thermo, int], None]


def thermo(session: "Session", user: "Loader", ask: Ask, tell: Look, every: int, rows: int, progress: Progress) -> Iterator[Thermo]:
    """The rows of a session as it advances, each after a call of `tell`.

    In a program of its own, the session is one step ahead between two rows, since it must make this step anyway. If the iteration
    ends early, it is put back to the step of the last row. At a server it is always at the row, even if the connection is lost.
    """
    is_ahead, ahead = not user._outlasts_connections, None
    try:
        for number in stops(session, every, rows, progress, ahead=int(is_ahead)):
            goes_ahead = is_ahead and number + 1 < rows
            with held():
                here, after = _measured_ahead(session, ask) if goes_ahead else _measured_twice(session, user, ask)
                ahead = after.step if goes_ahead else None
            row = Thermo.of(here, after)
            tell(row, here.atoms)
            yield row
    finally:
        if ahead is not None:
            _put_back(session, ask, ahead)


def _put_back(session: "Session", ask: Ask, ahead: int) -> None:
    """Puts a session back to its row, if it is still at the step `ahead`, one after the row.

    If the program or the session is gone, nothing is put back.
    """
    with session._lock, contextlib.suppress(ClientError):
        if session._is_free and session.get_step() == ahead:
            ask(Way.by_turns(session.name).stepped)


def _measured_ahead(session: "Session", ask: Ask) -> List[Measurement]:
    """Measurements here and one step ahead, where the session is left."""
    measure = f"MEASURE {session.name}"
    with session._lock:
        replies = ask([measure, f"ADVANCE {session.name} 1", measure])
        return [session._measured(replies[at].words) for at in (0, 2)]


def _measured_twice(session: "Session", user: "Loader", ask: Ask) -> List[Measurement]:
    """Measurements here and one step ahead. The step is undone."""
    measure = f"MEASURE {session.name}"
    with look(user, session.name, 3) as way:
        replies = ask([measure, f"ADVANCE {session.name} 1", measure, *way.stepped, *way.end])
        return [session._measured(replies[at].words) for at in (0, 2)]
