"""An ASE calculator, and a driver for i-PI: energies, forces and stresses of Lennard-Jones atoms from the program's own table.

    from ase.build import bulk
    from ase.optimize import BFGS
    from ljclient import units
    from ljclient.calculator import Ljserve

    atoms = bulk("Ar", "fcc", a=5.3, cubic=True) * (4, 4, 4)
    atoms.rattle(0.1)
    with Ljserve(sigma=3.4, epsilon=119.8 * units.kelvin) as atoms.calc:
        BFGS(atoms).run(fmax=0.01)

Numbers are in the units of ASE. Importing this module without ASE raises `Missing`.
"""
from __future__ import annotations

import math
from types import TracebackType
from typing import Any, Dict, List, Optional, Sequence, Type

from . import ase_bridge, optional, units
from .arrays import numpy
from .ase_bridge import potential_of
from .mixture import Pair
from .pressure import composition_of
from .session import Session
from .connecting import run
from .user import User
from .virial_tensor import virial_tensor

__all__ = ["Ljserve", "drive"]

WHY = "ljclient.calculator needs"
_Base: Any = optional.ase("ase.calculators.calculator", WHY).Calculator
_ALL_CHANGES: List[str] = optional.ase("ase.calculators.calculator", WHY).all_changes
_voigt: Any = optional.ase("ase.stress", WHY).full_3x3_to_voigt_6_stress

H = 1 << 18
"""The step factor for reading forces: so large that rounding errors are small, yet no push reaches half the edge."""
MASS = 1.0
"""The mass of each atom in dalton. No energy or force depends on it."""


class Ljserve(_Base):  # type: ignore[misc]
    """Energy, forces and stress of Lennard-Jones atoms, as a `Calculator` of ASE.

    Atoms must be in a periodic cubic cell with an edge above five sigma. All calculations use one session, which is loaded again if the
    atoms have changed. ASE handles constraints.

    The potential is cut off at 2.5 sigma and not shifted. Each pair has the energy and the force at the centre of its bin of the squared
    distance, with 128 bins per sigma^2. So the energy has steps (0.09 epsilon for a pair at distance sigma), and forces have a root mean
    square error of 2.6 %. Optimizers that use only forces work, such as `BFGS` and `FIRE`, but generally do not reach a `fmax` below
    0.002 eV/angstrom. For phonons use displacements of 0.05 angstrom or more, which are several bins wide. `EquationOfState`, `NEB` with
    `allow_shared_calculator=True` and `SocketClient` work too. Filters that shear the cell or stretch one axis are refused.

    Parameters
    ----------
    sigma, epsilon : float, optional
        For atoms that are all alike: the distance in angstrom and the depth of the potential in electronvolt.
    species : sequence of str, optional
        The two symbols of a mixture. It needs `first` and `second`; `mixed` is optional.
    first, second, mixed : tuple of float, optional
        Sigma and epsilon of two atoms of the first species, of two of the second and of one of each, as in `User.load_mix`.
    user : User, optional
        The user for the session, from `connect(..)` or `run()`. By default the first calculation starts a new program.
    name : str, optional
        The name of the session. It replaces a session of this name.
    **words : object
        As in `Calculator` of ASE.

    Attributes
    ----------
    session : Session or None
        The session of the last calculation, at step 0.

    Raises
    ------
    ValueError
        If the arguments describe neither one species nor two. A calculation raises it if the cell is not cubic and periodic, or if a
        symbol is not one of the two species.
    """

    implemented_properties = ["energy", "free_energy", "forces", "stress"]

    def __init__(
        self,
        *,
        sigma: Optional[float] = None,
        epsilon: Optional[float] = None,
        species: Optional[Sequence[str]] = None,
        first: Optional[Pair] = None,
        second: Optional[Pair] = None,
        mixed: Optional[Pair] = None,
        user: Optional[User] = None,
        name: str = "calculator",
        **words: Any,
    ):
        super().__init__(**words)
        said = {"sigma": sigma, "epsilon": epsilon, "species": species, "first": first, "second": second, "mixed": mixed}
        self._words = _words_of(potential_of(said))
        self._user, self._own, self._name = user, user is None, name
        self.session: Optional[Session] = None

    def calculate(
        self, atoms: Any = None, properties: Sequence[str] = ("energy",), system_changes: Sequence[str] = tuple(_ALL_CHANGES)
    ) -> None:
        """Computes all properties of the atoms into `results`. ASE calls this.

        Parameters
        ----------
        atoms : ase.Atoms, optional
            The atoms. The default is the atoms of the last call.
        properties : sequence of str, optional
            The wanted properties. The stress is computed only if it is wanted.
        system_changes : sequence of str, optional
            What has changed since the last call.
        """
        super().calculate(atoms, properties, system_changes)
        if self.session is None or system_changes:
            self.session = self._loaded()
            self.results: Dict[str, Any] = {}
        session = self.session
        unit = session.scale.epsilon or 1.0
        if "energy" not in self.results:
            energy = session.measure().potential_energy * unit
            self.results.update(energy=energy, free_energy=energy, forces=numpy.asarray(session.forces()))
        if "stress" in properties:
            tensor = virial_tensor(session.places(), composition_of(session, session.user))
            self.results["stress"] = _voigt(-tensor * unit / session.edge**3)

    def _loaded(self) -> Session:
        """The new session of the present atoms, at rest."""
        atoms = _checked(self.atoms)
        if self._user is None:
            self._user = run()
        at_rest, symbols = atoms.copy(), atoms.get_chemical_symbols()
        at_rest.set_momenta(None)
        load: Any = self._user.load_mix if "species" in self._words else self._user.load
        if "species" not in self._words:
            symbols = symbols[0]
        session: Session = load(self._name, at_rest, symbols=symbols, order="space", replace=True, watch=False, **self._words)
        return session

    def close(self) -> None:
        """Drops the session, and ends the program if it was started here. A later calculation loads a new session."""
        session, self.session = self.session, None
        self.reset()
        if session is not None and not session.user.closed:
            session.drop()
        if self._own and self._user is not None:
            self._user.close()
            self._user = None

    def __enter__(self) -> "Ljserve":
        return self

    def __exit__(self, kind: Optional[Type[BaseException]], error: Optional[BaseException], trace: Optional[TracebackType]) -> None:
        self.close()


def drive(
    atoms: Any, calculator: Ljserve, *, host: str = "localhost", port: Optional[int] = None, unixsocket: Optional[str] = None
) -> None:
    """Computes energies, forces and virials for i-PI, or another server with its protocol, until this server ends.

    Parameters
    ----------
    atoms : ase.Atoms
        The atoms in the order of the server, which sends their positions and their cell.
    calculator : Ljserve
        The calculator.
    host : str, optional
        The name or address of the server.
    port : int, optional
        Its port. The default is 31415, the port of i-PI.
    unixsocket : str, optional
        Instead of a port, the name of its socket: NAME for `/tmp/ipi_NAME`.

    Raises
    ------
    OSError
        If no server listens there.
    """
    client: Any = optional.ase("ase.calculators.socketio", WHY).SocketClient
    atoms.calc = calculator
    client(host=host, port=port, unixsocket=unixsocket).run(atoms, use_stress=True)


def _words_of(potential: Dict[str, Any]) -> Dict[str, Any]:
    """The arguments of `load` or `load_mix` for a potential, and for the step by which forces are read."""
    if "sigma" in potential:
        return {**potential, "h": H}
    sigma, epsilon = potential["first"]
    return {**potential, "mass": MASS, "dt": units.time_unit(sigma, epsilon, MASS) * math.sqrt(H / units.RING)}


def _checked(atoms: Any) -> Any:
    """Atoms in a periodic cubic cell. Raises ValueError for others."""
    if not all(atoms.pbc):
        raise ValueError(f"the cell must be periodic along each axis, got pbc={atoms.pbc.tolist()}; use atoms.pbc = True")
    ase_bridge.edge_of(atoms)
    return atoms
