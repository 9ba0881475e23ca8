"""`Ljserve`: energies, forces and stresses as a calculator of ASE, and for i-PI's protocol.

The numbers of two atoms are those of a bin's centre, worked out here; others are held against sums over pairs and ASE's own calculator.
"""
import itertools
import threading
from typing import Any
from unittest import mock

import pytest

from ljclient import Closed, units
from support import free_port, present

pytest.importorskip("ase", reason="ASE is not installed")

import numpy
from ase import Atoms
from ase.build import bulk
from ase.calculators.lj import LennardJones
from ase.calculators.socketio import SocketIOCalculator
from ase.constraints import FixAtoms, StrainFilter
from ase.eos import EquationOfState
from ase.neb import NEB
from ase.optimize import BFGS, FIRE
from ljclient.calculator import Ljserve, drive
from ljclient.pressure import composition_of, virial
from ljclient.virial_tensor import virial_tensor

EPSILON = 119.8 * units.kelvin
# The centre of bin 288 of 128 to sigma^2, which begins at 1.5 sigma.
SQUARE = 288.5 / 128


@pytest.fixture
def calc(user: Any) -> Any:
    return Ljserve(sigma=1, epsilon=1, user=user)


def pair(distance: float = 1.5, edge: float = 20) -> Any:
    return Atoms("Ar2", positions=[[1, 1, 1], [1 + distance, 1, 1]], cell=[edge] * 3, pbc=True)


def cluster(atoms: int = 13, edge: float = 12) -> Any:
    """Atoms near each other, somewhat shaken, in the middle of a box."""
    sites = list(itertools.islice(itertools.product(range(3), repeat=3), atoms))
    shaken = numpy.random.default_rng(1).uniform(-0.12, 0.12, (atoms, 3))
    return Atoms(f"Ar{atoms}", positions=edge / 2 - 1.1 + 1.1 * numpy.array(sites) + shaken, cell=[edge] * 3, pbc=True)


def test_of_two_atoms_by_hand(calc: Any) -> None:
    atoms = pair()
    atoms.calc = calc
    inverse = 1 / SQUARE**3
    over_distance = 24 * (2 * inverse**2 - inverse) / SQUARE
    assert atoms.get_potential_energy() == pytest.approx(4 * (inverse**2 - inverse), rel=1e-6)
    force = over_distance * 1.5
    assert atoms.get_forces() == pytest.approx(numpy.array([[-force, 0, 0], [force, 0, 0]]), rel=1e-4)
    assert atoms.get_stress() == pytest.approx(numpy.array([-force * 1.5 / 20**3, 0, 0, 0, 0, 0]), rel=1e-6)
    assert atoms.get_potential_energy(force_consistent=True) == atoms.get_potential_energy()


def test_units_of_ase(user: Any) -> None:
    atoms, reduced = pair(5.1, 68), pair()
    atoms.positions += 2.4
    reduced.calc, atoms.calc = Ljserve(sigma=1, epsilon=1, user=user, name="one"), Ljserve(sigma=3.4, epsilon=EPSILON, user=user)
    assert atoms.get_potential_energy() == pytest.approx(reduced.get_potential_energy() * EPSILON)
    assert atoms.get_forces() == pytest.approx(reduced.get_forces() * EPSILON / 3.4, rel=1e-4)
    assert atoms.get_stress() == pytest.approx(reduced.get_stress() * EPSILON / 3.4**3, rel=1e-4)


def test_forces_are_those_of_ase_but_for_bins(calc: Any) -> None:
    """By 2.6 percent in a liquid. Of atoms on a lattice all pairs of a kind have nearly one distance, and errors add up."""
    atoms, other = cluster(27), cluster(27)
    atoms.calc, other.calc = calc, LennardJones(sigma=1, epsilon=1, rc=2.5)
    wanted = other.get_forces()
    assert ((atoms.get_forces() - wanted) ** 2).sum() < 0.04**2 * (wanted**2).sum()
    assert abs(atoms.get_stress() - other.get_stress()).max() < 0.06 * abs(other.get_stress()).max()


def test_the_tensor_is_the_sum_of_forces_times_positions(user: Any) -> None:
    """Where no pair is seen round the box; also of two species, and over two blocks of atoms."""
    symbols = [("A", "B")[number % 3 == 0] for number in range(300)]
    sites = [[3 + 1.1 * part for part in site] for site in itertools.islice(itertools.product(range(8), repeat=3), 300)]
    positions = numpy.array(sites) + numpy.random.default_rng(2).uniform(-0.05, 0.05, (300, 3))
    mix = user.load_mix("mix", positions, symbols=symbols, edge=30, watch=False, **units.kob_andersen(2**20))
    composition, places = composition_of(mix, user), mix.places()
    tensor = virial_tensor(places, composition)
    assert tensor == pytest.approx(mix.positions().T @ mix.forces(), abs=2e-3 * abs(tensor).max())
    assert numpy.trace(tensor) == pytest.approx(virial(places, composition), rel=1e-9)


def test_one_session_is_loaded_once_for_all_properties(user: Any, calc: Any) -> None:
    atoms = pair()
    atoms.calc = calc
    with mock.patch.object(type(user), "load", autospec=True, side_effect=type(user).load) as load:
        atoms.get_potential_energy(), atoms.get_forces(), atoms.get_stress(), atoms.get_stress()
        assert load.call_count == 1
        atoms.positions[0] += 0.1
        atoms.get_stress(), atoms.get_forces()
        assert load.call_count == 2
        atoms.set_momenta([[1, 0, 0]] * 2)
        atoms.get_forces()
        assert load.call_count == 2
    assert [row.name for row in user.sessions()] == ["calculator"]


def test_optimizers_find_a_minimum(calc: Any) -> None:
    """Two atoms go to 2^(1/6) sigma, which is in bin 161."""
    for optimizer in (BFGS, FIRE):
        atoms = pair(1.2)
        atoms.calc = calc
        assert optimizer(atoms, logfile=None).run(fmax=0.3, steps=60)
        assert atoms.get_distance(0, 1) == pytest.approx(2 ** (1 / 6), abs=1 / 128)


def test_constraints_are_kept_by_ase(calc: Any) -> None:
    atoms = pair(1.2)
    atoms.set_constraint(FixAtoms([0]))
    atoms.calc = calc
    BFGS(atoms, logfile=None).run(fmax=0.3, steps=60)
    assert atoms.positions[0].tolist() == [1, 1, 1] and atoms.positions[1][0] == pytest.approx(1 + 2 ** (1 / 6), abs=1 / 128)


def test_an_equation_of_state(calc: Any) -> None:
    """Of a shaken crystal of 256 atoms. The least energy is where the stress changes its sign."""
    crystal = bulk("Ar", "fcc", a=1.55, cubic=True) * (4, 4, 4)
    crystal.rattle(0.02, seed=3)
    volumes, energies, stresses = [], [], []
    for factor in numpy.linspace(0.97, 1.03, 6):
        atoms = crystal.copy()
        atoms.set_cell(crystal.cell * factor, scale_atoms=True)
        atoms.calc = calc
        volumes.append(atoms.get_volume() / 256)
        energies.append(atoms.get_potential_energy() / 256)
        stresses.append(atoms.get_stress()[:3].mean())
    volume, energy, _ = EquationOfState(volumes, energies).fit()
    assert -8.5 < energy < -6.5
    assert volume == pytest.approx(numpy.interp(0, stresses, volumes), rel=0.03)


def test_a_band_of_images(calc: Any) -> None:
    images = [pair(1.12 + 0.1 * number) for number in range(3)]
    for image in images:
        image.calc = calc
    band = NEB(images, allow_shared_calculator=True)
    assert band.get_forces().shape == (2, 3)


def test_two_species(user: Any) -> None:
    """Beside ASE's calculator, for each class alone: the mixed pair has the means of Lorentz and Berthelot."""
    words: Any = {"species": ("Ar", "Kr"), "first": (3.4, 0.0103), "second": (3.65, 0.0141)}
    calc = Ljserve(user=user, **words)
    for symbols, sigma, epsilon in (("Ar2", 3.4, 0.0103), ("ArKr", 3.525, (0.0103 * 0.0141) ** 0.5), ("Kr2", 3.65, 0.0141)):
        atoms = Atoms(symbols, positions=[[0, 0, 0], [4.0, 0.3, 0]], cell=[60] * 3, pbc=True)
        other = atoms.copy()
        atoms.calc, other.calc = calc, LennardJones(sigma=sigma, epsilon=epsilon, rc=2.5 * sigma)
        assert atoms.get_forces() == pytest.approx(other.get_forces(), rel=0.06, abs=1e-5)
    with pytest.raises(ValueError, match="sigma and epsilon must be given together, got .*; use sigma= and epsilon=, or of two species"):
        Ljserve(sigma=3.4, user=user, species=("Ar", "Kr"))


def test_what_cannot_be_calculated(calc: Any) -> None:
    atoms = pair()
    atoms.calc = calc
    atoms.pbc = [True, True, False]
    with pytest.raises(ValueError, match="the cell must be periodic along each axis"):
        atoms.get_potential_energy()
    atoms.pbc = True
    energy = atoms.get_potential_energy()
    atoms.set_cell([20, 20, 21])
    with pytest.raises(ValueError, match="must be cubic"):
        atoms.get_forces()
    atoms.set_cell([20, 20, 20])
    assert atoms.get_potential_energy() == energy
    with pytest.raises(ValueError, match="must be cubic"):
        StrainFilter(atoms).set_positions(numpy.array([[0.01, 0, 0], [0, 0, 0]])), atoms.get_stress()


def test_a_program_of_its_own_ends_with_it() -> None:
    with Ljserve(sigma=1, epsilon=1) as calc:
        atoms = pair()
        atoms.calc = calc
        energy, user = atoms.get_potential_energy(), present(calc.session).user
        assert not user.closed
    assert user.closed and calc.session is None
    assert atoms.get_potential_energy() == energy
    calc.close()
    calc.close()


def test_a_user_that_is_closed_is_told(user: Any, calc: Any) -> None:
    atoms = pair()
    atoms.calc = calc
    atoms.get_potential_energy()
    user.close()
    atoms.positions[0] += 0.1
    with pytest.raises(Closed):
        atoms.get_potential_energy()
    calc.close()


@pytest.mark.parametrize("over", ["port", "unixsocket"])
def test_the_protocol_of_i_pi(user: Any, over: str) -> None:
    """ASE is the server, which relaxes two atoms by what the driver computes."""
    where: Any = {"port": free_port()} if over == "port" else {"unixsocket": f"ljclient-{free_port()}"}
    server, direct = pair(1.2), pair(1.2)
    direct.calc = Ljserve(sigma=1, epsilon=1, user=user, name="direct")
    with SocketIOCalculator(timeout=60, **where) as server.calc:
        driver = threading.Thread(target=drive, args=(pair(), Ljserve(sigma=1, epsilon=1, user=user)), kwargs=where)
        driver.start()
        assert server.get_potential_energy() == pytest.approx(direct.get_potential_energy(), rel=1e-9)
        assert server.get_forces() == pytest.approx(direct.get_forces(), rel=1e-3)
        assert server.get_stress() == pytest.approx(direct.get_stress(), rel=1e-3, abs=1e-9)
        assert FIRE(server, logfile=None).run(fmax=0.3, steps=60)
    driver.join(60)
    assert not driver.is_alive()
    assert server.get_distance(0, 1) == pytest.approx(2 ** (1 / 6), abs=1 / 128)


def test_nobody_listens() -> None:
    with Ljserve(sigma=1, epsilon=1) as calc, pytest.raises(OSError):
        drive(pair(), calc, port=free_port())
