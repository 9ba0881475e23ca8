"""`ReversibleVerlet`: molecular dynamics as a driver of ASE.

The dimer's motion is worked out by hand in test_commands. With epsilon 1 eV and mass 1 the unit of time is that of ASE.
"""
import os
import pathlib
import subprocess
import sys
from unittest import mock
from typing import Any, Dict, List, Tuple

import pytest

from ljclient import units
from support import PROGRAM, present

pytest.importorskip("ase", reason="ASE is not installed")

import ase.units
import numpy
from ase import Atoms
from ase.build import bulk
from ase.calculators.lj import LennardJones
from ase.constraints import FixAtoms
from ase.io.trajectory import Trajectory
from ase.md.logger import MDLogger
from ase.md.md import MolecularDynamics
from ase.md.velocitydistribution import MaxwellBoltzmannDistribution
from ase.md.verlet import VelocityVerlet
from ljclient.ase import ReversibleVerlet

UNIT = 2.0**-24
DT = 2**-7.5
WAY = [0, 589, 1774, 3555]  # of atom 0, in 2^-24; 596 more for each step, as in test_sampling
ONE: Dict[str, Any] = {"sigma": 1, "epsilon": 1}
ARGON: Dict[str, Any] = {"sigma": 3.4, "epsilon": 119.8 * units.kelvin}


@pytest.fixture
def pair() -> Any:
    """Two atoms whose velocities are those of the first step from rest, so that they were at rest a step before."""
    atoms = Atoms("Ar2", positions=[[0, 0, 0], [1.5, 0, 0]], cell=[256] * 3, pbc=True, masses=[1, 1])
    velocity = WAY[1] * UNIT / (2 * DT)
    atoms.set_velocities([[velocity, 0, 0], [-velocity, 0, 0]])
    return atoms


@pytest.fixture
def dimer(user: Any, pair: Any) -> Any:
    return ReversibleVerlet(pair, DT, user=user, **ONE)


@pytest.fixture
def liquid() -> Any:
    atoms = bulk("Ar", "fcc", a=5.9, cubic=True) * (3, 3, 3)
    MaxwellBoltzmannDistribution(atoms, temperature_K=200, rng=numpy.random.default_rng(1))
    return atoms


def of(atoms: Any) -> Tuple[Any, Any]:
    return atoms.get_positions().tolist(), atoms.get_momenta().tolist()


def test_it_is_a_driver_of_ase(dimer: Any) -> None:
    assert isinstance(dimer, MolecularDynamics)
    assert dimer.dt == pytest.approx(DT, rel=1e-12)


def test_the_atoms_move_as_the_definition_says(pair: Any, dimer: Any) -> None:
    for step in (1, 2):
        dimer.run(1)
        assert pair.positions.tolist() == [[WAY[step] * UNIT, 0, 0], [1.5 - WAY[step] * UNIT, 0, 0]]
        velocity = (WAY[step + 1] - WAY[step - 1]) * UNIT / (2 * DT)
        assert pair.get_velocities()[:, 0] == pytest.approx([velocity, -velocity], rel=1e-9)
        force = (WAY[step + 1] - 2 * WAY[step] + WAY[step - 1]) * UNIT / DT**2
        assert pair.get_forces()[:, 0] == pytest.approx([force, -force], rel=1e-9)
        assert pair.get_potential_energy() == -5399727 / 2**24
    assert (dimer.nsteps, dimer.session.get_step(), dimer.get_time()) == (2, 2, pytest.approx(2 * DT))


def test_positions_and_momenta_come_back_to_the_bit(user: Any, liquid: Any) -> None:
    dynamics = ReversibleVerlet(liquid, 4 * ase.units.fs, user=user, **ARGON)
    start, energy = of(liquid), liquid.get_potential_energy()
    dynamics.run(30)
    there = of(liquid)
    assert there != start
    dynamics.reverse()
    assert (liquid.get_positions().tolist(), (-liquid.get_momenta()).tolist()) == there
    dynamics.run(30)
    dynamics.reverse()
    assert (of(liquid), liquid.get_potential_energy(), dynamics.nsteps) == (start, energy, 60)


def test_momenta_are_those_of_the_step(user: Any, liquid: Any) -> None:
    wanted, positions = liquid.get_velocities(), liquid.get_positions()
    dynamics = ReversibleVerlet(liquid, 4 * ase.units.fs, user=user, **ARGON)
    ring = liquid.cell[0][0] / 2**32
    assert abs(liquid.get_velocities() - wanted).max() <= ring / dynamics.dt
    assert abs(liquid.get_positions() - positions).max() <= 2 * ring


def test_it_goes_as_the_verlet_driver_of_ase(user: Any, liquid: Any) -> None:
    other = liquid.copy()
    other.calc = LennardJones(sigma=3.4, epsilon=ARGON["epsilon"], rc=8.5)
    ReversibleVerlet(liquid, 4 * ase.units.fs, user=user, **ARGON).run(25)
    VelocityVerlet(other, 4 * ase.units.fs).run(25)
    moved = abs(other.get_positions() - bulk("Ar", "fcc", a=5.9, cubic=True).repeat(3).get_positions()).max()
    assert moved > 0.5
    assert abs(liquid.get_positions() - other.get_positions()).max() < 1e-3
    assert abs(liquid.get_forces() - other.get_forces()).max() < 0.03 * abs(other.get_forces()).max()


def test_what_is_attached_is_called_at_its_intervals(dimer: Any) -> None:
    called: Dict[Any, Any] = {2: [], 3: [], -4: []}
    for interval, steps in called.items():
        dimer.attach(lambda steps=steps: steps.append(dimer.nsteps), interval)
    dimer.run(7)
    dimer.run(2)
    assert called == {2: [0, 2, 4, 6, 8], 3: [0, 3, 6, 9], -4: [4]}


def test_the_steps_between_go_in_one_command(dimer: Any) -> None:
    dimer.attach(lambda: None, 40)
    with mock.patch.object(type(dimer.session), "advance", wraps=dimer.session.advance) as advance:
        dimer.run(100)
    assert [call.args for call in advance.call_args_list] == [(40,), (40,), (20,)]


def test_irun_stops_after_each_step(dimer: Any) -> None:
    seen = [(dimer.nsteps, ended) for ended in dimer.irun(3)]
    assert seen == [(0, False), (1, False), (2, False), (3, False), (3, True)]


def test_an_interrupt_leaves_atoms_and_steps_as_they_are(dimer: Any, pair: Any) -> None:
    advance = dimer.session.advance

    def broken_off(_: Any, count: Any) -> None:
        advance(1)
        raise KeyboardInterrupt

    with mock.patch.object(type(dimer.session), "advance", broken_off), pytest.raises(KeyboardInterrupt):
        dimer.run(5)
    assert (dimer.nsteps, dimer.session.get_step(), pair.positions[0][0]) == (1, 1, 589 * UNIT)
    dimer.run(1)
    assert (dimer.nsteps, pair.positions[0][0]) == (2, 1774 * UNIT)


def test_one_step(dimer: Any, pair: Any) -> None:
    forces = dimer.step()
    assert pair.positions[0].tolist() == [589 * UNIT, 0, 0]
    assert forces.tolist() == pair.get_forces().tolist()


def test_trajectory_and_logfile(user: Any, pair: Any, tmp_path: pathlib.Path) -> None:
    words: Dict[str, Any] = {"trajectory": str(tmp_path / "way.traj"), "logfile": str(tmp_path / "way.log"), "loginterval": 2}
    with ReversibleVerlet(pair, DT, user=user, **words, **ONE) as dynamics:
        dynamics.run(4)
    frames = Trajectory(words["trajectory"])
    assert [frame.positions[0][0] for frame in frames][:2] == [0, 1774 * UNIT]
    assert frames[1].get_forces()[0][0] == pytest.approx(596 * UNIT / DT**2)
    assert (len(frames), frames[1].get_potential_energy()) == (3, -5399727 / 2**24)
    rows = [list(map(float, line.split())) for line in (tmp_path / "way.log").read_text().splitlines()[1:]]
    assert [row[2] for row in rows[:2]] == pytest.approx([-5349132 / 2**24, -5399727 / 2**24], abs=1e-4)


def test_a_trajectory_is_appended_to(user: Any, pair: Any, tmp_path: pathlib.Path) -> None:
    path = str(tmp_path / "way.traj")
    for append in (False, True):
        with ReversibleVerlet(pair, DT, path, user=user, append_trajectory=append, **ONE) as dynamics:
            dynamics.run(1)
    assert len(Trajectory(path)) == 4


def test_a_trajectory_and_a_logger_that_are_attached(dimer: Any, pair: Any, tmp_path: pathlib.Path) -> None:
    path, log = tmp_path / "way.traj", tmp_path / "way.log"
    with Trajectory(str(path), "w", pair) as trajectory:
        dimer.attach(trajectory, interval=1)
        dimer.attach(MDLogger(dimer, pair, str(log), peratom=True), interval=1)
        dimer.run(2)
    assert [frame.positions[0][0] for frame in Trajectory(str(path))] == [way * UNIT for way in WAY[:3]]
    assert len(log.read_text().splitlines()) == 4


def test_atoms_go_on_where_they_leave_the_cell(user: Any) -> None:
    atoms = Atoms("Ar", positions=[[255.99, 0, 0]], cell=[256] * 3, pbc=True, masses=[1])
    atoms.set_velocities([[1, 0, 0]])
    dynamics = ReversibleVerlet(atoms, DT, user=user, **ONE)
    dynamics.run(300)
    assert atoms.positions[0][0] == pytest.approx(255.99 + 300 * DT, abs=1e-5)
    atoms.wrap()
    dynamics.run(300)
    assert dynamics.session.get_step() == 600
    assert atoms.positions[0][0] == pytest.approx(600 * DT - 0.01, abs=1e-5)


def test_a_fast_atom_is_followed_round_the_cell(user: Any, recwarn: pytest.WarningsRecorder) -> None:
    atoms = Atoms("Ar", positions=[[0, 0, 0]], cell=[8] * 3, pbc=True, masses=[1])
    atoms.set_velocities([[50, 0, 0]])
    ReversibleVerlet(atoms, DT, user=user, **ONE).run(50)
    assert atoms.positions[0][0] == pytest.approx(50 * 50 * DT, rel=1e-6)
    assert [each for each in recwarn.list if each.category is UserWarning] == []


def test_momenta_that_are_changed_count_from_then_on(dimer: Any, pair: Any) -> None:
    dimer.run(2)
    pair.set_velocities([[0, 1, 0], [0, 1, 0]])
    here = pair.get_positions()
    dimer.run(1)
    assert (pair.get_positions() - here)[:, 1] == pytest.approx([DT, DT], rel=1e-5)
    assert (dimer.nsteps, dimer.session.get_step()) == (3, 1)


def test_two_species(user: Any) -> None:
    positions = [[0, 0, 0], [1.5, 0, 0], [128, 0, 0], [129.5, 0, 0]]
    atoms = Atoms("NiPNi2", positions=positions, cell=[256] * 3, pbc=True)
    words: Dict[str, Any] = {"species": ("Ni", "P"), "first": (1, 1), "second": (0.88, 0.5), "mixed": (0.8, 1.5), "mass": 1}
    dynamics = ReversibleVerlet(atoms, DT / 4, user=user, **words)
    assert present(dynamics.session.mixture).species == ("Ni", "P")
    unlike, like = (4 * epsilon * ((sigma / 1.5) ** 12 - (sigma / 1.5) ** 6) for sigma, epsilon in ((0.8, 1.5), (1, 1)))
    assert atoms.get_potential_energy() == pytest.approx(unlike + like, rel=0.01)
    assert set(atoms.get_masses()) == {1}


def stepped(dynamics: Any) -> None:
    for _ in dynamics.irun(1):
        pass


@pytest.mark.parametrize("go", [lambda each: each.run(1), lambda each: each.step(), lambda each: each.reverse(), stepped])
def test_a_constraint_on_the_way_is_an_error(dimer: Any, pair: Any, go: Any) -> None:
    dimer.run(2)
    before = of(pair)
    pair.set_constraint(FixAtoms([0]))
    with pytest.raises(ValueError, match="must have no constraints, since they are not kept here; use atoms.set_constraint"):
        go(dimer)
    assert (of(pair), dimer.nsteps, dimer.session.get_step()) == (before, 2, 2)
    pair.set_constraint()
    dimer.run(1)
    assert pair.positions[0][0] == WAY[3] * UNIT


def test_a_constraint_that_is_set_by_what_is_attached_is_an_error(dimer: Any, pair: Any) -> None:
    dimer.attach(lambda: pair.set_constraint(FixAtoms([0])), -2)
    with pytest.raises(ValueError, match="must have no constraints, since they are not kept here"):
        dimer.run(5)
    assert (dimer.nsteps, dimer.session.get_step(), pair.positions[0][0]) == (2, 2, WAY[2] * UNIT)


def test_atoms_of_another_kind(user: Any, pair: Any) -> None:
    def told(match: Any, change: Any = None, **words: Any) -> None:
        atoms = pair.copy()
        if change:
            change(atoms)
        with pytest.raises(ValueError, match=match):
            ReversibleVerlet(atoms, DT, user=user, **(words or ONE))

    told("must have no constraints", lambda atoms: atoms.set_constraint(FixAtoms([0])))
    told("must be periodic along each axis", lambda atoms: atoms.set_pbc([True, True, False]))
    told("cell of the atoms must be cubic", lambda atoms: atoms.set_cell([256, 256, 250]))
    told(
        "the atoms must have one symbol for one sigma and epsilon, got Ar, Kr; use of two species",
        lambda atoms: atoms.set_chemical_symbols("ArKr"),
        mass=1,
        **ONE,
    )
    told("the atoms must all have one mass, got 2 masses; use mass=", lambda atoms: atoms.set_masses([1, 2]))
    wrong: List[Dict[str, Any]] = [{"sigma": 1}, {"species": ("A", "B"), "first": (1, 1)}, {**ONE, "species": ("A", "B")}]
    for words in wrong:
        told("sigma and epsilon must be given together, got .*; use sigma= and epsilon=, or of two species", **words)
    assert user.sessions() == []


def test_a_trajectory_stays_if_the_atoms_cannot_be_loaded(user: Any, pair: Any, tmp_path: pathlib.Path) -> None:
    path = tmp_path / "way.traj"
    path.write_text("of before")
    pair.set_pbc(False)
    with pytest.raises(ValueError):
        ReversibleVerlet(pair, DT, str(path), user=user, **ONE)
    assert path.read_text() == "of before"


def test_a_program_of_its_own_ends_with_it(pair: Any) -> None:
    with mock.patch.dict(os.environ, LJSERVE=PROGRAM), ReversibleVerlet(pair, DT, **ONE) as dynamics:
        owner = dynamics.session._user
        dynamics.run(1)
    assert owner.closed


def test_a_user_that_is_said_stays(user: Any, pair: Any) -> None:
    with ReversibleVerlet(pair, DT, user=user, name="mine", **ONE) as dynamics:
        dynamics.run(2)
    assert (user.closed, user.session("mine").get_step()) == (False, 2)


def test_without_ase_it_says_what_to_install(tmp_path: pathlib.Path) -> None:
    (tmp_path / "ase.py").write_text("raise ModuleNotFoundError(\"No module named 'ase'\", name='ase')\n")
    code = "import ljclient\ntry:\n    import ljclient.ase\nexcept ljclient.Missing as error:\n    print(error)\n"
    words: Dict[str, Any] = {**os.environ, "PYTHONPATH": os.pathsep.join([str(tmp_path), *sys.path]), "PYTHONDONTWRITEBYTECODE": "1"}
    done = subprocess.run([sys.executable, "-c", code], env=words, capture_output=True, text=True, timeout=60)
    assert "`pip install ase`, or Debian's python3-ase" in done.stdout, done
