"""Pressures and forces, held against LAMMPS and against sums by hand.

    python3 clients/python/tests/test_pressure.py

prints what `docs/ACCURACY.md` tells of them, of the program that LJSERVE names.
"""
import itertools
import pathlib
import random
import sys
import tempfile
from typing import Any, List, NamedTuple
from unittest import mock

if __name__ == "__main__":
    sys.path.insert(0, str(pathlib.Path(__file__).resolve().parents[1]))

import pytest

from ljclient import ClientError, arrays, run, units
from support import EXAMPLES, PROGRAM, dimer

numpy = pytest.importorskip("numpy", reason="numpy is not installed")

import lammps  # noqa: E402

needs_lammps = pytest.mark.skipif(lammps.LMP is None, reason="LAMMPS is not installed")
ATOMS, DENSITY, FRAMES = 256, 0.8442, 20
SPEED = 2_600_000
"""Of the start along each axis at most, in ring units for each step."""


class Figures(NamedTuple):
    """Of the 20 frames: the mean pressure by the client and by LAMMPS and the largest difference of a frame, in epsilon / sigma^3;
    the root mean square of the forces, and of the error of the client's, as a part of it."""

    pressure: float
    pressure_of_lammps: float
    largest_difference: float
    force: float
    error: float


# Of LAMMPS (29 Sep 2021, update 2). The frames are whole numbers, so they are the same everywhere.
WANTED = Figures(0.6698732536783366, 0.665170392894, 0.013717946668841963, 23.624406956369793, 0.025617456807495123)
MOST_PRESSURE = 0.02
# The root mean square of the error of a force in the liquid, in docs/ACCURACY.md.
MOST_ERROR = 0.026


def liquid_frames(user: Any) -> Any:
    """20 frames of a liquid of 256 atoms: a crystal of its density that has melted, begun with whole numbers alone."""
    edge = units.edge_of_density(ATOMS, DENSITY)
    corners = [(0, 0, 0), (0, 0.5, 0.5), (0.5, 0, 0.5), (0.5, 0.5, 0)]
    cells = itertools.product(range(4), repeat=3)
    sites = [tuple((cell[axis] + corner[axis]) * edge / 4 for axis in range(3)) for cell in cells for corner in corners]
    liquid = user.load("liquid", sites, symbols="Ar", edge=edge, sigma=1, h=16384, watch=False)
    number = 1
    for atom in range(ATOMS):
        speeds = []
        for _ in range(3):
            number = number * 69069 % 2**31
            speeds.append(number % (2 * SPEED) - SPEED)
        liquid.tug(atom, speeds)
    liquid.advance(6000)
    return list(liquid.frames(every=100, n=FRAMES))


def figures(frames: Any, folder: Any) -> Any:
    """What is measured of the frames."""
    told = lammps.told_of(frames, folder)
    pressures = numpy.array([frame.pressure for frame in frames])
    forces = numpy.array([frame.forces for frame in frames])
    force = numpy.sqrt((told.forces**2).sum(axis=2).mean())
    error = numpy.sqrt(((forces - told.forces) ** 2).sum(axis=2).mean())
    largest = abs(pressures - told.pressures).max()
    return Figures(*map(float, (pressures.mean(), told.pressures.mean(), largest, force, error / force)))


@needs_lammps
def test_pressures_and_forces_are_those_of_lammps(user: Any, tmp_path: pathlib.Path) -> None:
    measured = figures(liquid_frames(user), tmp_path)
    assert abs(measured.pressure - measured.pressure_of_lammps) < MOST_PRESSURE
    assert measured.error < MOST_ERROR
    assert measured == pytest.approx(WANTED, rel=1e-4)


def test_the_mean_pressure_is_the_figure_that_lammps_told(user: Any) -> None:
    pressures = [frame.pressure for frame in liquid_frames(user)]
    assert sum(pressures) / FRAMES == pytest.approx(WANTED.pressure_of_lammps, abs=MOST_PRESSURE)


def test_of_two_atoms_by_hand(user: Any) -> None:
    a = dimer(user)
    # At step 1 they have come from 0 and 25165824 to 589 and 25165235, and go on to 1774 and 25164050: 1774 / 2 in two steps.
    a.advance(1)
    kinetic = 2 * (1774 / 2) ** 2 * 2**32 / (2 * 2**48 * 131072)
    # In bin 287, whose entry is 13028153 of 2^-24 epsilon / sigma^2 toward each other.
    virial = -13028153 / 2**24 * ((25165235 - 589) / 2**24) ** 2
    wanted = (2 * kinetic + virial) / (3 * 256**3)
    assert a.pressure() == pytest.approx(wanted, rel=1e-12)
    assert next(a.frames(every=1, n=1)).pressure == a.pressure()
    assert a.get_step() == 1


def droplet(count: Any, seed: Any, edge: Any) -> List[Any]:
    """Atoms near each other in the middle of a box: places that no pair of them sees round the box."""
    drawn = random.Random(seed)
    sites = itertools.islice(itertools.product(range(8), repeat=3), count)
    return [tuple(edge / 2 + 1.1 * (part - 4) + drawn.uniform(-0.05, 0.05) for part in site) for site in sites]


def test_the_virial_of_a_droplet_is_that_of_its_forces(user: Any) -> None:
    """The sum of force times distance over all pairs is that of force times position over all atoms, where none is round the box.
    With a large h the rounding of a push counts for little."""
    a = user.load("a", droplet(300, 1, 30), symbols="Ar", edge=30, sigma=1, h=2**24, watch=False)
    frame = next(a.frames(every=1, n=1))
    wanted = (frame.forces * frame.positions).sum()
    kinetic = (frame.velocities**2).sum() / 2
    assert frame.pressure * 3 * 30**3 - 2 * kinetic == pytest.approx(wanted, rel=1e-4)


def test_of_two_species(user: Any) -> None:
    symbols = [("A", "B")[number % 3 == 0] for number in range(300)]
    mix = user.load_mix("mix", droplet(300, 2, 30), symbols=symbols, edge=30, watch=False, **units.kob_andersen(2**22))
    frame = next(mix.frames(every=1, n=1))
    wanted, kinetic = (frame.forces * frame.positions).sum(), (frame.velocities**2).sum() / 2
    assert frame.pressure * 3 * 30**3 - 2 * kinetic == pytest.approx(wanted, rel=1e-4)
    assert mix.pressure() == frame.pressure


def test_in_bar(user: Any) -> None:
    argon = user.load("argon", EXAMPLES / "argon_256.xyz", edge=21.04, dt=2, **units.ARGON)
    argon.heat(90)
    epsilon, sigma = units.ARGON["epsilon"], units.ARGON["sigma"]
    # In SI units: epsilon in joule over sigma^3 in cubic metres, and 10^5 Pa.
    wanted = argon.pressure() * epsilon * 1.602176634e-19 / (sigma * 1e-10) ** 3 / 1e5
    assert argon.pressure() * epsilon / sigma**3 / units.bar == pytest.approx(wanted, rel=1e-12)


def test_without_numpy_it_is_told_what_to_install(user: Any) -> None:
    a = dimer(user)
    frame = next(a.frames(every=1, n=1))
    with mock.patch.object(arrays, "numpy", None):
        for ask in (a.pressure, lambda: frame.pressure):
            with pytest.raises(ClientError, match="pip install numpy"):
                ask()
    assert a.get_step() == 0


def main() -> None:
    with run(PROGRAM) as user, tempfile.TemporaryDirectory() as folder:
        frames = liquid_frames(user)
        print(figures(frames, pathlib.Path(folder)))
        print("temperature", sum(frame.energies.temperature for frame in frames) / FRAMES)


if __name__ == "__main__":
    main()
