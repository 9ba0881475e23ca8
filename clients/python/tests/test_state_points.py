"""Lattices, slabs, droplets and mixtures, and sessions at a temperature and a density, held against closed forms."""
import itertools
import math
from typing import Any, List

import pytest

from ljclient import run, units
from ljclient.state_points import Configuration, Mean, binary, droplet, equation_of_state, equilibrate, johnson, lattice, relax
from ljclient.state_points import slab, state_point
from support import PROGRAM, listed, present

numpy = pytest.importorskip("numpy", reason="numpy is not installed")

from ljclient import state_points  # noqa: E402

PAIR = "2\nout of reach\nA 10 10 10\nA 100 100 100\n"


def neighbours(configuration: Configuration) -> Any:
    """Of each atom the distances from all others, the nearer way round, in order."""
    positions = numpy.array(configuration.get_positions())
    apart = positions[:, None] - positions
    apart -= configuration.edge * numpy.rint(apart / configuration.edge)
    return numpy.sort(numpy.sqrt((apart**2).sum(axis=2)), axis=1)[:, 1:]


@pytest.mark.parametrize(
    "kind, atoms, cell_atoms, nearest, count",
    [("sc", 27, 1, 1.0, 6), ("bcc", 54, 2, math.sqrt(3) / 2, 8), ("fcc", 108, 4, math.sqrt(1 / 2), 12)],
)
def test_lattices_by_their_nearest_neighbours(kind: str, atoms: int, cell_atoms: int, nearest: float, count: int) -> None:
    crystal = lattice(kind, density=0.9, atoms=atoms, sigma=3.4)
    cell = 3.4 * (cell_atoms / 0.9) ** (1 / 3)
    assert crystal.n_atoms == atoms and [crystal.edge, crystal.density] == pytest.approx([3 * cell, 0.9])
    found = neighbours(crystal)
    assert found[:, :count] == pytest.approx(numpy.full((atoms, count), nearest * cell))
    assert (found[:, count] > 1.1 * nearest * cell).all()
    assert set(crystal.symbols) == {"Ar"}


def test_a_density_of_mass() -> None:
    """864 atoms of argon at 1.374 g/cm^3, of which each has 39.948 times 1.66053907 times 10^-24 g."""
    wanted = (864 * 39.948 * 1.66053907 / 1.374) ** (1 / 3)
    assert lattice("fcc", density=1.374, atoms=864, sigma=3.4, mass=39.948).edge == pytest.approx(wanted, rel=1e-8)


def test_atoms_at_random_do_not_overlap() -> None:
    liquid = lattice("random", density=0.85, atoms=150, seed=1)
    assert neighbours(liquid).min() >= 0.9
    assert liquid.positions == lattice("random", density=0.85, atoms=150, seed=1).positions
    assert liquid.positions != lattice("random", density=0.85, atoms=150, seed=2).positions
    assert all(0 <= part < liquid.edge for place in liquid.positions for part in place)


def test_only_what_overlaps_is_pushed_apart() -> None:
    """Each of two atoms goes half of the way that is missing to 1.02 of the distance."""
    wanted = (5 - 0.459, 5 + 0.459)
    relaxed = relax(Configuration(("A",) * 3, ((4.8, 5, 5), (5.2, 5, 5), (9, 9, 9)), 10.0))
    assert numpy.array(relaxed.positions) == pytest.approx(numpy.array([(wanted[0], 5, 5), (wanted[1], 5, 5), (9, 9, 9)]))
    assert neighbours(relax(Configuration(("A",) * 4, ((1, 1, 1),) * 4, 10.0), closest=1.0)).min() >= 1.0
    round_the_box = relax(Configuration(("A",) * 2, ((0.1, 5, 5), (9.9, 5, 5)), 10.0))
    assert neighbours(round_the_box).min() == pytest.approx(0.918)


def test_atoms_of_ase_are_relaxed() -> None:
    ase = pytest.importorskip("ase", reason="ASE is not installed")
    atoms = ase.Atoms("ArKr", positions=[[16.3, 17, 17], [17.7, 17, 17]], cell=[34] * 3, pbc=True)
    relaxed = relax(atoms, sigma=3.4)
    assert numpy.array(relaxed.positions)[:, 0] == pytest.approx([17 - 0.459 * 3.4, 17 + 0.459 * 3.4])
    assert (relaxed.symbols, relaxed.edge, relaxed.sigma) == (("Ar", "Kr"), 34, 3.4)
    with pytest.raises(ValueError, match="use sigma="):
        relax(atoms)
    with pytest.raises(TypeError, match="got list"):
        relax([[0, 0, 0]])


def test_a_slab() -> None:
    """Of fcc cells with an edge of (4 / 0.8)^(1/3) = 1.71: 10 sigma are 6 of them and 4 sigma are 2."""
    film = slab("fcc", density=0.8, edge=10, thickness=4)
    cell = 5 ** (1 / 3)
    assert film.n_atoms == 4 * 6 * 6 * 2 and film.edge == pytest.approx(6 * cell)
    heights = [z for _, _, z in film.positions]
    assert [min(heights), max(heights)] == pytest.approx([2.25 * cell, 3.75 * cell])
    assert neighbours(film)[:, 0] == pytest.approx(numpy.full(288, cell / math.sqrt(2)))


def test_a_droplet() -> None:
    drop = droplet("sc", density=1.0, radius=2, edge=20)
    sites = [0.25 + number - 2 for number in range(4)]
    inside = sum(math.dist(site, (0, 0, 0)) <= 2 for site in itertools.product(sites, repeat=3))
    assert (drop.n_atoms, drop.edge) == (inside, 20)
    assert max(math.dist(place, (10, 10, 10)) for place in drop.positions) <= 2


def test_mixtures() -> None:
    crystal = lattice("fcc", density=0.8, atoms=108)
    mixed = binary(crystal, ("A", "B"), fraction=0.25, seed=3)
    assert (mixed.symbols.count("B"), mixed.positions, mixed.edge) == (27, crystal.positions, crystal.edge)
    assert mixed.symbols == binary(crystal, ("A", "B"), fraction=0.25, seed=3).symbols
    apart = binary(crystal, ("A", "B"), apart=True)
    left, right = ([x for (x, _, _), kind in zip(apart.positions, apart.symbols) if kind == species] for species in "AB")
    assert len(left) == len(right) == 54 and max(left) <= min(right)


@pytest.mark.parametrize(
    "ask, told",
    [
        (lambda: lattice("hcp", density=1, atoms=4), "kind must be one of bcc, fcc, sc"),
        (lambda: lattice("fcc", density=1, atoms=250), "such as 108, 256, 500, got 250"),
        (lambda: lattice("sc", density=0, atoms=8), "density must be"),
        (lambda: lattice("random", density=3.0, atoms=50), "close packing of 50 atoms, got 0.9"),
        (lambda: slab("fcc", density=0.8, edge=10, thickness=10), "thickness must be"),
        (lambda: droplet("fcc", density=0.8, radius=5, edge=10), "edge must be above 10"),
        (lambda: binary(lattice("sc", density=1, atoms=8), "AB"), "species must be two symbols"),
        (lambda: binary(lattice("sc", density=1, atoms=8), ("A", "B"), fraction=2), "fraction must be from 0 to 1"),
        (lambda: johnson(-1, 1), "density"),
        (lambda: equation_of_state(None, [], 1.0), "densities must have at least one"),  # type: ignore[arg-type]
    ],
)
def test_what_cannot_be(ask: Any, told: str) -> None:
    with pytest.raises(ValueError, match=told):
        ask()


def test_a_configuration_is_loaded_with_its_box(user: Any) -> None:
    crystal = lattice("fcc", density=0.2, atoms=32, sigma=3.4)
    argon = user.load("argon", crystal, dt=2, **units.ARGON)
    assert (argon.n_atoms, argon.edge, argon.symbols()) == (32, crystal.edge, ["Ar"] * 32)
    assert numpy.array(argon.positions()) == pytest.approx(numpy.array(crystal.positions), abs=1e-8)
    mix = user.load_mix("mix", binary(crystal, ("Ar", "Kr")), species=("Ar", "Kr"), classes=[(3.4, 4096, 256)] * 3)
    assert mix.symbols().count("Kr") == 16


def test_the_equation_of_johnson_has_its_critical_point() -> None:
    """It was fitted so that both derivatives by the density vanish there, which all 32 parameters take part in."""
    step, (density, temperature) = 1e-3, (0.31, 1.313)
    below, at, above = (johnson(density + by, temperature) for by in (-step, 0, step))
    assert (above - below) / (2 * step) == pytest.approx(0, abs=1e-4)
    assert (above - 2 * at + below) / step**2 == pytest.approx(0, abs=1e-3)


@pytest.mark.parametrize("temperature, reduced", [(1.0, -2.538081), (2.0, -0.627625), (5.0, 0.243343)])
def test_a_thin_gas_has_the_second_virial_coefficient(temperature: float, reduced: float) -> None:
    """Those of Hirschfelder, Curtiss and Bird, 1954, table I-B, in units of 2 pi sigma^3 / 3."""
    density = 1e-4
    found = (johnson(density, temperature) / (density * temperature) - 1) / density
    assert found == pytest.approx(reduced * 2 * math.pi / 3, abs=0.03)


def test_a_mean_and_its_error_by_blocks() -> None:
    """Of ten blocks of two values, whose means are 0.5, 2.5, .. 18.5: their variance is 4 (100 - 1) / 12 * 10 / 9."""
    told = state_points._mean_of(list(range(20)))
    assert told == pytest.approx((9.5, math.sqrt(4 * 99 / 12 * 10 / 9 / 10)))
    assert str(Mean(1.23456, 0.0123)) == "1.235 +- 0.012"


def test_of_an_ideal_gas(user: Any) -> None:
    """Two atoms out of reach, of which each goes 2^12 ring units in a step, the ways apart: all frames are alike."""
    a = user.load("a", PAIR, symbols="A", edge=256, sigma=1, h=131072)
    a.tug(0, (2**12, 0, 0))
    a.tug(1, (-(2**12), 0, 0))
    point = state_point(a, 9)
    kinetic = 2 * 2**24 * 2**32 / (2 * 2**48 * 131072)
    density, inverse = 2 / 256**3, 2.5**-3
    tails = (
        16 / 3 * math.pi * density**2 * (2 / 3 * inverse**3 - inverse),
        8 / 3 * math.pi * density * (inverse**3 / 3 - inverse),
    )
    assert point.tails == pytest.approx(tails, rel=1e-9)
    assert point.temperature == pytest.approx((kinetic / 3, 0), rel=1e-9)
    assert point.pressure == pytest.approx((2 * kinetic / (3 * 256**3) + tails[0], 0), rel=1e-9)
    assert point.energy == pytest.approx((tails[1], 0), rel=1e-9)
    assert (point.density, point.n_frames, a.get_step(), point.session) == (density, 10, 9, a)


def test_tails_are_those_of_lammps(user: Any) -> None:
    """`pair_modify tail yes` at density 0.8442: LAMMPS (29 Sep 2021) tells -6.997451969 for -6.23531727 epsilon / sigma^3 of the
    crystal, and -7.225380678 for -6.773368053 epsilon per atom."""
    liquid = user.load("a", lattice("fcc", density=0.8442, atoms=256), sigma=1, h=4295)
    assert state_points._tails_of(liquid) == pytest.approx((6.23531727 - 6.997451969, 6.773368053 - 7.225380678), rel=1e-6)


def test_tails_of_a_mixture(user: Any) -> None:
    """Of three classes with numbers of their own, for half of each species: a quarter, a half, a quarter of `epsilon sigma^3`."""
    crystal = binary(lattice("fcc", density=0.1, atoms=32), ("A", "B"))
    classes = [(1.0, 4096, 256), (0.8, 9600, 384), (0.88, 2645, 128)]
    mix = user.load_mix("mix", crystal, species=("A", "B"), classes=classes)
    alike = user.load("alike", crystal, symbols="A", sigma=1, h=4096)
    pressure, energy = (one / other for one, other in zip(state_points._tails_of(mix), state_points._tails_of(alike)))
    assert pressure == pytest.approx(0.25 + 0.5 * 1.5 * 0.8**3 + 0.25 * 0.5 * 0.88**3, rel=1e-4)
    assert energy == pytest.approx(0.25 + 0.5 * 1.5 * 0.8**3 + 0.25 * 0.5 * 0.88**3, rel=1e-6)


def test_another_density(user: Any) -> None:
    fluid = user.load("fluid", lattice("fcc", density=0.2, atoms=32, sigma=3.4), dt=4, watch=False, **units.ARGON)
    point = equilibrate(fluid, 200, density=0.05, steps=100, seed=2)
    assert (point.session.name, point.session.n_atoms, [row.name for row in user.sessions()]) == ("fluid", 32, ["fluid"])
    assert point.session.edge == pytest.approx(3.4 * (32 / 0.05) ** (1 / 3))
    assert point.density == pytest.approx(0.05) and point.session.h == fluid.h
    assert point.temperature.value == pytest.approx(200, rel=0.2)
    assert point.reduced_temperature == pytest.approx(point.temperature.value / 119.8)
    assert " K: pressure " in str(point)
    assert point.session.get_step() == 100


def test_a_compressed_mixture_stays_one(user: Any) -> None:
    crystal = binary(lattice("fcc", density=0.1, atoms=32), ("A", "B"), fraction=0.25)
    classes = [(1.0, 4096, 256), (0.8, 9600, 384), (0.88, 2645, 128)]
    mix = user.load_mix("mix", crystal, species=("A", "B"), classes=classes, order="space", watch=False)
    point = equilibrate(mix, 1.0, density=0.2, steps=40)
    mixture = present(point.session.mixture)
    assert mixture.species == ("A", "B")
    assert [(each.h, each.weight) for each in mixture.classes] == [(h, weight) for _, h, weight in classes]
    assert point.session.symbols() == list(crystal.symbols)
    assert user._known_of("mix").is_sorted and not user._known_of("mix").watch.is_on


@pytest.mark.parametrize("words", [{"temperature": 0}, {"temperature": 1, "density": -1}, {"temperature": 1, "steps": 19}])
def test_what_cannot_be_reached_changes_nothing(user: Any, words: Any) -> None:
    a = user.load("a", PAIR, symbols="A", edge=256, sigma=1, h=131072)
    before: List[Any] = [a.get_step(), listed(a.places()), a.measure()]
    with pytest.raises(ValueError):
        equilibrate(a, **words)
    assert [a.get_step(), listed(a.places()), a.measure()] == before


def test_a_table_of_an_equation_of_state() -> None:
    """Of a gas so thin that it is ideal to a percent, at 4 atoms for each thousand sigma^3 and fewer."""
    with run(PROGRAM) as user:
        table = equation_of_state(user, [0.004, 0.002], 4.0, atoms=4, steps=40)
        assert user.sessions() == []
    assert [point.density for point in table] == pytest.approx([0.004, 0.002], rel=1e-6)
    for point in table:
        assert point.pressure.value == pytest.approx(point.density * point.temperature.value, rel=0.02)
    assert len(str(table).splitlines()) == 2
    pytest.importorskip("matplotlib", reason="matplotlib is not installed").use("Agg")
    axes = table.plot()
    (curve, *_) = axes.lines
    assert curve.get_ydata()[-1] == pytest.approx(johnson(curve.get_xdata()[-1], sum(p.temperature.value for p in table) / 2))
