"""What analyses say of cases that are known in closed form: ideal gases, crystals, random walks, and noise that dies out."""
import itertools
import math
import pickle
import time
from typing import Any, Iterator, List, Tuple

import pytest

numpy = pytest.importorskip("numpy", reason="numpy is not installed")

from ljclient import analysis  # noqa: E402
from ljclient.analysis import Frame  # noqa: E402
from ljclient.analysis.estimates import errors_of  # noqa: E402
from ljclient.analysis.rdf import NEAR_PART  # noqa: E402

EDGE = 10.0
# Of so many standard errors a mean may be off.
SIGMAS = 4.5


def gas(count: int, frames: int, seed: int = 1, **words: Any) -> Iterator[Frame]:
    """Frames of atoms at random."""
    random = numpy.random.default_rng(seed)
    for number in range(frames):
        yield Frame.of(random.random((count, 3)) * EDGE, EDGE, time=number, **words)


def crystal(cells: int, corners: Any) -> Frame:
    """A crystal of cubic cells of edge 1 with atoms at these corners."""
    sites = [numpy.add(cell, corner) for cell in itertools.product(range(cells), repeat=3) for corner in corners]
    return Frame.of(sites, cells)


SIMPLE, BODY = [(0, 0, 0)], [(0, 0, 0), (0.5, 0.5, 0.5)]
FACE = [(0, 0, 0), (0.5, 0.5, 0), (0.5, 0, 0.5), (0, 0.5, 0.5)]


def noise(count: int, decay: float, random: Any, shape: Tuple[int, ...] = ()) -> Iterator[Any]:
    """Values of variance 1, each that of before times `decay`, and something drawn at random."""
    value = random.standard_normal(shape)
    for _ in range(count):
        yield value
        value = decay * value + math.sqrt(1 - decay**2) * random.standard_normal(shape)


def told(kind: Any, frames: Any) -> Any:
    """The result of an analysis of frames."""
    for frame in frames:
        kind.add(frame)
    return kind.result()


# Errors by blocks.


@pytest.mark.parametrize("decay", [0.0, 0.5, 0.9, 0.97])
def test_the_error_of_noise_that_dies_out(decay: float) -> None:
    """Of n values the error of the mean is `sqrt((1 + decay) / (1 - decay) / n)`, when n is far beyond the time of decay."""
    count, random = 20_000, numpy.random.default_rng(3)
    blocks = analysis.Blocks()
    for values in noise(count, decay, random, (400,)):
        blocks.add(values)
    errors, wanted = blocks.error(), math.sqrt((1 + decay) / (1 - decay) / count)
    assert math.sqrt((errors**2).mean()) == pytest.approx(wanted, rel=0.1)
    within = (abs(blocks.mean()) < 2 * errors).mean()
    assert 0.9 < within < 0.99


def test_blocks_do_not_grow_with_the_series() -> None:
    blocks, lengths = analysis.Blocks(), []
    for number in range(10_000):
        blocks.add([number, -number])
        lengths.append(len(blocks.means()))
    assert max(lengths) < 128 and min(lengths[64:]) >= 64
    assert blocks.mean().tolist() == [4999.5, -4999.5]


def test_few_values_tell_no_error() -> None:
    assert math.isnan(analysis.mean_of([2.0]).error)
    assert analysis.mean_of([1.0, 3.0]).error == pytest.approx(1.0)
    assert errors_of(numpy.ones((100, 3))).tolist() == [0.0] * 3


def test_the_error_of_a_ratio() -> None:
    """That of the ratio of two means is, to first order, that of `(x - ratio y) / mean of y`."""
    pairs = numpy.random.default_rng(5).normal([3.0, 2.0], [0.3, 0.2], (64, 2))
    blocks = analysis.Blocks()
    for pair in pairs:
        blocks.add(pair)
    ratio = pairs[:, 0].mean() / pairs[:, 1].mean()
    line = (pairs[:, 0] - ratio * pairs[:, 1]) / pairs[:, 1].mean()
    found = blocks.estimate(lambda both: both[0] / both[1], "1")
    assert found.value == pytest.approx(ratio) and found.error == pytest.approx(analysis.mean_of(line).error, rel=1e-2)


def test_how_estimates_are_told() -> None:
    assert str(analysis.Estimate(2.4312, 0.052, "K")) == "2.431 +- 0.052 K"
    assert str(analysis.Estimate(1234.5, 67.0)) == "1234.5 +- 67"
    assert str(analysis.Estimate(2.4e-12, 5e-14, "fs")) == "2.4e-12 +- 5e-14 fs"
    assert str(analysis.Estimate(2.5, math.nan)) == "2.5 +- nan" and float(analysis.Estimate(2.5, 1.0)) == 2.5


# The radial distribution function.


@pytest.mark.parametrize("r_max", [NEAR_PART * EDGE * 0.9, EDGE / 2])
def test_an_ideal_gas_has_no_correlations(r_max: float) -> None:
    species = ["A"] * 80 + ["B"] * 40
    g = told(analysis.Rdf(bins=20, r_max=r_max), gas(120, 400, species=species))
    far = g.r > r_max / 4
    parts = numpy.array([(each.g[far] - 1) / each.error[far] for each in (g, *g.partial.values())])
    assert abs(parts).max() < SIGMAS and (parts**2).mean() == pytest.approx(1, abs=0.6)
    outer = 4 / 3 * math.pi * (r_max / EDGE) ** 3
    assert g.neighbours[-1] == pytest.approx(119 * outer, rel=0.02)
    assert g.partial["A", "B"].neighbours[-1] == pytest.approx(40 * outer, rel=0.03)
    assert g.frames == 400 and list(g.partial) == [("A", "A"), ("A", "B"), ("B", "B")]


def test_the_shells_of_a_crystal() -> None:
    """Of a simple cubic one: 6 atoms at 1, 12 at the root of 2, 8 at the root of 3, 6 at 2, 24 at the root of 5."""
    g = told(analysis.Rdf(bins=95, r_max=2.375), [crystal(6, SIMPLE)])
    shells = {1.0: 6, math.sqrt(2): 12, math.sqrt(3): 8, 2.0: 6, math.sqrt(5): 24}
    counts = numpy.diff(g.neighbours, prepend=0)
    assert [counts[int(r / 0.025 + 1e-9)] for r in shells] == list(shells.values()) and counts.sum() == 56


def test_near_pairs_and_all_pairs_say_the_same() -> None:
    frames = list(gas(150, 3, species=["A", "B", "B"] * 50))
    near, far = analysis.Rdf(bins=19, r_max=1.9), analysis.Rdf(bins=40, r_max=4.0)
    one, other = told(near, frames), told(far, frames)
    assert one.g.tolist() == pytest.approx(other.g[:19].tolist())
    for pair in one.partial:
        assert one.partial[pair].g.tolist() == pytest.approx(other.partial[pair].g[:19].tolist())


def test_it_is_that_of_mdanalysis_and_of_ase() -> None:
    mda = pytest.importorskip("MDAnalysis", reason="MDAnalysis is not installed")
    ase = pytest.importorskip("ase", reason="ASE is not installed")
    from ase.ga.utilities import get_rdf
    from MDAnalysis.analysis.rdf import InterRDF

    frames = list(gas(100, 4))
    mine = told(analysis.Rdf(bins=25, r_max=4.0), frames)
    box = numpy.full((4, 6), [EDGE] * 3 + [90] * 3)
    universe = mda.Universe.empty(100, trajectory=True).load_new(numpy.array([each.positions for each in frames]), dimensions=box)
    theirs = InterRDF(universe.atoms, universe.atoms, nbins=25, range=(0, 4.0), exclusion_block=(1, 1)).run().results
    assert mine.g.tolist() == pytest.approx(theirs.rdf.tolist(), rel=1e-3)
    atoms = ase.Atoms("Ar100", positions=frames[0].positions, cell=[EDGE] * 3, pbc=True)
    one = told(analysis.Rdf(bins=25, r_max=4.0), frames[:1])
    # That of ASE has the density of all atoms, and not of all others.
    assert one.g.tolist() == pytest.approx((get_rdf(atoms, 4.0, 25, no_dists=True) * 100 / 99).tolist(), rel=1e-3)


def test_a_thousand_frames_of_864_atoms_take_some_seconds() -> None:
    """Some 5 on one core. The bound of 20 frames leaves room for a busy machine."""
    frames, pairs = list(gas(864, 20)), analysis.Rdf()
    start = time.process_time()
    told(pairs, frames)
    assert time.process_time() - start < 0.6


# Displacements and velocities.


def test_atoms_that_fly_on() -> None:
    """Each with its own velocity, round the box: the mean squared displacement is that of velocities times the time squared."""
    velocities = numpy.random.default_rng(1).normal(size=(50, 3))
    frames = [Frame.of(velocities * when, EDGE, time=when, velocities=velocities) for when in 0.5 * numpy.arange(30)]
    square = (velocities**2).sum(axis=1).mean()
    moved, speeds = told(analysis.Msd(lags=20), frames), told(analysis.Vacf(lags=20), frames)
    assert moved.msd.tolist() == pytest.approx((square * moved.times**2).tolist(), rel=1e-6)
    assert moved.times[-1] == 10.0 and moved.units["msd"] == "sigma^2"
    assert speeds.vacf.tolist() == pytest.approx([square] * 21) and speeds.diffusion.value == pytest.approx(square * 10 / 3)


def walk(frames: int, step: Any, random: Any, species: List[str]) -> Iterator[Frame]:
    """Atoms that walk at random, each with steps of its own size."""
    positions = random.random((len(species), 3)) * EDGE
    for number in range(frames):
        yield Frame.of(positions, EDGE, time=0.5 * number, species=species)
        positions = positions + step * random.standard_normal(positions.shape)


def test_a_random_walk_diffuses() -> None:
    """With steps of this variance along each axis, D is half of it for each unit of time."""
    species, step = ["A"] * 40 + ["B"] * 20, numpy.array([[0.1]] * 40 + [[0.2]] * 20)
    moved = told(analysis.Msd(lags=20, apart=5), walk(3000, step, numpy.random.default_rng(2), species))
    for each, size in ((moved.partial["A"], 0.01), (moved.partial["B"], 0.04), (moved, 0.02)):
        assert abs(each.diffusion.value - size) < SIGMAS * each.diffusion.error < 0.1 * size
        assert abs(each.msd - 6 * size * each.times).max() < 0.1 * size * each.times[-1] * 6
    assert moved.diffusion.unit == "sigma sqrt(epsilon / m)" and moved.fit == (2.5, 10.0)


def test_a_run_that_is_short_beside_its_lags_tells_no_error() -> None:
    """Origins whose lags overlap are no values of their own: of 20 lags it takes 60 frames until there are two blocks."""
    random, step, errors = numpy.random.default_rng(8), numpy.array([[0.1]] * 10), []
    for frames in (50, 61):
        errors.append(told(analysis.Msd(lags=20), walk(frames, step, random, ["A"] * 10)).diffusion.error)
    assert math.isnan(errors[0]) and errors[1] > 0


def test_one_origin_is_that_of_mdanalysis() -> None:
    mda = pytest.importorskip("MDAnalysis", reason="MDAnalysis is not installed")
    from MDAnalysis.analysis.msd import EinsteinMSD

    random = numpy.random.default_rng(4)
    way = numpy.cumsum(random.normal(scale=0.3, size=(60, 20, 3)), axis=0)
    moved = told(analysis.Msd(lags=59, apart=1), (Frame.of(places, EDGE, time=number) for number, places in enumerate(way)))
    universe = mda.Universe.empty(20, trajectory=True).load_new(way)
    wanted = EinsteinMSD(universe, fft=False).run().results.timeseries
    # With lags up to the last frame there is one origin, the first frame; theirs has all, so the longest lag is the same.
    assert moved.msd[-1] == pytest.approx(wanted[-1], rel=1e-4)
    short = told(analysis.Msd(lags=1, apart=1), (Frame.of(places, EDGE, time=number) for number, places in enumerate(way)))
    assert short.msd[1] == pytest.approx(wanted[1], rel=1e-4) and short.origins == 59


def test_velocities_that_forget() -> None:
    """Those that decay by `exp(-rate t)` have D = variance / rate, and four times rate / (rate^2 + omega^2) as spectrum."""
    interval, rate = 0.05, 1.0
    speeds = analysis.Vacf(lags=160, apart=4)
    for number, velocities in enumerate(noise(8000, math.exp(-rate * interval), numpy.random.default_rng(6), (60, 3))):
        speeds.add(Frame.of(numpy.zeros((60, 3)), EDGE, time=number * interval, velocities=velocities))
    found = speeds.result()
    assert (abs(found.vacf - 3 * numpy.exp(-rate * found.times)) < SIGMAS * found.error + 1e-3).all()
    assert abs(found.diffusion.value - 1 / rate) < SIGMAS * found.diffusion.error < 0.1
    wanted = 4 * rate / (rate**2 + (2 * math.pi * found.frequencies) ** 2)
    assert (abs(found.spectrum - wanted) < SIGMAS * found.spectrum_error + 0.01).all()
    assert numpy.trapz(found.spectrum, found.frequencies) == pytest.approx(1)
    assert found.normalized_error[0] < 1e-9 < found.normalized_error[10]


def test_an_oscillator_has_one_frequency() -> None:
    times = 0.1 * numpy.arange(500)
    frames = (Frame.of([(0, 0, 0)], EDGE, time=when, velocities=[(math.cos(2 * math.pi * 0.5 * when), 0, 0)]) for when in times)
    found = told(analysis.Vacf(lags=200), frames)
    assert found.frequencies[found.spectrum.argmax()] == pytest.approx(0.5)


def test_both_ways_at_once() -> None:
    frames = [Frame.of([(when, 0, 0)], EDGE, time=when, velocities=[(1, 0, 0)]) for when in range(9)]
    both = told(analysis.Diffusion(lags=4), frames)
    assert both.by_vacf.value == pytest.approx(4 / 3) and both.by_msd == both.msd.diffusion
    assert both.msd.msd.tolist() == pytest.approx([when**2 for when in range(5)])


# Stress, energies and viscosity.


def test_stresses_that_forget() -> None:
    """The viscosity is the volume over the temperature, times variance and time of decay."""
    interval, rate, size = 0.1, 2.0, 0.3
    sheared = analysis.Viscosity(lags=40)
    for number, part in enumerate(noise(6000, math.exp(-rate * interval), numpy.random.default_rng(7), (3, 3))):
        # Of a stress that is alike in all directions, the parts across have half the variance of half the difference of two along.
        stress = size * (part + part.T) / math.sqrt(2) - 5 * numpy.eye(3)
        words = {"stress": stress, "energies": {"temperature": 1.5}}
        sheared.add(Frame.of([(0, 0, 0)], EDGE, time=number * interval, **words))
    found = sheared.result()
    wanted = EDGE**3 / 1.5 * size**2 / rate
    assert abs(found.viscosity.value - wanted) < SIGMAS * found.viscosity.error < 0.3 * wanted
    assert found.autocorrelation[0] == pytest.approx(size**2, rel=0.05)
    assert found.viscosity.unit == "sqrt(m epsilon) / sigma^2" and found.integral[0] == 0


def test_means_of_pressures_and_energies() -> None:
    pressed, energy = analysis.Stress(tail=True), analysis.Energy(tail=True)
    for number in range(4):
        told = {"kinetic": 3.0 + number % 2, "potential": -10.0, "temperature": 1.0}
        tails = {"potential": -2.0, "pressure": -0.25}
        frame = Frame.of([(0, 0, 0), (1, 0, 0)], EDGE, stress=-numpy.diag([1.0, 2.0, 3.0 + number % 2]), energies=told, tails=tails)
        pressed.add(frame)
        energy.add(frame)
    assert pressed.result().stress.diagonal().tolist() == pytest.approx([-0.75, -1.75, -3.25])
    assert pressed.result().pressure.value == pytest.approx(6.5 / 3 - 0.25)
    assert energy.result().potential.value == -6.0 and energy.result().kinetic.value == 1.75
    assert energy.result().total.value == -4.25 and energy.result().temperature.unit == "epsilon / k_B"


# The structure factor.


def test_a_crystal_scatters_at_its_own_wave_vectors() -> None:
    """A simple cubic one of four cells along each axis: S is how many atoms there are where all three numbers of waves are
    multiples of 4, and 0 elsewhere."""
    found = told(analysis.StructureFactor(k_max=4.2 * 2 * math.pi / 4), [crystal(4, SIMPLE)])
    total = found.s * found.vectors
    assert total.tolist() == pytest.approx([0, 0, 0, 3 * 64], abs=1e-4) and found.vectors.sum() == 152
    assert found.k[0] == pytest.approx((3 * 1 + 6 * math.sqrt(2)) / 9 * 2 * math.pi / 4)


def test_a_gas_scatters_alike_at_all() -> None:
    species = ["A"] * 60 + ["B"] * 30
    found = told(analysis.StructureFactor(k_max=4.0), gas(90, 200, species=species))
    assert (abs(found.s - 1) < SIGMAS * found.error).all()
    for pair, wanted in ((("A", "A"), 1), (("A", "B"), 0), (("B", "B"), 1)):
        each = found.partial[pair]
        assert (abs(each.s - wanted) < SIGMAS * each.error).all()
    parts = [found.partial[pair].s for pair in (("A", "A"), ("A", "B"), ("B", "B"))]
    assert (60 * parts[0] + 2 * math.sqrt(60 * 30) * parts[1] + 30 * parts[2]).tolist() == pytest.approx((90 * found.s).tolist())


# Order and clusters.


@pytest.mark.parametrize(
    "corners, reach, q4, q6, cubic, neighbours",
    [
        (FACE, 0.8, math.sqrt(7 / 192), math.sqrt(169 / 512), 1 / 2, 12),
        (BODY, 0.9, math.sqrt(7 / 27), math.sqrt(32 / 81), 1 / 3, 8),
        (SIMPLE, 1.1, math.sqrt(7 / 12), math.sqrt(1 / 8), 1, 6),
    ],
    ids=["face-centred", "body-centred", "simple"],
)
def test_the_order_of_crystals(corners: Any, reach: float, q4: float, q6: float, cubic: float, neighbours: int) -> None:
    found = told(analysis.Order(reach), [crystal(4, corners)] * 2)
    assert (found.q4.value, found.q6.value) == (pytest.approx(q4, rel=1e-6), pytest.approx(q6, rel=1e-6))
    assert (found.global_q4.value, found.global_q6.value) == (pytest.approx(q4, rel=1e-6), pytest.approx(q6, rel=1e-6))
    assert (found.cubic.value, found.neighbours.value, found.q6.error) == (pytest.approx(cubic, rel=1e-6), neighbours, 0)


def test_the_order_of_each_species() -> None:
    """Rock salt: each species is a face-centred crystal, and both together are a simple cubic one."""
    sites = [numpy.array(site) for site in itertools.product(range(6), repeat=3)]
    species = ["AB"[int(site.sum()) % 2] for site in sites]
    found = told(analysis.Order(1.5), [Frame.of(sites, 6, species=species)])
    for each in found.partial.values():
        assert (each.neighbours.value, each.cubic.value) == (12, pytest.approx(1 / 2))
        assert each.q6.value == pytest.approx(math.sqrt(169 / 512), rel=1e-6)
    assert found.neighbours.value == 18 and list(found.partial) == ["A", "B"]


def test_a_gas_has_no_order() -> None:
    found = told(analysis.Order(2.0), gas(300, 20))
    assert found.global_q6.value < 0.05 and found.cubic.value == pytest.approx(3 / 5, abs=SIGMAS * found.cubic.error)
    assert told(analysis.Order(0.01), gas(3, 1)).q6.value == 0


def components(positions: Any, reach: float) -> List[int]:
    """The sizes of clusters, by looking at all pairs one after the other."""
    apart = positions[:, None] - positions[None, :]
    apart -= EDGE * numpy.rint(apart / EDGE)
    joined, sizes = (apart**2).sum(axis=2) < reach**2, []
    left = set(range(len(positions)))
    while left:
        found, new = set(), {left.pop()}
        while new:
            found |= new
            new = {other for each in new for other in numpy.flatnonzero(joined[each]).tolist()} - found
        left -= found
        sizes.append(len(found))
    return sorted(sizes)


@pytest.mark.parametrize("reach", [0.5, 1.0, 1.4, 2.0])
def test_clusters_are_those_of_a_search(reach: float) -> None:
    frames = list(gas(200, 3))
    found = told(analysis.Clusters(reach), frames)
    wanted = [components(frame.positions, reach) for frame in frames]
    counts = sum(numpy.bincount(sizes, minlength=201)[1:] for sizes in wanted) / 3
    assert found.counts.tolist() == pytest.approx(counts.tolist())
    assert found.largest.value == pytest.approx(numpy.mean([sizes[-1] for sizes in wanted]))
    assert found.number.value == pytest.approx(numpy.mean([len(sizes) for sizes in wanted]))


def test_clusters_of_a_species_pass_over_the_other() -> None:
    frame = Frame.of([(1, 0, 0), (2, 0, 0), (3, 0, 0)], EDGE, species=["A", "B", "A"])
    found = told(analysis.Clusters(1.2), [frame])
    assert (found.largest.value, found.partial["A"].largest.value, found.partial["A"].number.value) == (3, 1, 2)


# What is wrong changes nothing.

FRAME = Frame.of([(0, 0, 0)], EDGE)


@pytest.mark.parametrize(
    "ask, text",
    [
        (lambda: analysis.Rdf(bins=0), "bins must be at least 1, got 0"),
        (lambda: analysis.Rdf(r_max=-1), "r_max must be a finite number above 0"),
        (lambda: analysis.Rdf(r_max=6).add(FRAME), "r_max must be at most half the edge"),
        (lambda: analysis.Order(6).add(FRAME), "reach must be at most half the edge, got 6 in a box of 10"),
        (lambda: analysis.Clusters(6).add(FRAME), "reach must be at most half the edge, got 6 in a box of 10"),
        (lambda: analysis.Vacf(3).add(FRAME), "a frame must have velocities, got none"),
        (lambda: analysis.Stress().add(FRAME), "a frame must have a stress, got none"),
        (lambda: analysis.Viscosity(3).add(FRAME), "a frame must have a stress, got none"),
        (lambda: analysis.Energy().add(FRAME), "a frame must have energies, got none"),
        (lambda: analysis.Msd(lags=0), "lags must be at least 1, got 0"),
        (lambda: analysis.Msd(lags=3).result(), "a series must have at least 1 value, got 0"),
        (lambda: analysis.StructureFactor(k_max=0.1).add(FRAME), "k_max must be at least 2 pi / edge"),
        (lambda: analysis.Blocks(3), "most must be a power of 2, got 3"),
        (lambda: Frame.of([(0, 0)], EDGE), r"positions must be finite numbers of shape \(atoms, 3\), got shape \(1, 2\)"),
        (lambda: told(analysis.Msd(3), gas(2, 1, species=["A"])), "species must be one symbol for each of 2 atoms, got 1"),
    ],
)
def test_what_is_refused(ask: Any, text: str) -> None:
    with pytest.raises(ValueError, match=text):
        ask()


def test_a_frame_that_does_not_follow_is_refused() -> None:
    moved = analysis.Msd(lags=2)
    for when in (0, 1, 2):
        moved.add(Frame.of([(when, 0, 0)], EDGE, time=when))
    before = moved.result()
    for wrong in (Frame.of([(3, 0, 0)], EDGE, time=4), Frame.of([(3, 0, 0)] * 2, EDGE, time=3)):
        with pytest.raises(ValueError, match="frames must"):
            moved.add(wrong)
    assert moved.result().msd.tolist() == before.msd.tolist()
    moved.add(Frame.of([(3, 0, 0)], EDGE, time=3))
    assert moved.result().msd.tolist() == pytest.approx([0, 1, 4])


def test_a_frame_that_is_refused_at_first_leaves_all_open() -> None:
    for kind in (analysis.Rdf(r_max=6), analysis.Order(6), analysis.Clusters(6)):
        with pytest.raises(ValueError, match="at most half the edge"):
            kind.add(FRAME)
        kind.add(Frame.of([(0, 0, 0), (1, 0, 0)], 2 * EDGE))
        kind.result()


def test_what_is_kept_does_not_grow_with_the_run() -> None:
    """Of a hundred frames as of ten, in what the objects hold."""
    kinds: List[Any] = [analysis.Rdf(), analysis.Msd(lags=4), analysis.Vacf(lags=4), analysis.Order(2), analysis.Clusters(1)]
    sizes = []
    for number in range(1500):
        words = {"time": number, "velocities": [(1, 0, 0)] * 5}
        for kind in kinds:
            kind.add(Frame.of(numpy.zeros((5, 3)), EDGE, **words))
        if number in (500, 1499):
            sizes.append(len(pickle.dumps([vars(kind) for kind in kinds[:1]])))
    assert sizes[1] < 1.6 * sizes[0]
    assert all(len(kind._origins._open) <= 5 for kind in kinds[1:3])


def test_an_atom_that_moves_too_far_is_warned_of() -> None:
    moved = analysis.Msd(lags=1)
    moved.add(Frame.of([(0, 0, 0)], EDGE))
    with pytest.warns(UserWarning, match="an atom of the run has moved by 0.30 of the edge of the box"):
        moved.add(Frame.of([(3, 0, 0)], EDGE, time=1))


def test_each_so_many_th_frame() -> None:
    frames = list(gas(20, 9))
    assert told(analysis.Rdf(stride=4), frames).g.tolist() == told(analysis.Rdf(), frames[::4]).g.tolist()
