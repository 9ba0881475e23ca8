"""Pairs that are near each other round the box, held against all pairs; and how long a pressure takes, which they make short."""
import time
from typing import Any, Set, Tuple

import pytest

from ljclient import units
from ljclient.centred import ThreeFrames
from ljclient.pressure import Composition, of_frames, tensor_of_frames

numpy = pytest.importorskip("numpy", reason="numpy is not installed")

from ljclient import neighbours  # noqa: E402
from ljclient.neighbours import near_pairs  # noqa: E402

RING = 2**32
Pairs = Set[Tuple[int, int, int]]


def drawn(count: int, seed: int = 1) -> Any:
    """Places at random."""
    return numpy.random.default_rng(seed).integers(0, RING, (count, 3))


def by_hand(places: Any, square: int) -> Pairs:
    """The pairs below a squared distance, and this, in whole numbers of Python."""
    rows = [[int(part) for part in place] for place in places]
    told = set()
    for first, here in enumerate(rows):
        for second, there in enumerate(rows[:first]):
            images = [(a - b + RING // 2) % RING - RING // 2 for a, b in zip(here, there)]
            told.add((second, first, sum(image * image for image in images)))
    return {each for each in told if each[2] < square}


@pytest.mark.parametrize("count, part", [(1, 0.3), (2, 0.9), (150, 0.01), (150, 0.07), (150, 0.13), (150, 0.21), (150, 0.39), (150, 0.49)])
def test_each_pair_is_told_once(count: int, part: float) -> None:
    places, reach = drawn(count), int(part * RING)
    near = near_pairs(places, reach**2)
    found = {(min(pair), max(pair)) for pair in zip(near.first.tolist(), near.second.tolist())}
    wanted = by_hand(places, reach**2)
    assert len(near.first) == len(found) and found == {(first, second) for first, second, _ in wanted}
    assert sorted(near.squares.tolist()) == pytest.approx(sorted(each[2] for each in wanted), rel=1e-12)


def test_images_lead_from_the_first_atom_to_the_second() -> None:
    places = drawn(100, 2)
    near = near_pairs(places, int(0.1 * RING) ** 2)
    images = near.images.T.astype(numpy.int64)
    assert len(images) and ((places[near.first] + images - places[near.second]) % RING == 0).all()


@pytest.mark.parametrize("at", [0, RING - 1, RING // 3])
def test_a_crowd_in_a_corner_is_told(at: int) -> None:
    places = (drawn(40, 3) // 2**20 + at) % RING
    assert len(near_pairs(places, (RING // 16) ** 2).first) == 40 * 39 // 2


@pytest.mark.parametrize("most", [1, 7, 500])
def test_pairs_are_compared_some_at_a_time(most: int, monkeypatch: pytest.MonkeyPatch) -> None:
    monkeypatch.setattr(neighbours, "MOST_PAIRS", most)
    near, wanted = near_pairs(drawn(60), (RING // 5) ** 2), by_hand(drawn(60), (RING // 5) ** 2)
    assert sorted(near.squares.tolist()) == pytest.approx(sorted(each[2] for each in wanted), rel=1e-12)


def test_a_droplet_in_a_large_box_takes_no_more_than_a_liquid() -> None:
    """Of atoms in a thousandth of the edge: cells are looked for there, and are as small as in a liquid."""
    places, square, compared = drawn(300, 7) // 1000, (RING // 7000) ** 2, []
    for each in neighbours.near_parts(places, square):
        compared.append(len(each._all[0]))
    found = near_pairs(places, square)
    assert len(found.first) == len(by_hand(places, square)) and sum(compared) < 5 * len(found.first)


def liquid(count: int) -> Tuple[Any, Any]:
    """Three frames of so many atoms as dense as a liquid, at random, and what they are."""
    scale = units.Scale.of(units.edge_of_density(count, 0.8442), 1, 16384)
    before, moved = drawn(count, 4), numpy.random.default_rng(5).integers(-(10**5), 10**5, (2, count, 3))
    now = (before + moved[0]) % RING
    return ThreeFrames(0, before, now, (now + moved[1]) % RING), scale


def test_the_pressure_of_many_atoms_is_quick() -> None:
    """It takes some 25 ms of 4,000 atoms at rest, where all pairs took 230. The bound leaves room for a busy machine."""
    three, scale = liquid(4000)
    taken = []
    for _ in range(5):
        start = time.process_time()
        of_frames(three, Composition((scale,)))
        taken.append(time.process_time() - start)
    assert min(taken) < 0.1


def test_the_tensor_has_the_pressure_as_a_third_of_its_trace() -> None:
    three, scale = liquid(500)
    seconds = [number % 3 == 0 for number in range(500)]
    mixture = [units.Scale.of(scale.edge, sigma, h, weight=weight) for sigma, h, weight in units.kob_andersen(16384)["classes"]]
    for atoms in (Composition((scale,)), Composition(tuple(mixture), seconds)):
        tensor = tensor_of_frames(three, atoms)
        assert numpy.trace(tensor) / 3 == pytest.approx(of_frames(three, atoms), rel=1e-9)
        assert abs(tensor - tensor.T).max() < 1e-9 * abs(tensor).max()
