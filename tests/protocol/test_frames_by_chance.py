"""Frames by chance, of one species and of two: each is loaded, measured and moved on, and every reply is the reference's."""
import random
from functools import partial
from typing import Callable, Dict, List

import pytest
from dialogue_tables.branches import frame
from dialogue_tables.mixtures import load_mix, mixed
from reference import ENERGIES, MIN_BIN, RING, Class, Place
from shared.frames import BLOCK, COUNTS, CUTOFF, MOST_WEIGHT, ORIGIN, SIGMA, Layout, anywhere, atoms, clusters, in_six_sigma
from shared.frames import near, of_classes, one_cube, over_blocks, saved, there_and_back, two_groups
from shared.playing import must_have_tiles, must_tell, must_tell_in_any_order, stepped
from shared.program import Program
from shared.talks import USUAL_WEIGHT, Talk

BELOW = (RING - SIGMA, RING - SIGMA, RING - SIGMA)

# What lays atoms out by chance.
Layouts = Dict[str, Callable[[random.Random], Layout]]


def in_one_cube(corner: Place, width: int, _: random.Random) -> Layout:
    return one_cube(corner, width)


def at_one_place(dice: random.Random) -> Layout:
    return one_cube(anywhere(dice), 1)


LAYOUTS: Layouts = {
    **{f"all over the box, {number}": partial(in_one_cube, ORIGIN, RING) for number in range(3)},
    **{f"clusters by {run}, {number}": partial(clusters, run) for run in (64, 32, 10, 1) for number in range(3)},
    "2 sigma across the edge": partial(in_one_cube, BELOW, 2 * SIGMA),
    "4 sigma across the edge": partial(in_one_cube, BELOW, 4 * SIGMA),
    **{f"one place, {number}": at_one_place for number in range(3)},
    **{
        f"two groups {apart} apart by {run}": partial(two_groups, run, apart)
        for apart in (CUTOFF, -CUTOFF, CUTOFF + 1024, -CUTOFF - 1024)
        for run in (64, 1)
    },
}
MIXED: Layouts = {
    "all over the box": partial(in_one_cube, ORIGIN, RING),
    "3 sigma across the edge": partial(in_one_cube, BELOW, 3 * SIGMA),
    "one place": at_one_place,
    "clusters by 64": partial(clusters, 64),
    "clusters by 1": partial(clusters, 1),
}

at_rest_and_in_motion = pytest.mark.parametrize("is_moving", [False, True], ids=["at rest", "in motion"])
of_three_and_four_blocks = pytest.mark.parametrize("count", COUNTS)


def dice_of(*words: object) -> random.Random:
    """Dice of the words that name a case."""
    return random.Random(" ".join(map(str, words)))


@at_rest_and_in_motion
@of_three_and_four_blocks
@pytest.mark.parametrize("name", LAYOUTS)
def test_atoms_of_one_species(program: Program, name: str, count: int, is_moving: bool) -> None:
    dice = dice_of(name, count, is_moving)
    layout = LAYOUTS[name](dice)
    present = atoms(count, layout, dice)
    before = [near(place, 2048, dice) for place in present] if is_moving else present
    talk = Talk.of_one(before, present, SIGMA)
    must_tell_in_any_order(program, talk, layout.tiles[COUNTS.index(count)], dice)
    assert not talk.exchanges[1].reply.endswith(" 0\n"), "the energies add up to nothing"


@pytest.mark.parametrize("number", range(2))
@pytest.mark.parametrize("width", [1, 1 << 26, 1 << 28, RING])
def test_two_blocks_about_the_origin(program: Program, width: int, number: int) -> None:
    """In a cube of this width, in a box of 256 sigma."""
    dice = dice_of(width, number)
    frame = [near((-(width // 2),) * 3, width, dice) for _ in range(2 * BLOCK)]
    must_tell_in_any_order(program, Talk.of_one(frame, frame, SIGMA // 16), (0, 3), dice)


@pytest.mark.parametrize(
    "count, number", [(count, number) for count in (1, 2, 63, 64, 65, 129, 256) for number in range(3 if count < 129 else 1)]
)
def test_there_and_back(program: Program, count: int, number: int) -> None:
    dice = dice_of(count, number)
    before, present = in_six_sigma(count, dice)
    must_tell(program, there_and_back(Talk.of_one(before, present, SIGMA, dice.randrange(1, 1 << 24)), dice))


@at_rest_and_in_motion
@of_three_and_four_blocks
@pytest.mark.parametrize("name", MIXED)
def test_atoms_of_a_mixture(program: Program, name: str, count: int, is_moving: bool) -> None:
    dice = dice_of("mixture", name, count, is_moving)
    present = atoms(count, MIXED[name](dice), dice)
    before = [near(place, 2048, dice) for place in present] if is_moving else present
    must_tell_in_any_order(program, of_classes(before, present, dice), (0, {130: 6, 200: 10}[count]), dice)


@pytest.mark.parametrize("walk", [there_and_back, saved])
@pytest.mark.parametrize("count, number", [(1, 0), (2, 0), (9, 0), (63, 0), (65, 0), (65, 1), (130, 0)])
def test_mixtures_go_on(program: Program, count: int, number: int, walk: Callable[[Talk, random.Random], Talk]) -> None:
    """Each goes there and back, and is saved and gone back to."""
    dice = dice_of("mixture", walk.__name__, count, number)
    must_tell(program, walk(of_classes(*in_six_sigma(count, dice), dice), dice))


def test_three_blocks_of_a_mixture(program: Program) -> None:
    must_tell(program, over_blocks())


SPECIES: Dict[str, List[int]] = {"first": [0] * 128, "second": [1] * 128, "both": [0] * 64 + [1] * 64}


@pytest.mark.parametrize("kinds", SPECIES)
@pytest.mark.parametrize("way, tiles", [(CUTOFF, 2), (CUTOFF - 1, 3), (RING - CUTOFF, 2), (RING - CUTOFF + 1, 3)])
@pytest.mark.parametrize("greatest", range(3))
def test_the_greatest_sigma_of_three_counts(program: Program, greatest: int, way: int, tiles: int, kinds: str) -> None:
    """Two blocks, each at one place: their tile is left out where the greatest sigma of the three is out of reach, even
    if no pair is of its class."""
    small, great = Class(SIGMA // 2, 131_072, 100), Class(SIGMA, 131_072, 300)
    classes = [great if number == greatest else small for number in range(3)]
    places = [(number // BLOCK * way, 0, 0) for number in range(2 * BLOCK)]
    talk = stepped(Talk.of_two(places, places, classes, SPECIES[kinds]))
    must_tell(program, talk)
    must_have_tiles(program, talk.exchanges, tiles)


def test_the_greatest_energy(program: Program) -> None:
    """As many atoms as there may be, at one place, with the greatest weight."""
    count, energy = 4096, ENERGIES[MIN_BIN] * MOST_WEIGHT // USUAL_WEIGHT
    said = load_mix(frame(count), [f"1 1 {MOST_WEIGHT}"] * 3, symbols="X Y") + "MEASURE m\n"
    replies = f"{mixed(count)}OK MEASURE m 0 {count} 0 0 0 0 {count * (count - 1) // 2 * energy}\n"
    assert program.run(["run"], said.encode()) == (0, replies.encode(), b"")
