"""Random frames of atoms of one species and of two, and talks about them.

The numbers of tiles hold for blocks of 64 atoms in their order, with the atoms placed by the layouts.
"""
import random
from dataclasses import dataclass
from typing import List, Sequence, Tuple

from reference import RING, Class, Frame, Place, pairs_in_reach
from shared.talks import Talk

# The edge of the box is 16 of them.
SIGMA = 1 << 28
CUTOFF = 5 * (SIGMA // 2)
ORIGIN = (0, 0, 0)
BLOCK = 64

# Atoms of three blocks, and of four.
COUNTS = (130, 200)

MOST_STRENGTH = 1 << 24
MOST_WEIGHT = 1 << 16


@dataclass(frozen=True)
class Layout:
    """`run` atoms in each of four cubes of `width` in turn, and the fewest and the most tiles for each of COUNTS."""

    corners: Tuple[Place, Place, Place, Place]
    run: int
    width: int
    tiles: Tuple[Tuple[int, int], Tuple[int, int]] = ((6, 6), (10, 10))


def along(place: Place, shift: Place) -> Place:
    x, y, z = ((part + more) % RING for part, more in zip(place, shift))
    return x, y, z


def near(corner: Place, width: int, dice: random.Random) -> Place:
    return along(corner, (dice.randrange(width), dice.randrange(width), dice.randrange(width)))


def anywhere(dice: random.Random) -> Place:
    return near(ORIGIN, RING, dice)


def atoms(count: int, layout: Layout, dice: random.Random) -> Frame:
    return [near(layout.corners[i // layout.run % 4], layout.width, dice) for i in range(count)]


def one_cube(corner: Place, width: int) -> Layout:
    return Layout((corner, corner, corner, corner), 1, width)


def clusters(run: int, dice: random.Random) -> Layout:
    """`run` successive atoms in each of four random places, in turn."""
    corners = anywhere(dice), anywhere(dice), anywhere(dice), anywhere(dice)
    return Layout(corners, run, 2 * SIGMA, ((3, 6), (4, 10)))


def two_groups(run: int, apart: int, dice: random.Random) -> Layout:
    """Two groups of 1,024 units, the second one `apart` units further along x.

    If they begin 2.5 sigma apart, their pairs are on both sides of the cutoff. 1,024 units further apart, all pairs
    across them are out of reach: if each block is of one group, 2 of 6 tiles are then left out, and 4 of 10.
    """
    first = anywhere(dice)
    second = along(first, (apart, 0, 0))
    far, unmixed = abs(apart) > CUTOFF, run == BLOCK
    return Layout((first, second, first, second), run, 1024, ((4, 4), (6, 6)) if far and unmixed else ((6, 6), (10, 10)))


def in_six_sigma(count: int, dice: random.Random) -> Tuple[Frame, Frame]:
    """Two frames of `count` atoms in a cube of six sigma, across the edge of the box."""
    present = [near((RING - SIGMA, 0, RING // 2), 6 * SIGMA, dice) for _ in range(count)]
    return [near(place, 1 << 20, dice) for place in present], present


def pairs_of_blocks_in_reach(talk: Talk) -> int:
    """The number of pairs of blocks with two atoms within reach of each other."""
    session = talk.session
    return len({(i // BLOCK, j // BLOCK) for i, j, *_ in pairs_in_reach(session.atoms, session.sim.cur)})


def class_by_chance(dice: random.Random) -> Class:
    """A random class of up to two sigma, with any weight."""
    weight = dice.choice((1, 255, 256, 257, MOST_WEIGHT, dice.randrange(1, MOST_WEIGHT)))
    strength = dice.choice((1, MOST_STRENGTH, dice.randrange(1, MOST_STRENGTH)))
    return Class(dice.randrange(SIGMA // 8, 2 * SIGMA), strength, weight)


def species_by_chance(count: int, dice: random.Random) -> List[int]:
    """Species in turn, by blocks, the same except for one atom, all the same, or random."""
    one = dice.randrange(count)
    return dice.choice(
        (
            [number % 2 for number in range(count)],
            [number // BLOCK % 2 for number in range(count)],
            [int(number == one) for number in range(count)],
            [int(number != one) for number in range(count)],
            [one % 2] * count,
            *([dice.randrange(2) for _ in range(count)] for _ in range(3)),
        )
    )


def of_classes(before: Frame, present: Frame, dice: random.Random) -> Talk:
    """A talk of a random mixture."""
    classes: Sequence[Class] = [class_by_chance(dice) for _ in range(3)]
    return Talk.of_two(before, present, classes, species_by_chance(len(present), dice))


def there_and_back(talk: Talk, dice: random.Random) -> Talk:
    """Three steps forward, and exactly back; then a tug, and two steps."""
    first = talk.session.sim
    talk.measure()
    for _ in range(2):
        talk.advance(3)
        talk.show_all()
        talk.reverse()
    talk.show_all()
    assert talk.session.sim == first
    x, y, z = near(ORIGIN, RING, dice)
    talk.tug(dice.randrange(len(first.cur)), (x - RING // 2, y - RING // 2, z - RING // 2))
    talk.measure()
    talk.advance(2)
    talk.show_all()
    talk.measure()
    return talk


def saved(talk: Talk, dice: random.Random) -> Talk:
    """A branch is restored with its species: after tugs, steps and a reversal, the energy is as before."""
    talk.advance(1)
    talk.branch("k")
    talk.measure()
    for _ in range(2):
        talk.tug(dice.randrange(len(talk.session.symbols)), (dice.randrange(SIGMA), -1, dice.randrange(-SIGMA, 0)))
        talk.advance(2)
        talk.reverse()
        talk.measure()
        talk.ask("DUMP a")
        talk.branch("m")
        talk.restore("k")
        talk.measure()
        talk.ask("DUMP a")
        talk.advance(1)
        talk.show_all()
        talk.restore("m")
        talk.measure()
        talk.ask("FORGET a m")
        talk.restore("k")
    return talk


def over_blocks() -> Talk:
    """130 atoms in three blocks that are within reach of each other, so that a step has six tiles."""
    dice = random.Random(4)
    present = [near((RING - SIGMA, 0, SIGMA), 2 * SIGMA, dice) for _ in range(130)]
    before = [near(place, 2048, dice) for place in present]
    classes = [Class(SIGMA, 1000, 3), Class(SIGMA // 2, 131_072, 256), Class(SIGMA // 3, 70_000, 65_535)]
    return saved(Talk.of_two(before, present, classes, [number % 3 // 2 for number in range(130)]), dice)
