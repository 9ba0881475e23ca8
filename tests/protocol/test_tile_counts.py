"""How many tiles a step has, and steps whose results come in each order, told by schedules.

Most atoms stand 1.5 sigma apart, in a box of 256 sigma. Blocks are 64 atoms, in the order of the file.
"""
from itertools import permutations
from typing import Callable, Dict, List, Sequence, Tuple

import pytest
from reference import BINS_TO_SQUARE, ENERGIES, RING, Frame, Place
from shared.playing import must_end_well, must_have_tiles, stepped
from shared.program import Program
from shared.talks import TICK, TOLD_BY_TICK, Exchange, Talk, greeting, load_line, told_to_a
from shared.texts import must_be

SIGMA = RING // 256
APART = SIGMA * 3 // 2
HALF_THE_BOX = RING // 2


def lattice(count: int) -> List[Place]:
    return [(i % 6 * APART, i // 6 % 6 * APART, i // 36 * APART) for i in range(count)]


def block(x: int) -> List[Place]:
    """A cube of 4 x 4 x 4 atoms, from `x` on."""
    return [((x + i % 4 * APART) % RING, i // 4 % 4 * APART, i // 16 * APART) for i in range(64)]


def talk_of(frame: Frame) -> Talk:
    """A session of these atoms at rest, with a step of each kind."""
    return stepped(Talk.of_one(frame, frame, SIGMA))


# A block is 4.5 sigma long: one that begins 7 sigma on is out of reach, and one unit nearer it is not.
SEVEN_SIGMA = 7 * SIGMA

# Where the second of two blocks begins behind the first, and how many tiles a step of both has.
TWO_BLOCKS = [(SEVEN_SIGMA, 2), (SEVEN_SIGMA - 1, 3), (-SEVEN_SIGMA, 2), (1 - SEVEN_SIGMA, 3), (HALF_THE_BOX, 2)]

# Atoms, and how many tiles a step of them has. Of three blocks the first and the third lie 3 sigma apart.
FRAMES: Dict[str, Tuple[Frame, int]] = {
    "one block": (block(0), 1),
    "a block of one atom has no tile of its own": (lattice(65), 2),
    "a block of one atom far from the others": ([*lattice(64), (HALF_THE_BOX, 0, 0)], 1),
    "three blocks of a lattice": (lattice(130), 5),
    "one atom": (lattice(1), 0),
}


@pytest.mark.parametrize("first", [0, RING - 3 * SIGMA], ids=["the start", "the edge"])
@pytest.mark.parametrize("way, tiles", TWO_BLOCKS)
def test_two_blocks(program: Program, first: int, way: int, tiles: int) -> None:
    """The first one stands at the start of the box or across its edge."""
    must_have_tiles(program, talk_of(block(first) + block(first + way)).exchanges, tiles)


@pytest.mark.parametrize("name", FRAMES)
def test_few_blocks(program: Program, name: str) -> None:
    frame, tiles = FRAMES[name]
    must_have_tiles(program, talk_of(frame).exchanges, tiles)


def test_blocks_out_of_reach_have_the_energy_of_both() -> None:
    one, two = [int(talk_of(frame).exchanges[1].reply.split()[-1]) for frame in (block(0), block(0) + block(SEVEN_SIGMA))]
    assert 0 != two == 2 * one


# A crystal of 16 x 16 x 16 sites, in a box of 24 sigma.
SITES = 16**3


def by_cubes(k: int) -> Place:
    """The sites of 64 cubes of 4 x 4 x 4, one cube after the other."""
    cube = k // 64
    return cube % 4 * 4 + k % 4, cube // 4 % 4 * 4 + k // 4 % 4, cube // 16 * 4 + k // 16 % 4


def by_fourths(k: int) -> Place:
    """Every 64 atoms stand at each fourth site along each axis."""
    shift = k // 64
    return k % 4 * 4 + shift % 4, k // 4 % 4 * 4 + shift // 4 % 4, k // 16 % 4 * 4 + shift // 16


def by_steps(k: int) -> Place:
    """Each 1237th site, round the crystal."""
    number = k * 1237 % SITES
    return number % 16, number // 16 % 16, number // 256


def crystal(site: Callable[[int], Place]) -> List[Exchange]:
    """Each site has 6 others at 1.5 sigma and 12 at the root of 4.5, each opposite another one, so the atoms stay."""
    sites = [site(k) for k in range(SITES)]
    body = f"{SITES}\ncrystal\n" + "".join(f"X {' '.join(str(1.5 * part) for part in parts)}\n" for parts in sites)
    energy = SITES * (6 * ENERGIES[BINS_TO_SQUARE * 9 // 4] + 12 * ENERGIES[BINS_TO_SQUARE * 9 // 2]) // 2
    exchanges = [
        Exchange(load_line("a", "24 1 131072", "rest", body), f"OK LOAD a 0 {SITES}\n"),
        Exchange("MEASURE a\n", f"OK MEASURE a 0 {SITES} 0 0 0 0 {energy}\n", True),
        Exchange("ADVANCE a 1\n", "OK ADVANCE a 1\n", True),
    ]
    for atom in (0, 1237, SITES - 1):
        x, y, z = (part * RING // 16 for part in sites[atom])
        exchanges.append(Exchange(f"SHOW a {atom}\n", f"OK SHOW a 1 {atom} {x} {y} {z}\n"))
    return exchanges


@pytest.mark.parametrize("site, tiles", [(by_cubes, 640), (by_fourths, 2080), (by_steps, 2080)])
def test_crystals(program: Program, site: Callable[[int], Place], tiles: int) -> None:
    """By cubes each block is a cube 4.5 sigma long, with 1.5 sigma to the next one along each axis, and 7.5 sigma to the one
    after that, either way round the box. Cubes that share a face are 1.5 sigma apart, those that share an edge
    sqrt(4.5) = 2.12, and those that share a corner sqrt(6.75) = 2.60. So 6 + 12 = 18 cubes lie within 2.5 sigma of each:
    64 * 18 / 2 = 576 tiles of two blocks, and 64 of one.

    A block's arcs are 12 of the 16 sites long by fourths. By steps its atoms stand in 13 of the 16 layers at least along
    each axis, so that its arcs are 12 long or more. Arcs of more than half the box meet: all 64 * 65 / 2 pairs have a tile.
    """
    must_have_tiles(program, crystal(site), tiles)


# Five tiles, in each order of their results.
FIVE = 5


class Keys:
    """The keys of tasks that are posted: the one that was vacated last, or else the next new one."""

    def __init__(self) -> None:
        self.vacated: List[int] = []
        self.new = 0

    def post(self) -> int:
        if self.vacated:
            return self.vacated.pop()
        self.new += 1
        return self.new - 1


def in_order(order: Sequence[int], keys: Keys) -> str:
    """Five tasks, and none more, whose results are fetched in this order. B asks for a list ahead of the last one."""
    posted = [keys.post() for _ in order]
    workers = [f"take {w} 0\ncompute {w}\ngive {w}\n" for w in range(1, FIVE + 1)]
    fetches = [f"fetch 1 {posted[tile]}\n" for tile in order]
    keys.vacated += [posted[tile] for tile in order]
    return "".join(["post 1\n" * (FIVE + 1), *workers, *fetches[:-1], "turn 1\n", TICK, fetches[-1], "turn 1\n"])


def test_five_tiles_in_each_order(program: Program) -> None:
    """The places and the sum of energies come out the same in all 120 orders."""
    frame = lattice(130)
    talk = Talk.of_one(frame, frame, SIGMA)
    start, talk.exchanges = talk.exchanges, []
    talk.measure()
    talk.advance(1)
    talk.show_all()
    keys, lines, wanted = Keys(), [greeting()], ""
    for each in [*start, Exchange("BRANCH a k\n", "OK BRANCH a k 0\n")]:
        lines.append(f"arrive 1 {each.item}next 1\n")
        wanted += told_to_a(each.reply)
    for order in permutations(range(FIVE)):
        for each in [*talk.exchanges, Exchange("RESTORE a k\n", "OK RESTORE a k 0\n")]:
            lines.append(f"arrive 1 {each.item}next 1\n" + (in_order(order, keys) if each.runs else ""))
            wanted += (TOLD_BY_TICK if each.runs else "") + told_to_a(each.reply)
    status, printed, err = program.replay_of("".join(lines).encode())
    must_end_well(status, err)
    must_be(printed, wanted.encode())
    assert not talk.exchanges[0].reply.endswith(" 0\n"), "five tiles have no energy"
