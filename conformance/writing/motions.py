"""Pairs, images and sums at their limits, and motion of few atoms."""
import random
from typing import Iterator, List, Sequence, Tuple

from writing.words import Written, frame, lines, load, load_mix, shows, written

# In a box of this edge a ring unit is a billionth, and in the other one a millionth, of the unit of the text.
UNITS_OF_NANO = "4.294967296"
UNITS_OF_MICRO = "4294.967296"
Atom = Tuple[int, int, int]


def nano(units: int) -> str:
    """So many billionths as a decimal number."""
    size = abs(units)
    return f"{'-' if units < 0 else ''}{size // 10**9}.{size % 10**9:09}"


def placed(atoms: Sequence[Atom]) -> str:
    """A frame of atoms at places in ring units, for a box whose unit is a billionth."""
    return frame([("X", *map(nano, atom)) for atom in atoms])


def pair_at(way: Atom, sigma: int, strength: int) -> Iterator[str]:
    """Two atoms so far apart, at rest: their energy, their push and the way back."""
    words = f"{UNITS_OF_NANO} {nano(sigma)} {strength}"
    yield load(placed([(0, 0, 0), way]), words)
    yield lines("MEASURE a", "ADVANCE a 1", "MEASURE a") + shows(2) + lines("REVERSE a", "ADVANCE a 1", "DROP a")


def bins() -> Iterator[str]:
    """Two atoms that fly past each other through every bin: a step is a little less than the last bin is wide."""
    sigma = 2**24
    speed = sigma // 700
    frames = [placed([(0, 0, 0), (at, 0, 0)]) for at in (26 * sigma // 10 + speed, 26 * sigma // 10)]
    yield load("".join(frames), f"{UNITS_OF_NANO} {nano(sigma)} 512", mode="pair")
    yield lines("ADVANCE a 1", "MEASURE a") * 3800


def edges_of_bins() -> Iterator[str]:
    """At m / 8 of sigma begins bin 2 m^2; the last of them is the cutoff. A unit before, there, and a unit behind."""
    sigma = 2**20
    for m in range(5, 21):
        for more in (-1, 0, 1):
            yield from pair_at((sigma * m // 8 + more, 0, 0), sigma, 2**24)
            yield from pair_at((0, -(sigma * m // 8) - more, 0), sigma, 2**20)


def directions() -> Iterator[str]:
    """Close pairs in each direction, over the ends of the ring and in odd numbers, so that each rounding shows."""
    rnd = random.Random("directions")
    for _ in range(60):
        sigma = rnd.choice([65536, 65537, 999_999, 2**27 + 1, 858_993_459])
        way = [rnd.choice([-1, 1]) * rnd.randrange(sigma) for _ in range(3)]
        start = [rnd.choice([0, 2**32 - 1, 2**31, rnd.randrange(2**32)]) for _ in range(3)]
        atoms = [(start[0], start[1], start[2]), (start[0] + way[0], start[1] + way[1], start[2] + way[2])]
        yield load(placed(atoms), f"{UNITS_OF_NANO} {nano(sigma)} {rnd.choice([1, 1000, 131_072, 2**24])}")
        yield lines("MEASURE a", "ADVANCE a 1", "MEASURE a", "SHOW a 0", "SHOW a 1", "ADVANCE a 3", "SHOW a 1", "DROP a")


def images() -> Iterator[str]:
    """Images of half the ring and beside it, whose sums have more than 64 bits; and tugs of every size."""
    eight = placed([(number, 2 * number, 0) for number in range(8)])
    yield load(eight, f"{UNITS_OF_NANO} 0.000065536 1")
    for size in (-(2**31), -(2**31) + 1, 2**31 - 1):
        yield lines(*(f"TUG a {number} {size} {size} {size}" for number in range(8)), "MEASURE a", "REVERSE a", "MEASURE a")
    for number, tug in enumerate(("5 0 0", "-5 7 -9", "0 0 2147483647", "-2147483648 0 0", "000000000000000005 -0 -00001")):
        yield lines(f"TUG a {number} {tug}", "MEASURE a", "ADVANCE a 2", f"SHOW a {number}", "REVERSE a")
        yield lines(f"TUG a {number} {tug}", "MEASURE a")
    yield lines("ADVANCE a 5", "DUMP a") + shows(8)
    yield load(frame([("X", 0, 0, 0)] * 65), "5 1 16777216", "b") + lines("MEASURE b", "ADVANCE b 1", "SHOW b 64", "MEASURE b")


def half_a_box() -> Iterator[str]:
    """The greatest sigma: pairs half the box apart are out of reach, along one axis and along three."""
    for way in (2**31, 2**31 - 1, 2_147_483_646, 2_147_483_647 - 2**16, 1_239_850_262):
        for atom in ((way, 0, 0), (-way, 0, 0), (way, way, -way)):
            yield from pair_at(atom, 858_993_459, 2**24)


def classes() -> Iterator[str]:
    """Two species: each class its own sigma, step factor and weight, the reaches longest in turn, and energies of each sign."""
    rows = [("P", 0, 0, 0), ("Q", "1.1", 0, 0), ("P", 0, "1.12", 0), ("Q", 0, 0, "-1.13"), ("Q", "2.4", "0.2", 0), ("P", "-.95", 0, 0)]
    for sigmas in (("1", "1", "1"), ("2", "1", "1.1"), ("1", "2", ".9"), ("1", "1.5", "2"), ("0.5", "0.7", "2")):
        for weights in ((256, 256, 256), (1, 65_536, 255), (257, 1, 3), (65_536, 7, 1)):
            words = " ".join(f"{sigma} {strength} {weight}" for sigma, strength, weight in zip(sigmas, (131_072, 5, 999_999), weights))
            yield load_mix(frame(rows), f"12 P Q {words}") + lines("MEASURE a", "ADVANCE a 4", "MEASURE a") + shows(6)
            yield lines("REVERSE a", "ADVANCE a 3", "DUMP a", "DROP a")
            yield load_mix(frame(rows) + frame(rows[::-1]), f"12 Q P {words}", mode="pair")
            yield lines("ADVANCE a 1", "MEASURE a", "DUMP a", "DROP a")


def blocks() -> Iterator[str]:
    """Atoms in numbers beside those of whole blocks of 64."""
    rnd = random.Random("blocks")
    for atoms in (1, 2, 63, 64, 65, 127, 129, 192):
        side = next(side for side in range(1, 9) if side ** 3 >= atoms)
        spots = [(x, y, z) for x in range(side) for y in range(side) for z in range(side)]
        rows = [("PQ"[rnd.randrange(2)], *(f"{1.15 * part + rnd.uniform(-0.1, 0.1):.4f}" for part in spot)) for spot in spots[:atoms]]
        rnd.shuffle(rows)
        yield load(frame(rows), f"{1.15 * side + 2:.2f} 1 131072") + lines("ADVANCE a 3", "MEASURE a") + shows(atoms) + lines("DROP a")
        yield load_mix(frame(rows), f"{1.15 * side + 2:.2f} P Q 1 131072 256 1.2 99999 300 .9 88888 200")
        yield lines("ADVANCE a 3", "MEASURE a") + shows(atoms) + lines("DROP a")


def way_back() -> Iterator[str]:
    """There and back past the beginning, with what is saved on the way and tugs before and after a reversal."""
    rows = [("X", x, y, z) for x in (0, "1.1") for y in (0, "1.2") for z in (0, "1.3")]
    yield load(frame(rows), "5.5 1 131072") + lines("ADVANCE a 40", "BRANCH a there", "MEASURE a", "REVERSE a", "ADVANCE a 39") + shows(8)
    yield lines("ADVANCE a 60", "MEASURE a", "BRANCH a beyond", "TUG a 3 1000 -2000 3000", "ADVANCE a 1", "REVERSE a", "MEASURE a")
    yield lines("RESTORE a there", "ADVANCE a 1", "MEASURE a", "RESTORE a beyond", "ADVANCE a 1", "MEASURE a", "LIST a", "LIST") + shows(8)
    yield lines("START a 7", "LIST", "START a 5", "FORGET a there", "LIST a", "SHOW a 1", "REVERSE a", "START a 12", "MEASURE a", "DUMP a")


def coordinates() -> Iterator[str]:
    """Places and printed decimals in boxes of every size, of coordinates beside the ends of the box."""
    rnd = random.Random("coordinates")
    for edge in ("0.001", "0.003", "1", "7.77", UNITS_OF_NANO, UNITS_OF_MICRO, "99999.999999999", "1000000"):
        rows: List[Tuple[object, ...]] = []
        for factor in ("0", "1", "-1", "0.5", "-0.5", "0.999999999", "2.5"):
            size = float(edge) * float(factor)
            rows.append(("X", *(f"{size + rnd.choice([0, 1e-9, -1e-9, 1e-6]):.9f}" for _ in range(3))))
        rows = [row for row in rows if all(abs(float(str(part))) <= 1e6 for part in row[1:])]
        yield load(frame(rows), f"{edge} {float(edge) / 8:.9f} 1") + lines("DUMP a") + shows(len(rows)) + lines("DROP a")


def streams() -> Iterator[Written]:
    for part in (bins, edges_of_bins, directions, images, half_a_box, classes, blocks, way_back, coordinates):
        yield written(f"motion/{part.__name__}", part())
