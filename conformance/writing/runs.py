"""Long runs: all places after 10^2 to 10^5 steps, where an error in the last unit of one push would have spread to all atoms."""
import random
from typing import Iterator, List, Sequence, Tuple

from writing.words import Written, frame, lines, load, load_mix, shows, written


def cluster(side: int, atoms: int, apart: float) -> List[Tuple[str, ...]]:
    """Atoms on a simple lattice, each moved a little, of two species by chance."""
    rnd = random.Random(f"{side} {atoms} {apart}")
    spots = [(x, y, z) for x in range(side) for y in range(side) for z in range(side)][:atoms]
    moved = [[f"{apart * part + rnd.uniform(-0.08, 0.08):.6f}" for part in spot] for spot in spots]
    return [(rnd.choice(("P", "Q")), *spot) for spot in moved]


def stops(atoms: int, steps: Sequence[int]) -> Iterator[str]:
    """All places and what is measured after these numbers of steps, then the way back to the first of them."""
    at = 0
    for step in steps:
        yield lines(f"ADVANCE a {step - at}") + shows(atoms) + lines("MEASURE a")
        at = step
    yield lines("REVERSE a", f"ADVANCE a {at - 1 - steps[0]}") + shows(atoms) + lines("REVERSE a", "MEASURE a")


def streams() -> Iterator[Written]:
    few = frame(cluster(3, 20, 1.12))
    yield written("runs/liquid_20", [load(few, "5.2 1 131072"), *stops(20, (100, 1000, 10_000))])
    yield written("runs/gas_16", [load(frame(cluster(3, 16, 1.5)), "9 1 400000"), *stops(16, (100, 1000, 10_000))])
    words = "5.3 P Q 1 131072 256 1.05 65536 141 0.95 120000 211"
    yield written("runs/mixture_20", [load_mix(few, words), *stops(20, (100, 1000, 10_000))])
    yield written("runs/liquid_16", [load(frame(cluster(3, 16, 1.12)), "5.1 1 131072"), *stops(16, (100, 1000, 10_000, 100_000))])
    yield written("runs/blocks_70", [load(frame(cluster(5, 70, 1.13)), "6.2 1 131072"), *stops(70, (100, 1000))])
