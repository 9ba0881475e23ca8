#!/usr/bin/env python3
"""Lets a mixture of two species separate, reverses the motion, and mixes it again, bit for bit.

Two atoms of one species attract and repel each other as two of the other do, unlike ones a quarter as much. They start at
rest on a lattice, each species at random sites. Prints which share of the neighbours within 1.5 sigma is unlike, or draws
it over the steps with --plot, beside slices of the box. The status is 1 where an atom is not back at its place.
"""
from __future__ import annotations

import contextlib
import random
import sys
from collections import defaultdict
from itertools import product
from typing import Any, Dict, List, Sequence, Tuple

from shared import DENSITY, H, RING, Frame, Place, ljclient, options_of, print_table, pyplot, save_figure, there_and_back, user_of

SIDE = 9  # atoms along each axis of the lattice, which is cubic
ATOMS = SIDE**3
EDGE = round((ATOMS / DENSITY) ** (1 / 3), 6)  # of the box, in sigma
SPECIES = ("A", "B")
LIKE = (1, H, 256)  # sigma, step factor and weight of two like atoms
UNLIKE = (1, H // 4, 64)  # an epsilon of a quarter: so is the step factor, and the weight of energies
NEAR = 1.5  # how far neighbours are, in sigma
STEPS = 12_000
PIECE = 300
SLICE = 1.4  # how thick the slices of the picture are, in sigma: at the start one layer of the lattice
COLOURS = ("tab:orange", "tab:blue")


def species() -> List[int]:
    """The species of each atom, 0 or 1, half of each; the same in every run."""
    kinds = [atom % 2 for atom in range(ATOMS)]
    random.Random(1).shuffle(kinds)
    return kinds


def lattice(kinds: Sequence[int]) -> str:
    """A cubic lattice, somewhat shaken, as XYZ text in units of sigma."""
    drawn = random.Random(2)
    cell = EDGE / SIDE
    sites = ([cell * (index + 0.5 + drawn.uniform(-0.1, 0.1)) for index in site] for site in product(range(SIDE), repeat=3))
    rows = (f"{SPECIES[kind]} {x:.6f} {y:.6f} {z:.6f}\n" for kind, (x, y, z) in zip(kinds, sites))
    return f"{ATOMS}\na cubic lattice of two species\n" + "".join(rows)


def separate(user: ljclient.User, kinds: Sequence[int], steps: int = STEPS, piece: int = PIECE) -> List[Frame]:
    """The frames after each piece of the way there and of the way back."""
    session = user.load_mix("unmixing", lattice(kinds), species=SPECIES, edge=EDGE, classes=[LIKE, UNLIKE, LIKE])
    try:
        return there_and_back(session, steps, piece)
    finally:
        with contextlib.suppress(ljclient.ClientError):
            session.drop()


def unlike_share(frame: Frame, kinds: Sequence[int]) -> float:
    """Which share of the pairs of neighbours are of two species."""
    cells = int(EDGE / NEAR)  # along each axis, so that neighbours stand in one cell or in two that touch
    reach = (NEAR / EDGE * RING) ** 2
    members: Dict[Tuple[int, ...], List[int]] = defaultdict(list)
    for atom, place in enumerate(frame):
        members[tuple(part * cells // RING for part in place)].append(atom)
    pairs = unlike = 0
    for cell, atoms in members.items():
        for shift in product((-1, 0, 1), repeat=3):
            others = members.get(tuple((index + by) % cells for index, by in zip(cell, shift)), [])
            for one, other in product(atoms, others):
                if one < other and squared_distance(frame[one], frame[other]) < reach:
                    pairs += 1
                    unlike += kinds[one] != kinds[other]
    return unlike / pairs


def squared_distance(place: Place, other: Place) -> int:
    """In ring units, each axis round the box the nearer way."""
    return sum(((a - b + RING // 2) % RING - RING // 2) ** 2 for a, b in zip(place, other))


def draw_slice(axes: Any, frame: Frame, kinds: Sequence[int], title: str) -> None:
    """Draws the atoms of a slice of the box."""
    for kind, colour in enumerate(COLOURS):
        inside = [place for place, other in zip(frame, kinds) if other == kind and place[2] * EDGE < SLICE * RING]
        xs, ys = ([place[axis] * EDGE / RING for place in inside] for axis in (0, 1))
        axes.scatter(xs, ys, s=70, color=colour, edgecolor="white", linewidth=0.5, label=f"species {SPECIES[kind]}")
    axes.set(xlim=(0, EDGE), ylim=(0, EDGE), aspect="equal", xlabel="x / σ", ylabel="y / σ", title=title)


def draw_shares(axes: Any, made: Sequence[int], shares: Sequence[float]) -> None:
    """Draws the share of unlike neighbours over the steps made."""
    turn = len(made) // 2
    axes.plot(made[: turn + 1], shares[: turn + 1], color="tab:red", label="there: it separates")
    axes.plot(made[turn:], shares[turn:], color="tab:blue", label="back: after REVERSE")
    axes.axvline(made[turn], color="gray", linestyle=":", linewidth=1)
    axes.set(xlabel="steps made", ylabel="share of unlike neighbours", xlim=(0, made[-1]), ylim=(0, None))
    axes.legend(loc="lower center")


def draw(path: str, frames: Sequence[Frame], kinds: Sequence[int], made: Sequence[int], shares: Sequence[float]) -> None:
    """Draws slices of the box at the start and where the motion turns, and the shares beside them."""
    figure, (before, after, over) = pyplot().subplots(
        1, 3, figsize=(9.6, 3.6), dpi=110, layout="constrained", gridspec_kw={"width_ratios": [1, 1, 1.35]}
    )
    turn = len(frames) // 2
    draw_slice(before, frames[0], kinds, "At the start, and at the end")
    draw_slice(after, frames[turn], kinds, f"After {made[turn]:,} steps")
    draw_shares(over, made, shares)
    before.legend(loc="upper left", bbox_to_anchor=(0, -0.2), borderaxespad=0, ncol=2)
    save_figure(figure, path)


def main(words: List[str]) -> int:
    options = options_of(words, __doc__, STEPS, PIECE)
    kinds = species()
    with user_of(options) as user:
        frames = separate(user, kinds, options.steps)
    made = [number * PIECE for number in range(len(frames))]
    shares = [unlike_share(frame, kinds) for frame in frames]
    if options.plot:
        draw(options.plot, frames, kinds, made, shares)
    else:
        rows = zip(made[::4], shares[::4])
        print_table(["steps made", "unlike neighbours"], [(step, f"{share:.4f}") for step, share in rows])
    back = sum(one == other for one, other in zip(frames[0], frames[-1]))
    print(f"{back} of {ATOMS} atoms are back at their places, bit for bit")
    return 0 if back == ATOMS else 1


if __name__ == "__main__":
    sys.exit(main(sys.argv[1:]))
