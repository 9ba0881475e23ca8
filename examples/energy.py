#!/usr/bin/env python3
"""Follows the energy of a melting crystal over 20,000 steps, for several step factors.

Prints the total energy per atom over the steps, or with --plot draws over the time how far it is from that at the start, as
a share of it. It rises, the faster the longer the step is. The positions of the Störmer-Verlet form give velocities at half
steps, so the kinetic energy at a step is the mean of those of the half steps before and after it.
"""
from __future__ import annotations

import math
import sys
from typing import Any, Dict, List, Sequence, Tuple

from shared import ATOMS, RING, TIME, hot_crystal, ljclient, options_of, show, user_of

FACTORS = [32768, 131072, 524288, 1179648]
STEPS = 20_000
PIECE = 100
# The steps at which the energy was measured, and the energies, for each step factor.
Found = Dict[int, Tuple[List[int], List[float]]]


def energies(user: ljclient.User, h: int, steps: int = STEPS, piece: int = PIECE) -> Tuple[List[int], List[float]]:
    """The steps at which it was measured, and the total energy per atom there in epsilon."""
    with hot_crystal(user, "energy", h, watch=False) as session:  # what the client would warn of is shown here
        rows = list(session.thermo(every=piece, rows=steps // piece))
    return [row.step for row in rows], [row.total / ATOMS for row in rows]


def time_step(h: int) -> float:
    """The time step of a step factor, in units of sigma sqrt(m / epsilon)."""
    return math.sqrt(h / RING)


def changes(energy: Sequence[float]) -> List[float]:
    """By how much each energy differs from the first, as a share of that."""
    return [abs(one - energy[0]) / abs(energy[0]) for one in energy]


def draw(axes: Any, found: Found) -> None:
    for h, (at, energy) in found.items():
        times = [step * time_step(h) for step in at]
        axes.loglog(times[1:], changes(energy)[1:], linewidth=1, label=f"h = {h:,}, Δt = {time_step(h):.4f}")
    axes.set(xlabel=TIME, ylabel="$|E - E_0|\\, /\\, |E_0|$")
    axes.set_title(f"Change of the total energy E of {ATOMS} atoms, by step factor")
    axes.legend(loc="upper left", fontsize="small")


def rows_of(found: Found) -> List[Sequence[object]]:
    """Every tenth energy, with a column for each step factor."""
    steps, _ = found[FACTORS[0]]
    rows = list(zip(steps, *(energy for _, energy in found.values())))
    return [(step, *(f"{one:.5f}" for one in energies)) for step, *energies in rows[::10]]


def main(words: Sequence[str]) -> int:
    options = options_of(words, __doc__, STEPS, PIECE)
    found: Found = {}
    with user_of(options) as user:
        for h in FACTORS:
            found[h] = energies(user, h, options.steps)
            _, energy = found[h]
            print(f"h = {h}: {energy[0]:.5f} epsilon per atom at first, {energy[-1]:.5f} at last", flush=True)
    show(options.plot, lambda axes: draw(axes, found), ["step", *(f"h = {h}" for h in FACTORS)], rows_of(found))
    return 0


if __name__ == "__main__":
    sys.exit(main(sys.argv[1:]))
