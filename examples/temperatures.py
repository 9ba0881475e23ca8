#!/usr/bin/env python3
"""Runs eight copies of one crystal at once, each at a temperature of its own: the cold ones stay crystals, the hot ones melt.

On a terminal each copy has a progress bar. Prints the temperature of each at the end, its potential energy, and the distance
of its atoms from where they began, or draws the distance over the temperature with --plot.
"""
from __future__ import annotations

import contextlib
import sys
from typing import Any, List, Sequence, Tuple

from shared import ATOMS, distance, hot_crystal, ljclient, options_of, show, user_of, whole

HEATS = [0.25 * number for number in range(1, 9)]  # temperatures of the copies when they start
STEPS = 2000
PIECE = 10
# Of each copy its temperature at the end, its potential energy per atom and how far its atoms are from their places.
Found = List[Tuple[float, float, float]]


def melt(user: ljclient.User, steps: int = STEPS) -> Found:
    """Runs the copies."""
    with contextlib.ExitStack() as loaded:
        copies = [loaded.enter_context(hot_crystal(user, f"heat-{100 * heat:.0f}", heat=heat)) for heat in HEATS]
        start = whole(copies[0].places())
        user.advance(copies, steps, progress=True)
        seen = [copy.measure() for copy in copies]
        away = [distance(whole(copy.places()), start) for copy in copies]
    return [(one.temperature, one.potential_energy / ATOMS, far) for one, far in zip(seen, away)]


def draw(axes: Any, found: Found) -> None:
    axes.plot([temperature for temperature, _, _ in found], [far for _, _, far in found], "o-", color="tab:red")
    axes.set(xlabel="temperature at the end: $k_B T / ε$", ylabel="distance from the crystal / σ", xlim=(0, None), ylim=(0, None))
    axes.set_title(f"Eight copies of {ATOMS} atoms")


def main(words: Sequence[str]) -> int:
    options = options_of(words, __doc__, STEPS, PIECE)
    with user_of(options) as user:
        found = melt(user, options.steps)
    heads = ["at first", "temperature", "potential energy / epsilon", "distance / sigma"]
    rows = [(f"{heat:.2f}", *(f"{number:.4f}" for number in row)) for heat, row in zip(HEATS, found)]
    show(options.plot, lambda axes: draw(axes, found), heads, rows)
    return 0


if __name__ == "__main__":
    sys.exit(main(sys.argv[1:]))
