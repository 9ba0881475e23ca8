#!/usr/bin/env python3
"""Runs a liquid twice, the second time with one atom tugged by one unit, and goes back with both.

A unit is a part in 2^32 of the box. Prints the distance between the two runs, which grows until nothing is alike, or draws
it over the steps with --plot. On the way back it shrinks again, and both end where they began, bit for bit. The status is 1
where one does not.

Pushes are looked up by bins, so the distance jumps where a pair first falls into another bin in one of the runs. Up to 1/256
of sigma, the width of a bin at a distance of sigma, it grows two to three times as fast as that of two liquids with a smooth
force, and from there on as fast as that (docs/ACCURACY.md). So a Lyapunov exponent is fitted from 1/256 of sigma on, as
lyapunov.py does.
"""
from __future__ import annotations

import sys
from typing import Any, List, Sequence, Tuple

from shared import Frame, distance, hot_crystal, ljclient, options_of, show, there_and_back, user_of

MELTING = 1000
STEPS = 1200
PIECE = 20
BIN = 1 / 256  # the width of a bin at a distance of sigma, in sigma


def fly(user: ljclient.User, steps: int = STEPS, piece: int = PIECE, tug: Sequence[int] = (1, 0, 0)) -> Tuple[List[Frame], List[Frame]]:
    """The frames of the run as it is and of the one with the tug, after each piece of the way there and back."""
    with hot_crystal(user, "butterfly") as session:
        session.advance(MELTING)
        session.branch("before")
        alone = there_and_back(session, steps, piece)
        session.restore("before")
        session.tug(0, tug)
        return alone, there_and_back(session, steps, piece)


def distances(alone: Sequence[Frame], tugged: Sequence[Frame], piece: int = PIECE) -> Tuple[List[int], List[float]]:
    """How many steps were made, and how far the two runs then were from each other in sigma, frame by frame."""
    return [number * piece for number in range(len(alone))], [distance(*pair) for pair in zip(alone, tugged)]


def draw(axes: Any, alone: Sequence[Frame], tugged: Sequence[Frame], piece: int = PIECE) -> None:
    made, apart = distances(alone, tugged, piece)
    turn = len(made) // 2
    axes.semilogy(made[1 : turn + 1], apart[1 : turn + 1], color="tab:red", label="there")
    axes.semilogy(made[turn:-1], apart[turn:-1], color="tab:blue", label="back: after REVERSE")
    axes.axvline(made[turn], color="gray", linestyle=":", linewidth=1)
    axes.axhline(BIN, color="gray", linestyle="--", linewidth=1, label="σ/256, the width of a bin")
    axes.set(xlabel="steps made", ylabel="distance of the two runs / σ", xlim=(0, made[-1]))
    axes.set_title("One atom, tugged by a part in $2^{32}$ of the box")
    axes.legend(loc="lower center")


def main(words: Sequence[str]) -> int:
    options = options_of(words, __doc__, STEPS, PIECE)
    with user_of(options) as user:
        alone, tugged = fly(user, options.steps)
    made, apart = distances(alone, tugged)
    rows = [(step, f"{far:.3e}") for step, far in zip(made[::5], apart[::5])]
    show(options.plot, lambda axes: draw(axes, alone, tugged), ["steps made", "distance / sigma"], rows)
    returned = alone[0] == alone[-1] == tugged[-1]
    print("both runs are back where they began, bit for bit" if returned else "a run is not back where it began")
    return 0 if returned else 1


if __name__ == "__main__":
    sys.exit(main(sys.argv[1:]))
