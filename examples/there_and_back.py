#!/usr/bin/env python3
"""Melts a crystal, reverses the motion, and goes back to the crystal, bit for bit.

Prints the distance of the atoms from where they began, or draws it over the steps with --plot. The status is 1 where an
atom is not back at its place.
"""
from __future__ import annotations

import sys
from typing import Any, List, Sequence, Tuple

from shared import ATOMS, Frame, distance, hot_crystal, ljclient, options_of, show, there_and_back, user_of

STEPS = 2000
PIECE = 40


def travel(user: ljclient.User, steps: int = STEPS, piece: int = PIECE) -> List[Frame]:
    """The frames after each piece of the way there and of the way back."""
    with hot_crystal(user, "there-and-back") as session:
        return there_and_back(session, steps, piece)


def distances(frames: Sequence[Frame], piece: int = PIECE) -> Tuple[List[int], List[float]]:
    """How many steps were made, and how far the atoms then were from the start in sigma, frame by frame."""
    return [number * piece for number in range(len(frames))], [distance(frame, frames[0]) for frame in frames]


def draw(axes: Any, frames: Sequence[Frame], piece: int = PIECE) -> None:
    made, away = distances(frames, piece)
    turn = len(made) // 2
    axes.plot(made[: turn + 1], away[: turn + 1], color="tab:red", label="there: the crystal melts")
    axes.plot(made[turn:], away[turn:], color="tab:blue", label="back: after REVERSE")
    axes.axvline(made[turn], color="gray", linestyle=":", linewidth=1)
    axes.plot(made[-1], away[-1], "o", color="tab:blue", clip_on=False, label=f"{away[-1]:g} at the end, bit for bit")
    axes.set(xlabel="steps made", ylabel="distance from the start / σ", xlim=(0, made[-1]), ylim=(0, None))
    axes.set_title(f"{ATOMS} atoms melt, and go back to their crystal")
    axes.legend(loc="lower center")


def main(words: Sequence[str]) -> int:
    options = options_of(words, __doc__, STEPS, PIECE)
    with user_of(options) as user:
        frames = travel(user, options.steps)
    made, away = distances(frames)
    rows = [(step, f"{far:.6f}") for step, far in zip(made[::5], away[::5])]
    show(options.plot, lambda axes: draw(axes, frames), ["steps made", "distance / sigma"], rows)
    back = sum(one == other for one, other in zip(frames[0], frames[-1]))
    print(f"{back} of {ATOMS} atoms are back at their places, bit for bit")
    return 0 if back == ATOMS else 1


if __name__ == "__main__":
    sys.exit(main(sys.argv[1:]))
