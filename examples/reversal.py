#!/usr/bin/env python3
"""Shows what exact reversal makes possible, by the functions of ljclient.reversal:

    echo        a liquid is turned back with one atom kicked, by three kicks, and leaves the way that it came
    divergence  eight runs of a liquid, in each of which another atom is kicked, and the Lyapunov exponent
    mixing      two species that begin in one half of the box each: the entropy of mixing, there and back
    arrow       which quantities of a crystal that melts tell the direction of time, there and back

    python3 examples/reversal.py echo --plot x.png

Prints what was found, or draws it with --plot. What is turned back without a kick is at its start again, bit for bit.
"""
from __future__ import annotations

import argparse
import sys
from typing import Any, Callable, Dict, NamedTuple, Optional, Sequence

from shared import ATOMS, DENSITY, HEAT, add_plot, ljclient, prepare_picture, save_picture, stop

Kick, lattice = ljclient.reversal.Kick, ljclient.state_points.lattice
H = 16384  # a time step of 0.002
MELTING = 1000
KICKS = (1, 2**10, 2**20)  # along x, in 2^-32 of the box
SPECIES = ("A", "B")


def liquid_of(user: ljclient.User, melting: int) -> ljclient.Session:
    """A liquid just above its triple point."""
    liquid = user.load("liquid", lattice("fcc", density=DENSITY, atoms=ATOMS), sigma=1, h=H, order="space")
    liquid.heat(HEAT)
    liquid.advance(melting)
    return liquid


def echo(user: ljclient.User, steps: int, melting: int, axes: Any) -> None:
    liquid = liquid_of(user, melting)
    for kick in (None, *(Kick(0, (units, 0, 0)) for units in KICKS)):
        told = ljclient.reversal.echo(liquid, steps, kick)
        print(told)
        if axes and kick:
            told.plot(axes)


def divergence(user: ljclient.User, steps: int, melting: int, axes: Any) -> None:
    told = ljclient.reversal.divergence(liquid_of(user, melting), steps, 8)
    print(told)
    if axes:
        told.plot(axes)


def mixing(user: ljclient.User, steps: int, melting: int, axes: Any) -> None:
    halves = ljclient.state_points.binary(lattice("fcc", density=0.6, atoms=500), SPECIES, apart=True)
    fluid = user.load_mix("mixing", halves, species=SPECIES, classes=[(1, H, 256)] * 3, order="space")
    fluid.heat(3)
    told = ljclient.reversal.entropy_of_mixing(fluid, steps)
    print(told)
    if axes:
        told.plot(axes)


def arrow(user: ljclient.User, steps: int, melting: int, axes: Any) -> None:
    crystal = user.load("crystal", lattice("fcc", density=DENSITY, atoms=ATOMS), sigma=1, h=H, order="space")
    crystal.heat(HEAT)
    told = ljclient.reversal.arrow(crystal, steps)
    print(told)
    print(f"the direction is told by {', '.join(told.telling)}; both ways have the same values: {told.is_exact}")
    if axes:
        told.plot(axes)


class Kind(NamedTuple):
    """What is shown, and by how many steps."""

    show: Callable[[ljclient.User, int, int, Any], None]
    steps: int


KINDS: Dict[str, Kind] = {
    "echo": Kind(echo, 2000),
    "divergence": Kind(divergence, 2500),
    "mixing": Kind(mixing, 8000),
    "arrow": Kind(arrow, 600),
}


def options_of(words: Optional[Sequence[str]]) -> argparse.Namespace:
    parser = argparse.ArgumentParser(description=__doc__, formatter_class=argparse.RawDescriptionHelpFormatter)
    parser.add_argument("kind", choices=KINDS, help="what is shown")
    add_plot(parser)
    parser.add_argument("--steps", metavar="N", type=int, help="how many steps there are each way")
    parser.add_argument("--melting", metavar="N", type=int, default=MELTING, help=f"how many steps a liquid has before: {MELTING}")
    options = parser.parse_args(words)
    prepare_picture(options.plot)
    return options


def main(words: Sequence[str]) -> int:
    options = options_of(words)
    kind = KINDS[options.kind]
    steps = kind.steps if options.steps is None else options.steps
    try:
        with ljclient.run() as user:
            if options.plot:
                save_picture(lambda axes: kind.show(user, steps, options.melting, axes), options.plot)
            else:
                kind.show(user, steps, options.melting, None)
    except (ljclient.ClientError, ValueError) as error:
        stop(error)
    return 0


if __name__ == "__main__":
    sys.exit(main(sys.argv[1:]))
