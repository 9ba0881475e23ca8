#!/usr/bin/env python3
"""The liquid of Kob and Andersen, 800 atoms A and 200 B at a temperature of 1: energy and pair correlations beside LAMMPS."""
from __future__ import annotations

from typing import Any

import numpy
from shared import TOP, options_of, save_picture, units, user_of
from ljclient import analysis

SIDE = 10  # atoms along each axis of the lattice that it begins with
EDGE = units.edge_of_density(SIDE**3, 1.2)
H = 17180  # a time step of 0.002
LAMMPS_ENERGY = -6.585  # of an atom, by bench/lammps/kob_andersen.in
COLOURS = ("tab:blue", "tab:red", "tab:green")


def draw(axes: Any, told: Any, lammps: Any) -> None:
    for (pair, each), other, colour in zip(told.partial.items(), lammps[1:], COLOURS):
        name = "".join(pair)
        axes.errorbar(each.r, each.g, each.error, color=colour, elinewidth=0.8, label=f"{name}, ljserve")
        axes.plot(lammps[0], other, "--", color=colour, label=f"{name}, LAMMPS")
    axes.set(xlabel="r / σ", ylabel="g(r)", xlim=(0.6, 2.25), title="The liquid of Kob and Andersen at a temperature of 1")
    axes.legend(ncol=3)


def main() -> None:
    options = options_of(None, __doc__, 20_000, 500)
    sites = numpy.indices((SIDE,) * 3).reshape(3, -1).T * EDGE / SIDE
    symbols = list(numpy.random.default_rng(1).permutation(["A"] * 800 + ["B"] * 200))
    pairs, energy = analysis.Rdf(bins=90, r_max=2.25, stride=5), analysis.Energy()
    with user_of(options) as user:
        liquid = user.load_mix("ka", sites, symbols=symbols, edge=EDGE, order="space", **units.kob_andersen(H))
        liquid.equilibrate(1.0, options.steps, seed=1)
        analysis.analyse(liquid, options.steps, 10, [pairs, energy], progress=True)
    told, lammps, means = pairs.result(), numpy.loadtxt(f"{TOP}/examples/kob_andersen_lammps.txt").T, energy.result()
    print(f"temperature {means.temperature}, potential energy {means.potential} of an atom, by LAMMPS {LAMMPS_ENERGY}")
    for (pair, each), other in zip(told.partial.items(), lammps[1:]):
        print(f"{''.join(pair)}: first maximum {each.g.max():.2f}, by LAMMPS {other.max():.2f}")
    if options.plot:
        save_picture(lambda axes: draw(axes, told, lammps), options.plot)


if __name__ == "__main__":
    main()
