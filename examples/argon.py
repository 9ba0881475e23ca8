#!/usr/bin/env python3
"""Liquid argon as Rahman had it in 1964, 864 atoms at 94.4 K: pair correlations and diffusion, beside his figures and LAMMPS."""
import numpy
from ase.build import bulk
from shared import TOP, options_of, pyplot, save_figure, units, user_of
from ljclient import analysis


def main() -> None:
    options = options_of(None, __doc__, 25_000, 5000)
    pairs, energy = analysis.Rdf(bins=130, r_max=13, stride=5), analysis.Energy()
    motion = analysis.Diffusion(lags=150, msd_lags=500, fit=(2000, 10_000))
    with user_of(options) as user:
        argon = user.load("argon", bulk("Ar", cubic=True, a=10.229 * 3.4 / 6) * 6, dt=2, order="space", **units.ARGON)
        argon.equilibrate(94.4, min(10_000, options.steps), seed=4)
        analysis.analyse(argon, options.steps, 10, [pairs, motion, energy], progress=True)
    g, both = pairs.result(), motion.result()
    ways = [each.in_unit(1e-4, "10^-5 cm²/s") for each in (both.by_msd, both.by_vacf)]
    print(f"{energy.result().temperature}, first maximum {g.g.max():.2f} at {g.r[g.g.argmax()]:.2f} Å")
    print(f"diffusion {ways[0]} by displacements, {ways[1]} by velocities")
    if options.plot:
        figure, (left, right) = pyplot().subplots(1, 2, figsize=(9.6, 3.6), dpi=110, layout="constrained")
        left.plot(g.r, g.g, "-", *numpy.loadtxt(f"{TOP}/examples/argon_lammps.txt").T, "--", [3.7, 7.0, 10.4], [1.4] * 3, "v")
        left.set(xlabel="r / Å", ylabel="g(r)", xlim=(2.5, 13))
        left.legend(["ljserve", "LAMMPS", "maxima of Rahman"])
        times = both.msd.times / 1000
        right.errorbar(times, both.msd.msd, both.msd.error, elinewidth=0.5, label=f"ljserve: D = {ways[0].value:.2f} ± {ways[0].error:.2f}")
        right.plot(times, 0.6 * 2.51 * times, "--", label="6 D t of LAMMPS: 2.51")
        right.plot(times, 0.6 * 2.43 * times, ":", label="6 D t of Rahman: 2.43")
        right.set(xlabel="time / ps", ylabel="mean squared displacement / Å²")
        right.legend(loc="lower right", title="D in $10^{-5}$ cm²/s")
        save_figure(figure, options.plot)


if __name__ == "__main__":
    main()
