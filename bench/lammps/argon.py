#!/usr/bin/env python3
"""Prints r and the mean g(r) of LAMMPS' trajectories of argon, which examples/argon.py draws, and their diffusion.

usage: bench/lammps/argon.py FILE.. > examples/argon_lammps.txt

The files are those of `lmp -in bench/lammps/argon.in -var seed N -var out FILE`.
"""
from __future__ import annotations

import math
import pathlib
import statistics
import sys
from typing import Any, Tuple

HERE = pathlib.Path(__file__).resolve().parent
sys.path[:0] = [str(HERE.parents[1] / "clients" / "python"), str(HERE.parent)]
from options import Parser  # noqa: E402

STEP = 2.0  # in fs


def analysed(path: pathlib.Path) -> Tuple[float, Any]:
    """The diffusion of a trajectory in 10^-5 cm^2/s, by its MSD from 2 to 10 ps, and its g(r)."""
    from ljclient.analysis import METAL, Frame, Msd, Rdf

    moved, pairs = Msd(lags=100, fit=(2000, 10_000)), Rdf(bins=130, r_max=13)
    for text in path.read_text().split("ITEM: TIMESTEP\n")[1:]:
        rows = [line.split() for line in text.splitlines()]
        edge = float(rows[4][1]) - float(rows[4][0])
        frame = Frame.of([row[2:5] for row in rows[8:]], edge, time=STEP * int(rows[0][0]), units=METAL)
        moved.add(frame)
        pairs.add(frame)
    return moved.result().diffusion.value / 1e-4, pairs.result()


def main() -> None:
    parser = Parser(__doc__)
    parser.add_argument("paths", metavar="FILE", nargs="+", type=pathlib.Path, help="a trajectory")
    diffusions, pairs = zip(*map(analysed, parser.parse_args().paths))
    error = statistics.stdev(diffusions) / math.sqrt(len(diffusions))
    told = f"diffusion {statistics.fmean(diffusions):.2f} +- {error:.2f} 10^-5 cm^2/s"
    print(f"# LAMMPS, mean of {len(diffusions)} runs of bench/lammps/argon.in: {told}")
    print("# r in angstrom, g(r)")
    for r, *heights in zip(pairs[0].r, *(each.g for each in pairs)):
        if r > 2.5:
            print(f"{r:.2f} {statistics.fmean(heights):.4f}")


if __name__ == "__main__":
    main()
