#!/usr/bin/env python3
"""Tugs one atom of each of 64 liquids by one unit, and measures how fast each leaves the same liquid without a tug.

The liquids have velocities of their own. They are independent of each other, so they go to processes of this machine, to MPI or
to Dask:

    python3 examples/lyapunov.py --plot x.png
    mpiexec -n 4 python3 -m mpi4py.futures examples/lyapunov.py --mpi
    python3 examples/lyapunov.py --dask tcp://127.0.0.1:8786      (or --dask local for a cluster of its own)

Workers of Dask have `clients/python` and `examples` in their PYTHONPATH.

Prints the growth of the distance, or draws it with --plot, and the Lyapunov exponent with its error: the slope of the logarithm
of each run's distance over the time, from 1/256 to 1/10 of sigma, as mean and standard error over the runs.

1/256 of sigma is the width of a bin at a distance of sigma, and pushes are looked up by bins. Two runs that are closer than a
bin have the same pushes but for the pairs that fall into different bins, so their distance grows in jumps, and two to three times
as fast as that of two liquids with a smooth force (docs/ACCURACY.md). That is no exponent of the liquid, so a run is fitted from
where its distance first is 1/256 of sigma. From 1/10 of sigma on the runs begin to forget each other.
"""
from __future__ import annotations

import argparse
import contextlib
import functools
import math
import os
import statistics
import sys
import tempfile
from concurrent.futures import ProcessPoolExecutor
from typing import Any, Iterator, List, Sequence, Tuple

from shared import EDGE, H, HEAT, RING, TIME, add_plot, crystal, distance
from shared import ljclient, needed, prepare_picture, show

RUNS, STEPS, PIECE, MELTING = 64, 700, 20, 1000
NEAR, FAR = 1 / 256, 1 / 10
TIME_STEP = math.sqrt(H / RING)


def begin(seed: int, melting: int, user: ljclient.User) -> List[ljclient.Session]:
    """A liquid as it is, and with one atom tugged by a part in 2^32 of the box."""
    alone = user.load("alone", crystal(), edge=EDGE, sigma=1, h=H)
    alone.heat(HEAT, seed=seed)
    alone.advance(melting)
    with tempfile.TemporaryDirectory() as folder:
        path = os.path.join(folder, "liquid")
        alone.save(path)
        tugged = user.load_saved(path, "tugged")
    tugged.tug(0, (1, 0, 0))
    return [alone, tugged]


def apart(alone: ljclient.Session, tugged: ljclient.Session) -> float:
    """How far the two are from each other, in sigma."""
    return float(distance(alone.places(), tugged.places()))


def jobs_of(runs: int, steps: int, melting: int) -> List[ljclient.Job]:
    """A job for each liquid."""
    return [ljclient.Job(functools.partial(begin, seed, melting), apart, steps, PIECE) for seed in range(runs)]


@contextlib.contextmanager
def executor_of(options: argparse.Namespace) -> Iterator[Any]:
    """Where the runs go."""
    if options.mpi:
        with needed("mpi4py.futures").MPIPoolExecutor() as pool:
            yield pool
    elif options.dask:
        distributed = needed("distributed")
        local = {"n_workers": options.processes, "threads_per_worker": 1, "dashboard_address": None, "host": "127.0.0.1"}
        with distributed.Client(**local) if options.dask == "local" else distributed.Client(options.dask) as client:
            yield client.get_executor()
    else:
        yield functools.partial(ProcessPoolExecutor, options.processes)


def inside(run: Sequence[float]) -> List[int]:
    """Which distances of a run are in the range: from the first at NEAR to the last before one is above FAR."""
    first, after = (next((number for number, far in enumerate(run) if far >= limit), len(run)) for limit in (NEAR, FAR))
    return list(range(first, after))


def exponent_of(runs: Sequence[Sequence[float]]) -> Tuple[List[float], List[float], List[int]]:
    """The slope of the logarithm of each run where its own distance is in the range, if that is three times or more.

    With it come the means of the logarithms, piece by piece, and which of these are in the range.
    """
    means = [statistics.fmean(math.log(max(far, 1e-300)) for far in column) for column in zip(*runs)]
    fitted = [(run, numbers) for run in runs if len(numbers := inside(run)) >= 3]
    slopes = [
        slope([number * PIECE * TIME_STEP for number in numbers], [math.log(run[number]) for number in numbers]) for run, numbers in fitted
    ]
    return slopes, means, inside([math.exp(mean) for mean in means])


def slope(xs: Sequence[float], ys: Sequence[float]) -> float:
    """That of the line with the least squares."""
    x, y = statistics.fmean(xs), statistics.fmean(ys)
    return sum((a - x) * (b - y) for a, b in zip(xs, ys)) / sum((a - x) ** 2 for a in xs)


def told_of(slopes: Sequence[float]) -> str:
    """The exponent and its error, in words."""
    if len(slopes) < 2:
        return f"too few steps between {NEAR:.4f} and {FAR} sigma, or too few runs, for an exponent"
    error = statistics.stdev(slopes) / math.sqrt(len(slopes))
    return f"Lyapunov exponent {statistics.fmean(slopes):.2f} +- {error:.2f} per unit of time, over {len(slopes)} runs"


def draw(axes: Any, runs: Sequence[Sequence[float]]) -> None:
    slopes, means, inside_of_means = exponent_of(runs)
    times = [number * PIECE * TIME_STEP for number in range(len(means))]
    for run in runs:
        axes.semilogy(times[1:], run[1:], color="tab:red", linewidth=0.5, alpha=0.3)
    axes.semilogy(times[1:], [math.exp(mean) for mean in means[1:]], color="black", label=f"mean of {len(runs)} runs")
    if slopes and inside_of_means:
        axes.axhspan(NEAR, FAR, color="tab:blue", alpha=0.1, linewidth=0)
        first, rate = inside_of_means[0], statistics.fmean(slopes)
        line = [math.exp(means[first] + rate * (time - times[first])) for time in times]
        shown = [number for number, far in enumerate(line) if NEAR / 100 <= far <= 1]
        label = f"exp({rate:.2f} t), as between 1/256 and 1/10"
        axes.semilogy([times[number] for number in shown], [line[number] for number in shown], "--", color="tab:blue", label=label)
    axes.set(xlabel=TIME, ylabel="distance / σ", xlim=(0, times[-1]))
    axes.set_title("How fast liquids with one tugged atom leave those without a tug")
    axes.legend(loc="lower right")


def options_of(words: Sequence[str]) -> argparse.Namespace:
    parser = argparse.ArgumentParser(description=__doc__, formatter_class=argparse.RawDescriptionHelpFormatter)
    add_plot(parser)
    parser.add_argument("--runs", metavar="N", type=int, default=RUNS, help=f"how many liquids: {RUNS}")
    parser.add_argument("--steps", metavar="N", type=int, default=STEPS, help=f"how many steps after the tug: {STEPS}")
    parser.add_argument("--melting", metavar="N", type=int, default=MELTING, help=f"how many steps before it: {MELTING}")
    parser.add_argument("--processes", metavar="N", type=int, default=os.cpu_count(), help="how many processes: one for each core")
    parser.add_argument("--mpi", action="store_true", help="under `mpiexec -n N python3 -m mpi4py.futures`")
    parser.add_argument("--dask", metavar="ADDRESS", help="the scheduler of a Dask cluster, or `local` for a cluster on this machine")
    parser.add_argument("--folder", help="where checkpoints are kept, from which a later call goes on")
    options = parser.parse_args(words)
    if min(options.runs, options.melting, options.processes) < 1 or options.steps < PIECE:
        parser.error(f"--steps is at least {PIECE}, and the other numbers are at least 1")
    prepare_picture(options.plot)
    return options


def main(words: Sequence[str]) -> int:
    options = options_of(words)
    try:
        with executor_of(options) as executor:
            runs = ljclient.ensemble(jobs_of(options.runs, options.steps, options.melting), executor, folder=options.folder)
    except (ImportError, ljclient.ClientError) as error:
        sys.exit(f"{os.path.basename(sys.argv[0])}: {error}")
    slopes, means, _ = exponent_of(runs)
    rows = [(number * PIECE, f"{math.exp(mean):.3e}", f"{max(run[number] for run in runs):.3e}") for number, mean in enumerate(means)]
    show(options.plot, lambda axes: draw(axes, runs), ["step", "distance / sigma", "the greatest"], rows[1::5])
    print(told_of(slopes))
    return 0


if __name__ == "__main__":
    sys.exit(main(sys.argv[1:]))
