"""The analysis of a run: results from its frames, each with its standard error and unit. It needs numpy, and `plot` needs matplotlib.

`rdf`
    The radial distribution function g(r).
`msd`
    The mean squared displacement, over many origins.
`vacf`
    The velocity autocorrelation function and its spectrum, over many origins.
`diffusion`
    The diffusion coefficient, from `msd` and from `vacf`.
`structure_factor`
    S(k).
`stress`, `pressure`
    The mean stress and pressure.
`viscosity`
    The shear viscosity, by Green and Kubo.
`energy`
    Energies and temperature.
`order`
    Bond orders and cubic order.
`clusters`
    Clusters of connected atoms.

Each of these functions advances a session, and looks at frames during the run. `Rdf`, `Msd` and so on take frames one at a time, by
`add`: from a session, a file or another program (`Frame.of`). Their memory does not grow with the run. `analyse` passes the frames of
one run to several of them.

Errors are standard errors of the mean of one run, from block averages (`Blocks`). They account for correlated frames. They are nan if
there are too few frames. With two species, most results have `partial`: the same by species, or by pairs of species.

The liquid argon of Rahman (1964). The paper gives a diffusion coefficient of 2.43:

    from ase.build import bulk
    from matplotlib import pyplot

    from ljclient import analysis, run, units

    pairs = analysis.Rdf(r_max=13, stride=10)
    motion = analysis.Diffusion(lags=150, msd_lags=500, fit=(2000, 10_000))
    pressure, energy = analysis.Pressure(tail=True), analysis.Energy(tail=True)
    with run() as user:
        crystal = bulk("Ar", cubic=True, a=5.7964) * 6
        argon = user.load("argon", crystal, dt=2, order="space", **units.ARGON)
        argon.equilibrate(94.4, 10_000)
        analysis.analyse(argon, 25_000, 10, [pairs, motion, pressure, energy])
    g, d = pairs.result(), motion.result()
    for each in (d.by_msd, d.by_vacf):
        print("diffusion", each.in_unit(1e-4, "10^-5 cm^2 / s"))
    print("pressure", pressure.result(), "at", energy.result().temperature)
    figure, axes = pyplot.subplots(2, 2, figsize=(10, 7), layout="constrained")
    g.plot(axes[0, 0])
    d.msd.plot(axes[0, 1])
    d.vacf.plot(axes[1, 0])
    d.vacf.plot_spectrum(axes[1, 1])
    figure.savefig("rahman.png")

The liquid of Kob and Andersen (1995). `partial` has g(r) of each pair of species:

    import numpy

    from ljclient import analysis, run, units

    edge = units.edge_of_density(1000, 1.2)
    sites = numpy.indices((10, 10, 10)).reshape(3, -1).T * edge / 10
    symbols = list(numpy.random.default_rng(1).permutation(["A"] * 800 + ["B"] * 200))
    with run() as user:
        words = units.KOB_ANDERSEN
        liquid = user.load_mix("ka", sites, symbols=symbols, edge=edge, order="space", **words)
        liquid.equilibrate(1.0, 20_000)
        g = analysis.rdf(liquid, steps=20_000, every=100, r_max=3.0)
    for pair, each in g.partial.items():
        print(*pair, each.r[each.g.argmax()], each.g.max(), each.error[each.g.argmax()])
    g.plot().figure.savefig("kob_andersen.png")
"""
from .analyses import Analysis, analyse
from .clusters import Clusters, ClustersResult, clusters
from .diffusion import Diffusion, DiffusionResult, diffusion
from .energy import Energy, EnergyResult, energy
from .estimates import Blocks, Estimate, mean_of
from .frames import METAL, REDUCED, Frame, Units, frame_of
from .msd import Msd, MsdResult, msd
from .order import Order, OrderResult, order
from .rdf import Rdf, RdfResult, rdf
from .stress import Pressure, Stress, StressResult, pressure, stress
from .structure_factor import StructureFactor, StructureFactorResult, structure_factor
from .vacf import Vacf, VacfResult, vacf
from .viscosity import Viscosity, ViscosityResult, viscosity

__all__ = [
    "Analysis",
    "Blocks",
    "Clusters",
    "ClustersResult",
    "Diffusion",
    "DiffusionResult",
    "Energy",
    "EnergyResult",
    "Estimate",
    "Frame",
    "METAL",
    "Msd",
    "MsdResult",
    "Order",
    "OrderResult",
    "Pressure",
    "REDUCED",
    "Rdf",
    "RdfResult",
    "Stress",
    "StressResult",
    "StructureFactor",
    "StructureFactorResult",
    "Units",
    "Vacf",
    "VacfResult",
    "Viscosity",
    "ViscosityResult",
    "analyse",
    "clusters",
    "diffusion",
    "energy",
    "frame_of",
    "mean_of",
    "msd",
    "order",
    "pressure",
    "rdf",
    "stress",
    "structure_factor",
    "vacf",
    "viscosity",
]
