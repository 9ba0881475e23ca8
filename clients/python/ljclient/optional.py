"""Optional packages, which are imported where they are needed."""
from __future__ import annotations

import importlib
from typing import Any

from . import arrays
from .errors import Missing


def needed(module: str, why: str, package: str, debian: str) -> Any:
    """A module of a package that may be missing. Raises `Missing`, which says how to get it."""
    try:
        return importlib.import_module(module)
    except ImportError as error:
        told = f"{why} {package}, which cannot be imported ({error}): `pip install {package}`, or Debian's {debian}"
        raise Missing(told) from error


def ase(module: str, why: str) -> Any:
    """A module of ASE."""
    return needed(module, why, "ase", "python3-ase")


def mdanalysis(module: str, why: str) -> Any:
    """A module of MDAnalysis."""
    return needed(module, why, "MDAnalysis", "python3-mdanalysis")


def pyplot(why: str) -> Any:
    """The drawing module of matplotlib."""
    return needed("matplotlib.pyplot", why, "matplotlib", "python3-matplotlib")


def needed_numpy(what: str) -> Any:
    """numpy, which `what` needs, such as "an echo"."""
    return arrays.numpy or needed("numpy", f"{what} needs", "numpy", "python3-numpy")
