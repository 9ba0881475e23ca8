"""The libraries that analyses need: numpy for all, and matplotlib for `plot`."""
from __future__ import annotations

from typing import Any

from .. import optional

numpy: Any = optional.needed("numpy", "ljclient.analysis needs", "numpy", "python3-numpy")


def axes_of(axes: Any) -> Any:
    """The matplotlib axes to draw into: the given ones, else the axes of a new figure.

    Raises `Missing` if matplotlib is not installed.
    """
    if axes is not None:
        return axes
    pyplot = optional.needed("matplotlib.pyplot", "a plot needs", "matplotlib", "python3-matplotlib")
    return pyplot.subplots(layout="constrained")[1]
