"""The equation of state of the Lennard-Jones fluid by Johnson, Zollweg and Gubbins (Molecular Physics 78, 591, 1993).

It is the modified Benedict-Webb-Rubin equation, fitted to simulations of the full potential. The fit fixes the critical point at
temperature 1.313 and density 0.310.
"""
from __future__ import annotations

import math
from typing import List

from . import scalars

# The 32 linear parameters of the paper's table, and the parameter in the exponential.
X = [
    *(0.8623085097507421, 2.976218765822098, -8.402230115796038, 0.1054136629203555, -0.8564583828174598, 1.582759470107601),
    *(0.7639421948305453, 1.753173414312048, 2798.291772190376, -0.048394220260857657, 0.9963265197721935, -36.98000291272493),
    *(20.84012299434647, 83.05402124717285, -957.4799715203068, -147.7746229234994, 63.98607852471505, 16.03993673294834),
    *(68.05916615864377, -2791.293578795945, -6.245128304568454, -8116.83610495841, 14.88735559561229, -10593.46754655084),
    *(-113.1607632802822, -8867.771540418822, -39.86982844450543, -4689.270299917261, 259.3535277438717, -2694.523589434903),
    *(-721.8487631550215, 172.1802063863269),
]
GAMMA = 3.0
# The powers of the temperature in each coefficient, in the order of the parameters.
POWERS_A = [(1, 0.5, 0, -1, -2), (1, 0, -1, -2), (1, 0, -1), (0,), (-1, -2), (-1,), (-1, -2), (-2,)]
POWERS_B = [(-2, -3), (-2, -4), (-2, -3), (-2, -4), (-2, -3), (-2, -3, -4)]


def johnson(density: float, temperature: float) -> float:
    """The pressure of the Lennard-Jones fluid by the equation of Johnson, Zollweg and Gubbins.

    Parameters
    ----------
    density : float
        Atoms per sigma^3, up to 1.25.
    temperature : float
        In epsilon / k_B, from 0.7 to 6.

    Returns
    -------
    float
        In epsilon / sigma^3, for the potential without a cutoff. Where gas and liquid coexist, it is not valid.

    Raises
    ------
    ValueError
        If one of them is not above 0.

    Examples
    --------
    >>> from ljclient.state_points import johnson
    >>> round(johnson(0.31, 1.313), 4)
    0.1299
    """
    density, temperature = scalars.checked_positive("density", density), scalars.checked_positive("temperature", temperature)
    coefficients = _coefficients(temperature)
    a, b = coefficients[: len(POWERS_A)], coefficients[len(POWERS_A) :]
    plain = sum(each * density ** (number + 2) for number, each in enumerate(a))
    damped = sum(each * density ** (2 * number + 3) for number, each in enumerate(b))
    return density * temperature + plain + math.exp(-GAMMA * density**2) * damped


def _coefficients(temperature: float) -> List[float]:
    """The coefficients at a temperature: those of the polynomial in the density, and those before the exponential."""
    parameters = iter(X)
    return [sum(next(parameters) * temperature**power for power in powers) for powers in (*POWERS_A, *POWERS_B)]
