"""The pressure of a session, from velocities and the virial of pairs. It needs numpy.

The forces between two atoms are those of the program's table: 800 bins of the squared distance, 128 per sigma^2.
"""
from __future__ import annotations

import functools
from typing import TYPE_CHECKING, Any, Iterator, NamedTuple, Sequence, Tuple

from . import arrays
from .centred import ThreeFrames, three_frames
from .errors import ClientError
from .neighbours import Near, near_parts
from .state import symbols_of
from .tails import energy_tail, pressure_tail
from .units import POTENTIAL_UNIT, RING, Scale

if TYPE_CHECKING:
    from .looks import Looks
    from .user import User

BINS_TO_SQUARE, BINS, MIN_BIN = 128, 800, 64


class Composition(NamedTuple):
    """How atoms interact: the scales of pairs first with first, first with second and second with second species; whether each
    atom is of the second species; and both symbols. With one species there is one scale, and the other two are empty."""

    classes: Tuple[Scale, ...]
    seconds: Sequence[bool] = ()
    species: Tuple[str, ...] = ()


def composition_of(session: "Looks", user: "User") -> Composition:
    """The composition of a session."""
    if session.mixture is None:
        return Composition((session.scale,))
    second = session.mixture.species[1]
    seconds = [symbol == second for symbol in symbols_of(user, session.name)]
    return Composition(session.mixture.classes, seconds, session.mixture.species)


def pressure(session: "Looks", user: "User", tail: bool = False) -> float:
    """As `Session.pressure`."""
    checked_numpy()
    three, atoms = three_frames(user, session.name), composition_of(session, user)
    return of_frames(three, atoms) + (pressure_tail(atoms, len(three.now)) if tail else 0.0)


def lacking_energy(session: "Looks", user: "User") -> float:
    """The tail correction of a session's energy, in epsilon of the first class."""
    return energy_tail(composition_of(session, user), session.n_atoms)


def checked_numpy() -> None:
    """Raises ClientError if numpy is not installed."""
    if arrays.numpy is None:
        raise ClientError("cannot tell a pressure: numpy is not installed; use `pip install numpy`, or Debian's python3-numpy")


def of_frames(three: ThreeFrames, atoms: Composition) -> float:
    """The pressure of three frames: `(2 K + W) / (3 V)` with the kinetic energy K of the velocities at the step and the virial W,
    in epsilon / sigma^3 of the first class."""
    checked_numpy()
    scale = atoms.classes[0]
    return float((2 * scale.kinetic_energy((_moved(three) ** 2).sum()) + virial(three.now, atoms)) / (3 * _volume(scale)))


def tensor_of_frames(three: ThreeFrames, atoms: Composition) -> Any:
    """The pressure tensor of three frames, an array of shape (3, 3) whose trace is three times the pressure, in its units."""
    checked_numpy()
    scale, moved = atoms.classes[0], _moved(three)
    kinetic = 2 * scale.kinetic_energy(1) * (moved.T @ moved)
    return (kinetic + virial_tensor(three.now, atoms)) / _volume(scale)


def _moved(three: ThreeFrames) -> Any:
    """The mean displacement of each atom in the step before and the step after."""
    return arrays.added(arrays.least_images(three.now, three.before), arrays.least_images(three.after, three.now)) / 2


def _volume(scale: Scale) -> float:
    """The volume of the box, in sigma^3."""
    return float((RING / scale.sigma_on_ring) ** 3)


def virial(places: Any, atoms: Composition) -> float:
    """The sum of force times distance over all pairs of atoms, in epsilon of the first class. Repulsion is positive."""
    return sum(float((each.entries * each.squares).sum()) * each.unit for each in _interacting(places, atoms))


def virial_tensor(places: Any, atoms: Composition) -> Any:
    """The sums over all pairs of a force component times a distance component: an array of shape (3, 3) whose trace is the
    virial."""
    total = arrays.numpy.zeros((3, 3))
    for each in _interacting(places, atoms):
        images = each.near.images[:, each.which] / each.sigma
        total += (images * each.entries) @ images.T * each.unit
    return total


class Interacting(NamedTuple):
    """Pairs of one class that are nearer to each other than the cutoff.

    near     these pairs and others
    which    their indices in `near`
    sigma    sigma of the class, in ring units
    squares  the squared distances, in sigma^2
    entries  the force of each pair divided by its distance, in epsilon / sigma^2 of the class
    unit     epsilon of the class, in epsilon of the first class
    """

    near: Near
    which: Any
    sigma: float
    squares: Any
    entries: Any
    unit: float


def _interacting(places: Any, atoms: Composition) -> Iterator[Interacting]:
    """The pairs of atoms within the cutoff, in parts of one class each."""
    classes = atoms.classes
    seconds = arrays.numpy.array(atoms.seconds, dtype=arrays.numpy.intp)
    for near in near_parts(places, max(each.sigma_on_ring for each in classes) ** 2 * (BINS / BINS_TO_SQUARE)):
        if len(classes) == 1:
            yield _of_class(near, slice(None), classes[0], classes[0])
            continue
        kinds = seconds[near.first] + seconds[near.second]
        for kind, scale in enumerate(classes):
            within = (kinds == kind) & (near.squares < scale.sigma_on_ring**2 * (BINS / BINS_TO_SQUARE))
            yield _of_class(near, arrays.numpy.flatnonzero(within), scale, classes[0])


def _of_class(near: Near, which: Any, scale: Scale, first: Scale) -> Interacting:
    """Pairs that are all of one class and within its cutoff."""
    sigma = float(scale.sigma_on_ring)
    squares = near.squares[which] / sigma**2
    entries = _table()[(squares * BINS_TO_SQUARE).astype(arrays.numpy.intp)]
    # Pushes are proportional to h, so epsilon / sigma^2 of this class is scale.h / first.h times the first one.
    unit = scale.h / first.h * (scale.sigma_on_ring / first.sigma_on_ring) ** 2
    return Interacting(near, which, sigma, squares, entries, unit)


@functools.lru_cache(maxsize=1)
def _table() -> Any:
    """The force divided by the distance at each bin's centre, in epsilon / sigma^2: `24 (2 u^7 - u^4)`, where u is the square of
    sigma over the distance, 2^8 / n with n = 2 k + 1. The entries are multiples of 2^-24, rounded toward zero. One more bin is
    for distances that are rounded to the cutoff."""
    odd = [2 * max(k, MIN_BIN) + 1 for k in range(BINS)]
    entries = [_toward_zero(24 * 2**56 * (2**25 - n**3), n**7) for n in odd]
    return arrays.numpy.array([*entries, 0]) / POTENTIAL_UNIT


def _toward_zero(number: int, divisor: int) -> int:
    """The quotient rounded toward zero."""
    return number // divisor if number >= 0 else -(-number // divisor)
