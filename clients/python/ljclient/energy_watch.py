"""Checks whether the energy of a session stays constant. With a time step that is too long it grows, and the atoms heat up."""
from __future__ import annotations

import contextlib
import math
from dataclasses import dataclass, replace
from typing import TYPE_CHECKING, Iterable, Optional, Tuple

from .errors import Refused
from .measurement import Measurement
from .mixture import Mixture
from .replies import number_after, of_session
from .resorting import Resorting
from .stepping import UNBOUNDED
from .thermo import Thermo
from .units import Scale
from .warning import warn_caller

if TYPE_CHECKING:
    from .loading import Loader

LARGE_STEP_FACTOR = 200_000
# The allowed rise, as a part of the kinetic energy.
LARGE_PART = 0.05
# The rise caused by bins and cutoff of the table, in epsilon per atom times the square root of the number of atoms.
RISE_BY_TABLE = 0.4
# The rise that they cause in the first steps, in epsilon per atom. The potential is not shifted, so each pair that leaves the cutoff
# adds 0.016 epsilon, and many pairs leave it in a crystal that warms up.
FIRST_RISE = 0.1
# The fall that gives a warning, in epsilon per atom. Heating causes no fall.
LARGE_FALL = 0.5
# The start of a run is measured if the run has more steps than this.
SHORT_RUN = 500
# The energy is measured again after this many steps from the start, then when their number has doubled, and after each 20,000.
FIRST_CHECK = 1_000
CHECKED_EACH = 20_000
# The commands that wait for the started steps of a session.
WAITING = {"ADVANCE", "REVERSE", "BRANCH", "RESTORE", "TUG", "MEASURE", "SHOW", "DUMP"}


class EnergyWarning(UserWarning):
    """The energy of a session has risen by 5 % of its kinetic energy, or has fallen; or h is so large that it soon rises."""


@dataclass
class EnergyWatch:
    """What is known of the energy of a session, to detect changes.

    is_on       whether it is measured: not with `watch=False`, and not after a warning, which is given once
    start       the step of the first measurement, and the total energy per atom there, in epsilon
    settled     the same for the first measurement after 1,000 steps, when the atoms have left their initial places
    gone        the number of steps since the start; without a start, since something other than steps has changed the energy
    next_check  the number of these steps after which it is measured next
    """

    is_on: bool = True
    start: Optional[Tuple[int, float]] = None
    settled: Optional[Tuple[int, float]] = None
    gone: int = 0
    next_check: int = FIRST_CHECK

    def begin_anew(self) -> None:
        """Forgets the start, since something other than steps has changed the energy."""
        self.start, self.settled, self.gone, self.next_check = None, None, 0, FIRST_CHECK

    def room(self, left: int) -> int:
        """The number of steps that a session may make until it is measured, if `left` steps are left of a run. 0: it is measured now."""
        if self.start is None:
            return 0 if self.gone + left > SHORT_RUN else UNBOUNDED
        return max(self.next_check - 1 - self.gone, 0)

    def look(self, name: str, scale: Scale, row: Thermo, atoms: int) -> None:
        """Records the energy of a step, and warns if it is far from the earlier value."""
        energy, kinetic = row.total / atoms, row.kinetic / atoms
        if self.start is None:
            self.start, self.gone = (row.step, energy), 1
            return
        self.next_check = max(FIRST_CHECK, min(2 * self.gone, (self.gone // CHECKED_EACH + 1) * CHECKED_EACH))
        step, before = self.settled or self.start
        allowed = largest_rise(kinetic, atoms) + (0.0 if self.settled else FIRST_RISE)
        if self.settled is None and self.gone >= FIRST_CHECK - 1:
            self.settled = (row.step, energy)
        if self.is_on and not -LARGE_FALL < energy - before < allowed:
            self.is_on = False
            part = f" ({100 * abs(energy - before) / kinetic:.2g} % of its kinetic energy)" if kinetic else ""
            warn_caller(
                f"the energy of {name} has {'risen' if energy > before else 'fallen'} by {abs(energy - before):.3g} epsilon an "
                f"atom{part} from step {step} to step {row.step}. Take a smaller time step (h is {scale.h}, and grows with its "
                f"square), and check the units of sigma and epsilon. See 'What is computed' in the README.",
                EnergyWarning,
            )


def largest_rise(kinetic: float, atoms: int) -> float:
    """The largest allowed rise of the energy per atom, in epsilon, at this kinetic energy per atom.

    Because of the bins of the table, the energies of pairs have small errors of different sizes. The fewer atoms there are, the
    more of these errors is left in their mean, however short the time step is.
    """
    return max(LARGE_PART * kinetic, RISE_BY_TABLE / math.sqrt(atoms))


class WatchedHooks:
    """The hooks of a session that is advanced: its atoms are sorted if this is wanted, and its energy is measured.

    The energy of a step takes a measurement there and one a step later, like a row of `thermo`. So it is the same in both directions
    of time, and atoms at rest start with the energy that they keep. If the size of the pieces is given, no single step is made for
    that, and the kinetic energy is the value half a step ago.
    """

    def __init__(self, loader: "Loader", name: str, steps: int, piece: Optional[int] = None):
        self._loader = loader
        self._name = name
        self._left = steps
        self._pieces_are_given = piece is not None
        self._resorting = Resorting(loader, name)
        self._here: Optional[Measurement] = None

    def ready(self) -> int:
        """Makes the session ready to advance, and returns how many steps it may make before the next call."""
        room = self._resorting.ready()
        known = self._loader._known_of(self._name)
        if not (known.watch.is_on and can_be_measured(known.scale)):
            return room
        if steps := known.watch.room(self._left):
            return room if self._pieces_are_given else min(room, steps)
        self._loader._started.discard(self._name)
        self._here = self._measured()
        if not self._pieces_are_given:
            return 1
        self._look(self._here)
        return room

    def made(self, steps: int, step: int) -> int:
        """Counts steps that were made or started, and returns the user's number of the server's step."""
        number = self._resorting.made(steps, step)
        self._loader._known_of(self._name).watch.gone += steps
        self._left -= steps
        if self._here is not None:
            self._look(self._measured())
        return number

    def measure_start(self) -> int:
        """Measures the energy before steps are started, if it is due, and makes a step for this. Returns the number of steps made.

        After steps that were started before, nothing is measured, since this would wait for them.
        """
        known = self._loader._known_of(self._name)
        watch = known.watch
        if known.is_started or watch.start is not None or watch.room(self._left) or not (watch.is_on and can_be_measured(known.scale)):
            return 0
        self._here, line = self._measured(), f"ADVANCE {self._name} 1"
        self.made(1, number_after(line, self._loader.ask(line).words, 2))
        return 1

    def begun(self, steps: int, step: int) -> int:
        """As `made`, for steps that are not waited for. The first command that waits for them measures the energy."""
        number, known = self.made(steps, step), self._loader._known_of(self._name)
        known.is_started = True
        if known.watch.is_on and can_be_measured(known.scale) and not known.watch.room(0):
            self._loader._started.add(self._name)
        return number

    def _look(self, after: Measurement) -> None:
        """Records the energy of the measured step, from both measurements."""
        here, self._here = self._here, None
        known = self._loader._known_of(self._name)
        if here is not None and known.scale is not None:
            known.watch.look(self._name, known.scale, Thermo.of(here, after), here.atoms)

    def _measured(self) -> Measurement:
        return measured(self._loader, self._name)


def measured(loader: "Loader", name: str) -> Measurement:
    """A measurement of a session."""
    line, known = f"MEASURE {name}", loader._known_of(name)
    told = Measurement.of(of_session(line, loader.ask(line).words)[2:], known.scale)
    return replace(told, step=known.order.step_of(told.step))


def look_at_started(loader: "Loader", lines: Iterable[str]) -> None:
    """Measures the energy of each session whose started steps these commands will wait for, before they are sent.

    It takes one measurement, so the kinetic energy is the value half a step ago. A session that is gone is skipped.
    """
    commands = [line.split()[:2] for line in lines]
    names = {words[1] for words in commands if len(words) == 2 and words[0] in WAITING}
    for name in sorted(names & loader._started):
        loader._started.discard(name)
        known = loader._known_of(name)
        with contextlib.suppress(Refused):
            here = measured(loader, name)
            if known.scale is not None:
                known.watch.look(name, known.scale, Thermo.of(here, here), here.atoms)


def can_be_measured(scale: Optional[Scale]) -> bool:
    """Whether enough is known of a session to compute its total energy."""
    return scale is not None and min(scale.sigma_on_ring, scale.h, scale.weight) > 0


def warn_of_large_steps(scale: Scale, mixture: Optional[Mixture] = None) -> None:
    """Warns if the step factor h, of any class in a mixture, is so large that the energy grows fast."""
    largest = max([scale] if mixture is None else mixture.classes, key=lambda each: each.h)
    if largest.h <= LARGE_STEP_FACTOR:
        return
    advice = "Take a smaller h, and check the unit of the epsilon that it comes from."
    if largest.dt is not None:
        shorter = 0.8 * largest.dt * math.sqrt(LARGE_STEP_FACTOR / largest.h)
        advice = f"Take a smaller time step (dt={shorter:.2g}), and check that epsilon={largest.epsilon:.4g} is in electronvolt."
    warn_caller(
        f"h is {largest.h}, above {LARGE_STEP_FACTOR}: the energy of such a run grows fast, and its atoms heat up or fly apart. "
        f"{advice} See 'What is computed' in the README.",
        EnergyWarning,
    )
