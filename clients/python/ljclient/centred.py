"""Three consecutive frames: the present one and those a step before and after it. Their differences give velocities and forces.

To read the frame before, the motion is reversed. To read the frame after, a step is made. Both are undone (`guards.look`), which
restores both frames, the step number and the direction, bit for bit. Saved simulations of the session stay as they are.
"""
from __future__ import annotations

from typing import TYPE_CHECKING, NamedTuple

from . import arrays, frames
from .replies import number_after
from .units import RING, Scale

if TYPE_CHECKING:
    from .user import User

# The server's largest step number, from which no further step can be made.
MAX_STEP = 10**12


class ThreeFrames(NamedTuple):
    """The places of all atoms a step before, now and a step after, in ring units: arrays of shape (atoms, 3), or lists of tuples.

    step       the step number of the present frame
    direction  1 or -1: the change of the step number by the next step
    """

    step: int
    before: arrays.IntArray
    now: arrays.IntArray
    after: arrays.IntArray
    direction: int = 1

    def kinetic_after(self) -> int:
        """The kinetic number half a step later, as `Measurement.kinetic` is the one half a step ago."""
        moved = arrays.listed(arrays.least_images(self.after, self.now))
        return sum(part * part for image in moved for part in image)

    def velocities(self, scale: Scale) -> arrays.FloatArray:
        """`(x(n+1) - x(n-1)) / (2 dt)`: in the unit of the file per femtosecond, or per unit of time if dt is not in femtoseconds."""
        moved = arrays.added(arrays.least_images(self.now, self.before), arrays.least_images(self.after, self.now))
        return arrays.scaled(moved, scale.edge / (RING * 2 * scale.time(1)))

    def forces(self, scale: Scale) -> arrays.FloatArray:
        """`x(n+1) - 2 x(n) + x(n-1)`, the push on each atom by all others: in electronvolt / angstrom, or epsilon / unit."""
        pushes = arrays.least_images(arrays.least_images(self.after, self.now), arrays.least_images(self.now, self.before))
        return arrays.scaled(pushes, scale.force(1))


def three_frames(user: "User", name: str) -> ThreeFrames:
    """The three frames of a session, which is left as it was. Its pending steps are done first.

    Raises `refusals.StepRange`, and changes nothing, if the session cannot make another step.
    """
    wait = f"ADVANCE {name} 0"
    if abs(number_after(wait, user.ask(wait).words, 2)) >= MAX_STEP:
        user.ask(f"ADVANCE {name} 1")
    known = user._known_of(name)
    known.is_started = False
    told = frames.three_dumped(user, name) if known.order.on_ring else frames.three_shown(user, name, user._row(name).atoms)
    order = user._known_of(name).order
    before, now, after = (order._for_user(each.places) for each in told)
    user._known_of(name).direction = told[2].step - told[1].step
    step, following = (order.step_of(each.step) for each in told[1:])
    return ThreeFrames(step, before, now, after, following - step)
