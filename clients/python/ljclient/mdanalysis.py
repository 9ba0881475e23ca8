"""Sessions in MDAnalysis: a `Universe` that advances a session, and atoms of a `Universe` as a source.

    from ljclient import run, units
    from ljclient.mdanalysis import universe

    with run() as user:
        argon = user.load("argon", "argon_256.xyz", edge=21.04, dt=2, **units.ARGON)
        atoms = universe(argon, every=10, n_frames=5).atoms
        atoms.write("argon.gro")
        atoms.write("argon.xtc", frames="all")

Importing this module without MDAnalysis raises `Missing`.
"""
from __future__ import annotations

from typing import Any, List, Optional

from . import optional
from .arrays import numpy
from .elements import Replacements, replaced
from .sampling import checked_stops
from .session import Session
from .snapshots import Snapshot
from .trajectories import KILOJOULE_PER_MOLE, PICOSECOND

__all__ = ["universe"]

WHY = "ljclient.mdanalysis needs"
_Universe: Any = optional.mdanalysis("MDAnalysis", WHY).Universe
_Reader: Any = optional.mdanalysis("MDAnalysis.coordinates.base", WHY).ReaderBase


class SessionReader(_Reader):  # type: ignore[misc]
    """A trajectory of MDAnalysis with the frames of a session.

    Frames can be read in any order: the session goes forward or back to them, exactly. After a whole iteration it is at the first
    frame again, bit for bit. Steps that are made elsewhere in the meantime change the frames.

    Parameters
    ----------
    session : Session
        A session whose scale is known.
    every : int
        The number of steps between frames.
    n_frames : int
        The number of frames. The first is the present one.

    Raises
    ------
    ValueError
        If `every` or `n_frames` is below 1.
    """

    format = "LJSERVE"
    units = {"time": "ps", "length": "Angstrom", "velocity": "Angstrom/ps", "force": "kJ/(mol*Angstrom)"}

    def __init__(self, session: Session, every: int = 1, n_frames: int = 1, **words: Any):
        super().__init__(session, **words)
        checked_stops(every, n_frames, "n_frames")
        self.session, self.every = session, every
        self.n_frames, self.n_atoms = n_frames, session.n_atoms
        self._made = 0
        time = session.scale.time(every)
        self._ts_kwargs["dt"] = time / self._picosecond
        self.ts = self._Timestep(self.n_atoms, velocities=True, forces=True, **self._ts_kwargs)
        self._read_frame(0)

    @property
    def _picosecond(self) -> float:
        """The session's units of time per unit of the trajectory: 1000 for femtoseconds, else 1."""
        return 1.0 if self.session.scale.dt is None else PICOSECOND

    def _read_next_timestep(self, ts: Any = None) -> Any:
        if self.ts.frame + 1 >= self.n_frames:
            raise EOFError
        return self._read_frame(self.ts.frame + 1)

    def _read_frame(self, frame: int) -> Any:
        """Moves the session to a frame, and reads it."""
        self._go_to(frame * self.every)
        self._fill(next(self.session.frames([0])))
        self.ts.frame = frame
        return self.ts

    def _go_to(self, wanted: int) -> None:
        """Moves the session to the step `wanted` steps after the first frame. Its direction stays."""
        back, self._made = self._made - wanted, wanted
        if back < 0:
            self.session.advance(-back)
        elif back > 0:
            self.session.reverse()
            self.session.advance(back)
            self.session.reverse()

    def _fill(self, frame: Snapshot) -> None:
        ts, is_physical = self.ts, frame.scale.dt is not None
        ts.positions, ts.dimensions = frame.positions, [frame.scale.edge] * 3 + [90] * 3
        ts.velocities = numpy.asarray(frame.velocities) * (PICOSECOND if is_physical else 1)
        ts.forces = numpy.asarray(frame.forces) * (KILOJOULE_PER_MOLE if is_physical else 1)
        ts.time = frame.time / self._picosecond
        ts.data.update(step=frame.step, temperature=frame.temperature, potential_energy=frame.energies.potential)

    def _reopen(self) -> None:
        self.ts.frame = -1

    def close(self) -> None:
        """Does nothing: the session is kept."""


def universe(session: Session, every: int = 1, n_frames: int = 1, symbols: Optional[Replacements] = None) -> Any:
    """A `Universe` of MDAnalysis for a session: its atoms, and a trajectory of its frames.

    All of MDAnalysis's analysis can read it, and all of its writers can write it, such as `.gro`, `.pdb` and `.xtc`. You can ask for any
    frame, in any order: the session goes forward or back to it, exactly. After a whole iteration the session is at the first frame again,
    bit for bit.

    Parameters
    ----------
    session : Session
        A session whose scale is known. The trajectory moves it forward and back.
    every : int, optional
        The number of steps between frames.
    n_frames : int, optional
        The number of frames. The first is the present one.
    symbols : dict, optional
        The replacement of each symbol of the session, such as `{"A": "Ar", "B": "Kr"}`.

    Returns
    -------
    MDAnalysis.Universe
        With names, types, elements and masses. Lengths are in angstrom, times in picoseconds and velocities in angstrom / ps, if epsilon
        and mass are known; else everything is in the units of the session.

    Raises
    ------
    ValueError
        If `every` or `n_frames` is below 1, or a symbol has no replacement.
    """
    reader = SessionReader(session, every, n_frames)
    own: List[str] = session.symbols()
    names = own if symbols is None else replaced(own, symbols)
    made = _Universe.empty(len(names), n_residues=1, atom_resindex=[0] * len(names))
    for attribute in ("names", "types", "elements"):
        made.add_TopologyAttr(attribute, names)
    made.add_TopologyAttr("masses", [session.scale.mass or 1.0] * len(names))
    made.add_TopologyAttr("resnames", ["ATM"])
    made.add_TopologyAttr("resids", [1])
    made.trajectory = reader
    return made
