"""Files of the frames of a session during a run, in the format of their ending.

.xyz, .extxyz  extended XYZ, as text
.lammpstrj     a dump of LAMMPS, as text
.traj          ASE's own format, by its writer
.dcd, .nc      formats of CHARMM and NAMD, and of AMBER, by MDAnalysis's writers
"""
from __future__ import annotations

import contextlib
import itertools
import os
from typing import TYPE_CHECKING, Any, Dict, Iterator, List, Optional, Protocol

from . import arrays, ase_bridge, optional
from .ase_bridge import TIME_UNIT
from .elements import Replacements, replaced
from .files import Path, begin_beside, checked_target, put_in_place
from .lammps_files import DumpFile, types_of
from .sampling import Progress, checked_stops
from .snapshots import Snapshot
from .scalars import nano
from .units import RING, Scale

if TYPE_CHECKING:
    from .session import Session

BY_TEXT, DUMPS, BY_ASE, BY_MDANALYSIS = (".xyz", ".extxyz"), (".lammpstrj",), (".traj",), (".dcd", ".nc")
ENDINGS = (*BY_TEXT, *DUMPS, *BY_ASE, *BY_MDANALYSIS)
# Other kinds that MDAnalysis writes.
MADE_OF_A_DCD = (".xtc", ".trr", ".trz")
PICOSECOND = 1000.0
KILOJOULE_PER_MOLE = 96.48533212331  # per electronvolt


class Writer(Protocol):
    """An open file of frames."""

    def write(self, frame: Snapshot, positions: Any) -> None:
        """Writes a frame with these positions, in the unit of the session."""

    def close(self) -> None:
        """Closes the file."""


def write_trajectory(
    session: "Session",
    path: Path,
    every: int,
    frames: int,
    progress: Progress,
    symbols: Optional[Replacements],
    append: bool,
    unwrap: bool,
) -> None:
    """As `Session.write_trajectory`."""
    checked_stops(every, frames, "frames")
    scale, start = session.scale, None
    file = opened(session, path, every, symbols, append, unwrap)
    with contextlib.closing(file):
        for frame in session.frames(every, frames, progress):
            start = frame.places if start is None else start
            file.write(frame, _followed(start, frame, scale) if unwrap else _in_box(frame, scale))


def opened(session: "Session", path: Path, every: int, symbols: Optional[Replacements], append: bool, unwrap: bool) -> Writer:
    """The open file of a path, in the format of its ending. Raises errors before anything is changed."""
    ending = os.path.splitext(os.fspath(path))[1].lower()
    if ending not in ENDINGS:
        raise ValueError(other_ending(os.fspath(path), ending, session.n_atoms))
    own = session.symbols()
    if ending in BY_ASE:
        species = session.mixture.species if session.mixture else ()
        return AseFile(path, ase_bridge.elements_of(own, species, symbols), append)
    named = own if symbols is None else replaced(own, symbols)
    if ending in BY_MDANALYSIS:
        return MdaFile(path, ending, len(own), every, append)
    if ending in DUMPS:
        kinds = list(session.mixture.species) if session.mixture else own
        types = types_of(kinds if symbols is None else replaced(kinds, symbols))
        return DumpFile(path, types, named, append, unwrap)
    return XyzFile(path, named, append)


def other_ending(path: str, ending: str, atoms: int) -> str:
    """The error message for a file with another ending."""
    kind = ending if ending in MADE_OF_A_DCD else MADE_OF_A_DCD[0]
    line = f"MDAnalysis.Universe.empty({atoms}, trajectory=True).load_new('x.dcd').atoms.write('x{kind}', frames='all')"
    return f"{path} ends in none of {', '.join(ENDINGS)}. Write a .dcd, and MDAnalysis makes other kinds of it, such as {kind}: {line}"


def _in_box(frame: Snapshot, scale: Scale) -> Any:
    """Positions from 0 up to the edge, rounded down to six decimals as by `Session.dump`."""
    return arrays.of_millionths(arrays.in_box(frame.places, nano(scale.edge)))


def _followed(start: Any, frame: Snapshot, scale: Scale) -> Any:
    """Unwrapped positions of atoms that started at these places."""
    return arrays.scaled(arrays.added(start, frame.moved), scale.edge / RING)


class XyzFile:
    """Extended XYZ: positions, velocities and energies as text, in the units of the session; and if epsilon and mass are known,
    masses and momenta in the units of ASE."""

    def __init__(self, path: Path, symbols: List[str], append: bool):
        self._symbols = symbols
        self._file = open(path, "a" if append else "w", encoding="ascii", newline="\n")

    def write(self, frame: Snapshot, positions: Any) -> None:
        rows = zip(self._symbols, arrays.listed(positions), arrays.listed(frame.velocities))
        words = ["%s %.6f %.6f %.6f %.9g %.9g %.9g" % (symbol, *position, *velocity) for symbol, position, velocity in rows]
        lines = [f"{row}{momentum}\n" for row, momentum in zip(words, _momenta_of(frame))]
        self._file.write(f"{len(lines)}\n{comment_of(frame)}\n{''.join(lines)}")
        self._file.flush()

    def close(self) -> None:
        self._file.close()


def _momenta_of(frame: Snapshot) -> Iterator[str]:
    """Each atom's mass and momentum as text in the units of ASE, empty if epsilon or mass is not known."""
    if frame.scale.dt is None or frame.scale.mass is None:
        yield from itertools.repeat("")
    else:
        mass, unit = frame.scale.mass, frame.scale.mass * TIME_UNIT
        yield from (f" {mass!r} {x:.9g} {y:.9g} {z:.9g}" for x, y, z in arrays.listed(arrays.scaled(frame.velocities, unit)))


def comment_of(frame: Snapshot) -> str:
    """The second line of a frame in extended XYZ: the box, the columns, the step, the time and the energies."""
    edge, unit = repr(frame.scale.edge), _energy_unit(frame.scale)
    lattice = f"{edge} 0 0 0 {edge} 0 0 0 {edge}"
    columns = "species:S:1:pos:R:3:velo:R:3" + (":masses:R:1:momenta:R:3" if frame.scale.dt is not None else "")
    energies = f"energy={frame.energies.potential * unit!r} kinetic_energy={frame.energies.kinetic * unit!r}"
    return f'Lattice="{lattice}" Properties={columns} pbc="T T T" step={frame.step} time={frame.time!r} {energies}'


def _energy_unit(scale: Scale) -> float:
    """The unit of energies in a file: epsilon in electronvolt, or 1 if epsilon is not known."""
    return 1.0 if scale.epsilon is None else scale.epsilon


class AseFile:
    """A `Trajectory` of ASE, whose frames have energy and forces and, if epsilon and mass are known, momenta."""

    def __init__(self, path: Path, elements: List[str], append: bool):
        self._elements = elements
        trajectory = optional.ase("ase.io.trajectory", "a .traj file needs").Trajectory
        self._calculator = optional.ase("ase.calculators.singlepoint", "a .traj file needs").SinglePointCalculator
        self._file = trajectory(os.fspath(path), "a" if append else "w")

    def write(self, frame: Snapshot, positions: Any) -> None:
        atoms = ase_bridge.made(self._elements, positions, frame.velocities, frame.step, frame.scale)
        energy = frame.energies.potential * _energy_unit(frame.scale)
        atoms.calc = self._calculator(atoms, energy=energy, forces=frame.forces)
        self._file.write(atoms)

    def close(self) -> None:
        self._file.close()


class MdaFile:
    """A file that MDAnalysis writes: box and time of each frame and, in `.nc`, velocities and forces.

    Frames cannot be appended to such a file. Instead it is copied to a new one, which replaces it at the end.
    """

    def __init__(self, path: Path, ending: str, atoms: int, every: int, append: bool):
        self._library = optional.mdanalysis("MDAnalysis", f"a {ending} file needs")
        self._path, self._format, self._every = checked_target(path), ending[1:].upper(), every
        with_both = self._format == "NC"
        self._frame = self._library.Universe.empty(atoms, trajectory=True, velocities=with_both, forces=with_both)
        self._old: Any = None
        if append and os.path.exists(self._path):
            self._old = self._read(atoms)
        self._written = self._path
        self._file: Any = None

    def _read(self, atoms: int) -> Any:
        """The existing file, as MDAnalysis reads it. Raises ValueError if it has another number of atoms."""
        there = self._library.coordinates.core.get_reader_for(self._path, format=self._format).parse_n_atoms(self._path)
        if there != atoms:
            raise ValueError(f"{self._path} must have frames of {atoms} atoms, as the session, got {there}; use another file")
        return self._library.Universe.empty(atoms).load_new(self._path, format=self._format)

    def write(self, frame: Snapshot, positions: Any) -> None:
        edge, scale, now = frame.scale.edge, frame.scale, self._frame.trajectory.ts
        now.positions, now.dimensions, now.time = positions, [edge] * 3 + [90] * 3, _picoseconds(scale, frame.step)
        if self._format == "NC":
            is_physical = scale.dt is not None
            now.velocities = frame.velocities * (PICOSECOND if is_physical else 1)
            now.forces = frame.forces * (KILOJOULE_PER_MOLE if is_physical else 1)
        self._file = self._begun(frame) if self._file is None else self._file
        self._file.write(self._frame)

    def _begun(self, frame: Snapshot) -> Any:
        """The new file, with the existing frames."""
        words = {"velocities": True, "forces": True} if self._format == "NC" else self._times(frame)
        if self._old is None:
            return self._library.Writer(self._path, self._frame.atoms.n_atoms, format=self._format, **words)
        descriptor, self._written = begin_beside(self._path)
        os.close(descriptor)
        try:
            file = self._library.Writer(self._written, self._frame.atoms.n_atoms, format=self._format, **words)
            with contextlib.ExitStack() as closed_on_error:
                closed_on_error.callback(file.close)
                for _ in self._old.trajectory:
                    file.write(self._old)
                closed_on_error.pop_all()
        except BaseException:
            os.unlink(self._written)
            raise
        return file

    def _times(self, frame: Snapshot) -> Dict[str, Any]:
        """The arguments of a .dcd for the times of its frames, which are equally spaced.

        Raises ValueError if this frame breaks the spacing of the file.
        """
        step = _picoseconds(frame.scale, frame.three.direction)
        first, apart = _picoseconds(frame.scale, frame.step), step * self._every
        if self._old is not None:
            way = self._old.trajectory
            following = way[-1].time + way.dt
            if abs(way.dt - apart) > 1e-4 * abs(apart) or abs(following - first) > 1e-3 * abs(apart):
                raise ValueError(
                    f"frames of a .dcd must be equally far apart in time: {self._path} goes on at {following:g} and each {way.dt:g}, "
                    f"got {first:g} and each {apart:g}; go on to the next one first, or use another file"
                )
            first = way[0].time
        return {"dt": apart, "nsavc": self._every, "istart": round(first / step)}

    def close(self) -> None:
        if self._file is not None:
            self._file.close()
            if self._written != self._path:
                with open(self._written, "rb") as whole:
                    os.fsync(whole.fileno())
                put_in_place(self._written, self._path)


def _picoseconds(scale: Scale, step: int) -> float:
    """The time of a step in picoseconds, or in units of `sigma sqrt(m / epsilon)` if epsilon or mass is not known."""
    return scale.time(step) / (1.0 if scale.dt is None else PICOSECOND)
