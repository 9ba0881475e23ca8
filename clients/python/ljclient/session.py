"""A session: one simulation that the server holds, and what can be done with it."""
from __future__ import annotations

from typing import TYPE_CHECKING, Any, Iterator, Optional, Union

from . import files, progress as bars, sampling, stepping
from .changes import Changes
from .elements import Replacements
from .energy_watch import WatchedHooks
from .interrupts import held
from .later import Later
from .measurement import known
from .names import count_of
from .renamed import Renamed
from .replies import number_after
from .thermo import Thermo, thermo
from .threads import whole
from .units import RING

if TYPE_CHECKING:
    from . import checkpoint, equilibrating, saving, snapshots, trajectories
else:
    checkpoint, equilibrating, saving = map(Later, (".checkpoint", ".equilibrating", ".saving"))
    snapshots, trajectories = map(Later, (".snapshots", ".trajectories"))


class Session(Changes):
    """A simulation at the server. `User.load`, `User.load_mix` and `User.session` return one.

    Methods ask the server; attributes are known without asking.

    Attributes
    ----------
    name : str
        Its name.
    mixture : Mixture or None
        How its two species interact, if `User.load_mix` loaded it.
    motion : Motion or None
        The rounded velocities with which this object loaded the atoms, if they had velocities.
    sampled : Samples or None
        The frames that `sample` had collected when an interrupt or an error ended its last call.
    """

    __slots__ = ()

    # Advancing.

    def advance(
        self,
        n: int,
        progress: Union[bool, bars.Report] = False,
        piece: Optional[int] = None,
        save: Optional[files.Path] = None,
        seconds: float = 60.0,
    ) -> int:
        """Advances by n steps.

        The client asks for the steps in pieces that take about a fifth of a second. So Ctrl-C stops the run after the current piece, and
        the time limit of the connection applies to each piece. Pieces do not change the result. `User.advance` advances several
        sessions at the same time.

        The energy is measured at the start of a run of more than 500 steps, then after 1,000, 2,000, 4,000, .. steps, and after every
        20,000 steps. `tug`, `heat` and `restore` change the energy, so the start is measured again after them.

        Parameters
        ----------
        n : int
            The number of steps.
        progress : bool or callable, optional
            True shows a progress bar of tqdm, which must be installed, at a terminal or in a notebook. A function is called with the
            number of steps that are done and the number of all steps.
        piece : int, optional
            The number of steps in a piece.
        save : path, optional
            A file to which the session is saved at the start, on the way and at the end, as by `save(path)`, also if Ctrl-C stops the
            run. If the run is lost, `User.load_saved` loads the last saved state.
        seconds : float, optional
            The time in seconds between two saves on the way.

        Returns
        -------
        int
            The new step number.

        Warns
        -----
        EnergyWarning
            Once, if the energy has risen by more than 5 % of the kinetic energy, and per atom by more than `0.4 / sqrt(atoms)` epsilon.
            In the first 1,000 steps both limits are 0.1 epsilon per atom higher. Also if it has fallen by 0.5 epsilon per atom.
            `load(.., watch=False)` turns the warning off.
        """
        total = count_of(n, "the number of steps")
        with bars.reporter(progress, self.name) as report, saving.saver(self, save, seconds, report) as tell:
            tracked = stepping.Progress(self.name, total, tell, WatchedHooks(self._user, self.name, total, piece))
            return stepping.go([tracked], self._user.ask_all, self._pace, piece, self._lock)[0]

    @whole
    def start(self, n: int) -> int:
        """Starts n more steps, and does not wait for them.

        The server makes the steps while this user asks for something else, such as steps of other sessions. A call that needs the
        session after these steps (`get_step`, `place`, `measure`, `branch`, ..) waits for them. It waits for one reply, at most for the
        time limit of the connection, so use `advance` for longer runs.

        The first call that waits measures the energy, as `advance` does, and warns if it has risen. If the energy of the start is not
        known yet, and the steps since the last change are above 500 with these, one step is made immediately.

        Parameters
        ----------
        n : int
            The number of steps.

        Returns
        -------
        int
            The step number after all steps that were started, as `get_target` returns it.
        """
        total, most = count_of(n, "the number of steps"), stepping.MAX_STEPS
        hooks = WatchedHooks(self._user, self.name, total)
        with held():
            first = hooks.measure_start() if total else 0
            lines = [f"START {self.name} {min(most, total - made)}" for made in range(first, max(total, first + 1), most)]
            target = number_after(lines[-1], self._user.ask_all(lines)[-1].words, 2)
        return hooks.begun(total - first, target)

    def reverse(self) -> int:
        """Reverses the motion: the two frames are exchanged.

        n steps, `reverse`, n steps and `reverse` lead back to the start, bit for bit.

        Returns
        -------
        int
            The new step number.
        """
        return self._number(f"REVERSE {self.name}", 2)

    def equilibrate(
        self, temperature: float, steps: int, every: Optional[int] = None, progress: sampling.Progress = False, seed: int = 0
    ) -> float:
        """Advances in stretches, and rescales the velocities until the mean temperature is the wanted one.

        After each stretch except the last, the velocities are rescaled by the factor that would have given the stretch the wanted mean
        temperature. The mean is taken over ten values of `measure`, one after each tenth of the stretch. Longer stretches give more
        precise means: take 10,000 steps of 2 fs or more for argon.

        Only tugs and steps are used, so branches stay. After `restore` the same call leads to the same places again.

        Parameters
        ----------
        temperature : float
            As in `heat`. At the start, `rescale` sets it, or `heat` if the atoms are at rest.
        steps : int
            The number of steps.
        every : int, optional
            The number of steps in a stretch. By default a twentieth of all steps.
        progress : bool or callable, optional
            As in `advance`.
        seed : int, optional
            As in `heat`.

        Returns
        -------
        float
            The mean temperature of the last stretch.
        """
        return equilibrating.equilibrate(self, temperature, steps, every, progress, seed)

    def sample(
        self, every: int, frames: int, exact: bool = False, progress: sampling.Progress = False, unwrap: bool = False
    ) -> sampling.Samples:
        """Advances, and returns frames on the way.

        Parameters
        ----------
        every : int
            The number of steps from one frame to the next.
        frames : int
            The number of frames. The first is the present one, so the session advances by `every * (frames - 1)` steps.
        exact : bool, optional
            True: frames are places in ring units, read by one command for each atom unless positions show them exactly. False: frames
            are positions in the unit of the file, rounded down to six decimals, read by one command.
        progress : bool or callable, optional
            As in `advance`.
        unwrap : bool, optional
            Whether positions continue outside the box if atoms leave it. Each atom is followed from frame to frame by the shorter way
            around the box. A warning is given if an atom moves by a quarter of the edge or more between two frames.

        Returns
        -------
        Samples
            `steps`, and `frames` as one array of shape (frames, atoms, 3). If an interrupt or an error ends the call,
            `session.sampled` has the frames so far.
        """
        take = (lambda: self._frames_of_places()[0]) if exact else self._positions_of_frame
        period = (RING if exact else float(self.scale.edge)) if unwrap else None
        return sampling.sample(self, take, every, frames, progress, period)

    def frames(self, every: snapshots.Every, n: Optional[int] = None, progress: sampling.Progress = False) -> Iterator[snapshots.Snapshot]:
        """Advances, and yields frames on the way, each as soon as it is reached.

        When a frame is yielded, the session is at the step of this frame, and can be saved or measured there.

        Parameters
        ----------
        every : int or sequence of int
            The number of steps from one frame to the next; or the number of steps from here to each frame, such as
            `[0, 1, 2, 4, 8, 16]`, each greater than the one before.
        n : int, optional
            The number of frames. The first is the present one. Not needed if `every` is a list.
        progress : bool or callable, optional
            As in `advance`.

        Returns
        -------
        iterator of Snapshot
            Frames with step, time, positions, velocities, forces, displacements and energies.
        """
        stops = snapshots.stops_of(every, n)
        known(self._given)
        return snapshots.snapshots(self, self._user, stops, progress)

    def thermo(self, every: int, rows: int, progress: sampling.Progress = False) -> Iterator[Thermo]:
        """Advances, and yields rows of temperature and energies, each as soon as it is known.

        The kinetic energy is the mean of its values half a step before and half a step after. So a row is known when the session is one
        step further. With `run` the session stays there until the next row; at a server the client undoes this step each time. After
        the last row the session is at the step of this row, also if an error, an interrupt or `close()` ends the rows. A change of the
        energy gives a warning, as in `advance`.

        Parameters
        ----------
        every : int
            The number of steps from one row to the next.
        rows : int
            The number of rows. The first is for the present step.
        progress : bool or callable, optional
            As in `advance`.

        Returns
        -------
        iterator of Thermo
            Rows of step, temperature, kinetic, potential and total energy.
        """
        sampling.checked_stops(every, rows, "rows")
        known(self._given)
        return thermo(self, self._user, self._user.ask_all, self._look, every, rows, progress)

    # Files, and copies.

    def write(self, path: files.Path, symbols: Optional[Replacements] = None) -> None:
        """Writes the frame to a file, as `dump` returns it.

        Parameters
        ----------
        path : path
            The file.
        symbols : dict, optional
            As in `write_trajectory`.
        """
        text = self.dump(symbols)
        with open(path, "w", encoding="ascii", newline="\n") as file:
            file.write(text)

    def write_trajectory(
        self,
        path: files.Path,
        every: int,
        frames: int,
        progress: sampling.Progress = False,
        symbols: Optional[Replacements] = None,
        append: bool = False,
        unwrap: bool = False,
    ) -> None:
        """Advances, and writes frames to a file on the way. The ending of the path chooses the format.

        .xyz, .extxyz
            Extended XYZ, with Lattice, velocities (`velo`), step, time, potential (`energy`) and kinetic energy; and if epsilon and mass
            are known, `masses` and `momenta` as ASE reads them.
        .lammpstrj
            A dump of LAMMPS, with types from 1 on, symbols (`element`) and velocities; in its `real` units if epsilon and mass are known.
        .traj
            By ASE, with energy, forces and, if epsilon and mass are known, momenta.
        .dcd, .nc
            By MDAnalysis, with box and time; `.nc`, as AMBER's NetCDF, has velocities and forces too, in MDAnalysis's units.

        Text files and `.traj` contain each frame as soon as it is reached. If epsilon and mass are known, the units are angstrom,
        femtoseconds and electronvolt; else the unit of the file, `sigma sqrt(m / epsilon)` and epsilon.

        Parameters
        ----------
        path : path
            The file.
        every : int
            As in `sample`.
        frames : int
            As in `sample`.
        progress : bool or callable, optional
            As in `advance`.
        symbols : dict, optional
            The replacement of each symbol of the session, such as `{"A": "Ar", "B": "Kr"}`. ASE reads only names of elements, and B as
            boron.
        append : bool, optional
            Appends to the file instead of replacing it, for example after another call. The first frame is again the present one.
        unwrap : bool, optional
            As in `sample`; atoms are followed from the first frame of this call.

        Raises
        ------
        ValueError
            If the ending is another one (the error explains how MDAnalysis makes such a file from a .dcd), if a symbol has no replacement,
            or if frames appended to a .dcd are not the same time apart.
        Missing
            If the library for the format is not installed.
        """
        trajectories.write_trajectory(self, path, every, frames, progress, symbols, append, unwrap)

    def save(self, path: files.Path) -> None:
        """Writes the whole simulation to a file, from which `User.load_saved` continues exactly, also in another program.

        `save` waits for steps that were started. Branches are not written. The client must know the scale. An older saved session is
        replaced only when the new file is complete. The commands that `save` sends are not recorded.

        Parameters
        ----------
        path : path
            The file.

        Raises
        ------
        ValueError
            If there is a file that is not empty and not a saved session. The file stays as it is.
        """
        with self._user.unrecorded(self.name):
            state = self._user._state_of(self.name)
        checkpoint.write(state, path)

    @whole
    def copy(self, name: str, replace: bool = False) -> "Session":
        """Makes a copy of this session as it is now, bit for bit, with its step number, units and symbols.

        Branches are not copied. `copy` waits for steps that were started. The client must know the scale.

        Parameters
        ----------
        name : str
            The name of the copy.
        replace : bool, optional
            Whether it replaces a session of that name.

        Returns
        -------
        Session
            The new session of this user.
        """
        return self._user._copy_of(self.name, name, replace)

    # Names of version 1.1.0.

    step = Renamed[int]("get_step()", "Session.get_step()")
    target = Renamed[int]("get_target()", "Session.get_target()")
    atoms = Renamed[int]("n_atoms", "Session.n_atoms")
    measured = Renamed[Any]("_measured", "Session.measure()")
