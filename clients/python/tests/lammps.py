"""LAMMPS beside the client: the pressure of frames and the forces on their atoms (`bench/lammps/forces.in`)."""
import re
import shutil
import subprocess
from typing import Any, NamedTuple, Tuple

import numpy

from support import TOP, present

LMP = shutil.which("lmp")
IN_FILE = TOP / "bench" / "lammps" / "forces.in"


class Told(NamedTuple):
    """What LAMMPS tells of frames: the pressure of each in epsilon / sigma^3, forces in epsilon / sigma, of shape
    (frames, atoms, 3), and the pressure tensors, of shape (frames, 3, 3)."""

    pressures: Any
    forces: Any
    tensors: Any


def told_of(snapshots: Any, folder: Any) -> Any:
    """What LAMMPS tells of these frames of atoms that are all alike, whose files are kept in a folder."""
    paths = {name: folder / f"{name}.txt" for name in ("data", "frames", "forces")}
    paths["data"].write_text(data_of(snapshots[0]))
    paths["frames"].write_text("".join(map(frame_of, snapshots)))
    words = [word for name, path in paths.items() for word in ("-var", name, str(path))]
    command = [str(LMP), "-in", str(IN_FILE), "-log", str(folder / "log.txt"), "-screen", "none", *words]
    subprocess.run(command, check=True, timeout=120, cwd=folder)
    rows = present(re.search(r"Step .*\n((?:[ 0-9.e+-]+\n)+)", (folder / "log.txt").read_text())).group(1).splitlines()
    pressures = numpy.array([float(row.split()[1]) for row in rows])
    lines = [line for line in paths["forces"].read_text().splitlines() if line.count(" ") == 3 and line[0].isdigit()]
    forces = numpy.array([[float(word) for word in line.split()[1:]] for line in lines])
    tensors = numpy.array([[float(word) for word in row.split()[4:]] for row in rows])[:, [0, 1, 2, 1, 3, 4, 2, 4, 5]]
    return Told(pressures, forces.reshape(len(snapshots), -1, 3), tensors.reshape(-1, 3, 3))


def data_of(snapshot: Any) -> str:
    """The atoms of a frame as LAMMPS reads them, in units of sigma."""
    positions, edge = reduced(snapshot)
    atoms = "\n".join(f"{number} 1 {x!r} {y!r} {z!r}" for number, (x, y, z) in enumerate(positions.tolist(), 1))
    sides = "\n".join(f"0 {edge!r} {axis}lo {axis}hi" for axis in "xyz")
    return f"frames\n\n{len(positions)} atoms\n1 atom types\n{sides}\n\nAtoms\n\n{atoms}\n"


def frame_of(snapshot: Any) -> str:
    """A frame of a dump with positions and velocities, in reduced units."""
    positions, edge = reduced(snapshot)
    scale = snapshot.scale
    speeds = snapshot.velocities / scale.sigma * (scale.time(1) / scale.reduced_dt)
    rows = numpy.hstack([positions, speeds]).tolist()
    atoms = "\n".join(" ".join([str(number), *map(repr, row)]) for number, row in enumerate(rows, 1))
    sides = "\n".join([f"0 {edge!r}"] * 3)
    heads = f"ITEM: TIMESTEP\n{snapshot.step}\nITEM: NUMBER OF ATOMS\n{len(rows)}\nITEM: BOX BOUNDS pp pp pp\n{sides}\n"
    return f"{heads}ITEM: ATOMS id x y z vx vy vz\n{atoms}\n"


def reduced(snapshot: Any) -> Tuple[Any, Any]:
    """The positions of a frame and the edge of its box, in units of sigma as the program has it: of whole ring units."""
    sigma = snapshot.scale.sigma_on_ring
    return snapshot.places / sigma, 2**32 / sigma
