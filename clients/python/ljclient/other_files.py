"""Files of other programs, which are not XYZ text: the error names their reader."""
from __future__ import annotations

import os
from typing import Dict

from .files import Path

BY_ASE = "use ase.io.read({path!r}{words}) and load its Atoms"
BY_MDANALYSIS = "use MDAnalysis.Universe(topology, {path!r}).atoms.positions, with symbols= and edge="
# Further arguments of `ase.io.read`, by the ending of the file.
OF_ASE: Dict[str, str] = {
    ".traj": "",
    ".data": ", format='lammps-data', style='atomic'",
    ".lammpstrj": ", format='lammps-dump-text'",
    ".dump": ", format='lammps-dump-text'",
    ".gro": "",
    ".pdb": "",
    ".cif": "",
}
OF_MDANALYSIS = (".dcd", ".xtc", ".trr", ".nc")


def check_text(path: Path, text: bytes) -> None:
    """Raises ValueError, which names a reader, if a file is from another program by its ending and its first line.

    XYZ text begins with a number of atoms, whatever the ending is.
    """
    ending = os.path.splitext(os.fspath(path))[1].lower()
    words = text.split(None, 1)[:1]
    if (words and words[0].isdigit()) or ending not in {*OF_ASE, *OF_MDANALYSIS}:
        return
    advice = (BY_ASE if ending in OF_ASE else BY_MDANALYSIS).format(path=os.fspath(path), words=OF_ASE.get(ending))
    raise ValueError(f"{os.fspath(path)} must be XYZ text, got a {ending} file; {advice}")
