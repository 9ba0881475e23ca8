"""A liquid that LAMMPS melts from a crystal, and the same liquid as commands for the program."""
from __future__ import annotations

import pathlib
import random
import re
import subprocess
import sys
from typing import Dict, List, NamedTuple

HERE = pathlib.Path(__file__).resolve().parent
sys.path[:0] = [str(HERE.parent), str(HERE.parents[1] / "clients" / "python")]
from ljclient import User  # noqa: E402
from ljclient.order import Order, by_halves  # noqa: E402
from ljclient.session import Session  # noqa: E402

DENSITY, DT = 0.8442, 0.005
H = round(2**32 * DT**2)
# The atom lines of a frame in XYZ text.
Frame = List[str]


class Crystal(NamedTuple):
    """The crystal to melt: a lattice, the number of cells along each axis, and the number of atoms of a cell."""

    lattice: str
    cells: int
    atoms_of_cell: int

    @property
    def atoms(self) -> int:
        return self.atoms_of_cell * self.cells**3


class Liquid(NamedTuple):
    """The liquid that LAMMPS made: its restart file, the last two frames, and the potential energy of an atom."""

    restart: str
    before: Frame
    present: Frame
    energy: float

    @property
    def edge(self) -> str:
        return f"{(len(self.present) / DENSITY) ** (1 / 3):.9f}"

    def in_order(self, order: Order) -> Liquid:
        return self._replace(before=list(order._for_server(self.before)), present=list(order._for_server(self.present)))

    def in_space(self) -> Liquid:
        """The same atoms in the client's spatial order."""
        rows = [[round(1e9 * float(word)) for word in line.split()[1:]] for line in self.present]
        return self.in_order(Order(by_halves([(x, y, z) for x, y, z in rows])))

    def shuffled(self) -> Liquid:
        count = len(self.present)
        return self.in_order(Order(tuple(random.Random(1).sample(range(count), count))))

    def load(self) -> bytes:
        """The command that loads it."""
        body = text_of(self.before) + text_of(self.present)
        return f"LOAD a {self.edge} 1 {H} pair {len(body)}\n{body}".encode()

    def stream(self, steps: int) -> bytes:
        """The commands that load it and make `steps` steps."""
        return self.load() + f"ADVANCE a {steps}\n".encode()

    def loaded(self, user: User) -> Session:
        before, present = (text_of(frame) for frame in (self.before, self.present))
        return user.load("a", present, before=before, edge=self.edge, sigma=1, h=H, order="space")


def text_of(frame: Frame) -> str:
    return f"{len(frame)}\nliquid, density {DENSITY}\n" + "".join(frame)


def lammps(file: str, variables: Dict[str, object], *words: str, is_shown: bool = False) -> List[str]:
    """The command that runs a file of this folder in LAMMPS, which prints its progress if `is_shown`."""
    said = [word for name, value in variables.items() for word in ("-var", name, str(value))]
    return ["lmp", "-log", "none", *([] if is_shown else ["-screen", "none"]), *words, "-in", str(HERE / file), *said]


def made(folder: pathlib.Path, crystal: Crystal) -> Liquid:
    """Makes the liquid with LAMMPS, and keeps its files in a folder."""
    paths = {name: folder / name for name in ("frames", "restart", "energies")}
    subprocess.run(lammps("liquid.in", {**paths, "lattice": crystal.lattice, "cells": crystal.cells}), check=True, cwd=folder)
    blocks = paths["frames"].read_text().split("ITEM: ATOMS id x y z\n")[1:]
    before, present = ([re.sub(r"^\d+", "Ar", line) for line in block.splitlines(keepends=True)[: crystal.atoms]] for block in blocks)
    return Liquid(str(paths["restart"]), before, present, float(paths["energies"].read_text().split()[0]))


def version_of_lammps() -> str:
    told = subprocess.run(["lmp", "-h"], capture_output=True, text=True, check=True).stdout
    return told.split("Simulator - ")[1].splitlines()[0]
