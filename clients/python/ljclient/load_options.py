"""The options that `User.load`, `load_mix` and `load_saved` have in common, and the atoms of a source."""
from __future__ import annotations

from dataclasses import dataclass
from typing import Any, NamedTuple, Optional

from . import xyz
from .atom_groups import adapted
from .files import Path
from .motion import Motion, motion_of
from .scalars import Number
from .species import Symbols
from .units import Scale


class SourceAtoms(NamedTuple):
    """The atoms of a source.

    source     the source, or an adapter with the interface of ASE `Atoms`
    frames     the mode of the load, and its body
    edge       the edge of the box
    has_motion whether velocities may come from the source, since no frame of one step before is given
    """

    source: Any
    frames: xyz.Frames
    edge: Number
    has_motion: bool

    def motion(self, scale: Scale) -> Optional[Motion]:
        """The rounded velocities of the source. None for atoms at rest, and for two frames."""
        return motion_of(self.source, self.frames[1], scale) if self.has_motion else None


@dataclass(frozen=True)
class LoadOptions:
    """The options of a load, as in `User.load`. Here `continues` is the SHA-256 of the record that the new one continues."""

    edge: Optional[Number] = None
    before: Any = None
    pair: bool = False
    symbols: Symbols = None
    replace: bool = False
    order: Optional[str] = None
    watch: bool = True
    record: Optional[Path] = None
    continues: str = ""

    def atoms_of(self, source: Any) -> SourceAtoms:
        """The atoms of a source. Raises ValueError if neither `edge` nor the source has the edge of the box."""
        source, before = adapted(source), adapted(self.before)
        frames = xyz.frames_of(source, before, self.symbols, self.pair)
        edge = xyz.edge_of(source, frames) if self.edge is None else self.edge
        if edge is None:
            raise ValueError("edge must be given, got None: the atoms have no Lattice; use edge=.., the edge of the box")
        return SourceAtoms(source, frames, edge, before is None and not self.pair)
