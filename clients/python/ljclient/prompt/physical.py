"""LOAD in physical units: `LOAD a argon.xyz edge=21.04 dt=10fs argon`."""
from __future__ import annotations

import os
import re
from typing import Any, Dict, List, NamedTuple, Optional, Sequence, Tuple

from .. import units
from ..names import SYMBOL
from ..session import Session
from ..user import User
from .commands import MODES
from .loading import Fault, quoted_words, read_body

LENGTHS = {"": units.angstrom, "A": units.angstrom, "angstrom": units.angstrom, "nm": units.nanometre}
ENERGIES = {
    "": units.electronvolt,
    "eV": units.electronvolt,
    "K": units.kelvin,
    "J/mol": units.joule_per_mole,
    "kJ/mol": units.kilojoule_per_mole,
    "kcal/mol": units.kilocalorie_per_mole,
}
MASSES = {"": units.dalton, "u": units.dalton, "Da": units.dalton}
TIMES = {"": units.femtosecond, "fs": units.femtosecond, "ps": units.picosecond}
UNITS = {"edge": LENGTHS, "sigma": LENGTHS, "epsilon": ENERGIES, "mass": MASSES, "dt": TIMES, "h": {"": 1.0}}
QUANTITY = re.compile(r"([+-]?(?:[0-9]+\.?[0-9]*|\.[0-9]+)(?:[eE][+-]?[0-9]+)?)(.*)\Z")
SYMBOLS = "symbols="
WANTED = (
    "the time step and the substance must be given; use them as in `dt=2fs argon`, or sigma=, epsilon=, mass= and dt=, or sigma= and h="
)


class PhysicalLoad(NamedTuple):
    """A LOAD in physical units: the name of the session, the file, whether it has two frames, and arguments of `User.load`."""

    name: str
    path: str
    pair: bool
    scale: Dict[str, Any]

    def perform(self, user: User) -> List[str]:
        """Loads the atoms, and returns the lines to show. Raises Fault if that fails."""
        try:
            session = user.load(self.name, os.path.expanduser(self.path), pair=self.pair, **self.scale)
        except OSError as error:
            raise Fault(f"cannot read {self.path}: {error.strerror or error}") from error
        except (TypeError, ValueError) as error:
            raise Fault(str(error)) from error
        return [f"OK LOAD {self.name} 0 {session.n_atoms}", *about(session)]


def substances() -> Dict[str, Dict[str, Any]]:
    """The substances that have a name, such as argon."""
    named = {name.lower(): value for name, value in vars(units).items() if name.isupper()}
    return {name: value for name, value in named.items() if isinstance(value, dict) and {*value} == {"sigma", "epsilon", "mass"}}


def load_of(line: str) -> Optional[PhysicalLoad]:
    """The parts of a LOAD in physical units. None for any other line. Raises Fault for a wrong word."""
    words = quoted_words(line)
    if words[:1] != ["LOAD"] or len(words) < 4 or not any(is_physical(word) for word in words[3:]):
        return None
    mode = words[-1] if words[-1] in MODES else ""
    rest = words[3:-1] if mode else words[3:]
    symbols = [word.partition("=")[2] for word in rest if word.startswith(SYMBOLS)]
    said = scale_of([word for word in rest if not word.startswith(SYMBOLS)])
    if symbols and not SYMBOL.match(symbols[-1]):
        raise Fault(f"{SYMBOLS} must be one symbol for all atoms, 1 to 16 printing characters, got `{symbols[-1]}`")
    return PhysicalLoad(words[1], words[2], mode == "pair", {**said, "symbols": symbols[-1]} if symbols else said)


def file_of(line: str) -> Tuple[str, bytes]:
    """The path and the bytes of the file of such a LOAD; both empty for any other line."""
    load = load_of(line)
    return (load.path, read_body(load.path)) if load else ("", b"")


def is_physical(word: str) -> bool:
    """Whether a word is a quantity with its name, or a substance."""
    return "=" in word or word.lower() in substances()


def scale_of(words: Sequence[str]) -> Dict[str, Any]:
    """The arguments of `User.load` for these words. Raises Fault for a wrong word."""
    said: Dict[str, Any] = {}
    for word in words:
        said.update(substances().get(word.lower()) or quantity_of(word))
    if "sigma" not in said or not ({"dt", "h"} & {*said}):
        raise Fault(WANTED)
    return said


def quantity_of(word: str) -> Dict[str, Any]:
    """The quantity in a word such as `dt=10fs`."""
    name, has_name, text = word.partition("=")
    if not has_name or name not in UNITS:
        known = ", ".join([*(f"{each}=" for each in UNITS), *substances()])
        raise Fault(f"a word of the scale must be one of {known}, `rest` and `pair`, got `{word}`")
    found = QUANTITY.match(text)
    if found is None or found[2] not in UNITS[name]:
        known = " or ".join(each for each in UNITS[name] if each)
        raise Fault(f"{name}= must be followed by a number{f', which {known} may follow' if known else ''}, got `{text}`")
    if name == "h":
        if not found[1].isdecimal():
            raise Fault(f"h must be a whole number, got `{text}`")
        return {name: int(found[1])}
    number, unit = float(found[1]), UNITS[name][found[2]]
    return {name: number if unit == 1 else number * unit}


def about(session: Session) -> List[str]:
    """The rounded scale of a session, which another connection needs for the same session."""
    dt = "" if session.dt is None else f", and the time step {session.dt:.7g} fs"
    return [f"  edge {session.edge:.10g}, sigma {session.scale.sigma:.10g}, h {session.h}{dt}"]
