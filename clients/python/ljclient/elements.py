"""Replacements for the symbols of a session, which may be names of species, such as A and B, that are not elements."""
from __future__ import annotations

from typing import Iterable, List, Mapping, Optional, Sequence

from .names import checked_symbol, shortened
from .reading import Frame

# The replacement for each symbol of a session.
Replacements = Mapping[str, str]
# The symbols of all elements, by their numbers.
ELEMENTS = frozenset(
    "H He Li Be B C N O F Ne Na Mg Al Si P S Cl Ar K Ca Sc Ti V Cr Mn Fe Co Ni Cu Zn Ga Ge As Se Br Kr Rb Sr Y Zr Nb Mo Tc Ru Rh Pd "
    "Ag Cd In Sn Sb Te I Xe Cs Ba La Ce Pr Nd Pm Sm Eu Gd Tb Dy Ho Er Tm Yb Lu Hf Ta W Re Os Ir Pt Au Hg Tl Pb Bi Po At Rn Fr Ra "
    "Ac Th Pa U Np Pu Am Cm Bk Cf Es Fm Md No Lr Rf Db Sg Bh Hs Mt Ds Rg Cn Nh Fl Mc Lv Ts Og".split()
)


def wanted(symbols: Iterable[str]) -> str:
    """The argument that gives replacements for these symbols, with argon for the first as an example."""
    first, *others = sorted(set(symbols))
    return "symbols={" + ", ".join([f"{first!r}: 'Ar'", *(f"{symbol!r}: .." for symbol in others)]) + "}"


def replaced(symbols: Sequence[str], replacements: Replacements) -> List[str]:
    """The replacement for each of these symbols. Raises ValueError if one is missing, or if something is not a symbol."""
    if not isinstance(replacements, Mapping):
        raise ValueError(f"symbols must give a symbol for each one of the session, got {shortened(replacements)}; use {wanted(symbols)}")
    for symbol in symbols:
        if symbol not in replacements:
            raise ValueError(f"symbols must have one for {symbol!r}, got {shortened(dict(replacements))}; use {wanted(symbols)}")
        checked_symbol(replacements[symbol])
    return [replacements[symbol] for symbol in symbols]


def with_symbols(frame: Frame, replacements: Optional[Replacements]) -> Frame:
    """A frame with these symbols in place of its own."""
    if replacements is None:
        return frame
    names = replaced(frame.symbols(), replacements)
    return Frame.of(frame.step, [f"{name} {row.split(' ', 1)[1]}" for name, row in zip(names, frame.rows)])
