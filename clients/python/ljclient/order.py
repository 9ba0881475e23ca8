"""How the user's numbers of atoms and steps relate to the server's numbers, and atoms in spatial order.

A step works on blocks of 64 atoms, and skips pairs of blocks that are out of reach of each other. So atoms that are
near each other in space should have numbers near each other too. The order does not affect the motion.
"""
from __future__ import annotations

import functools
from dataclasses import dataclass
from typing import Any, Dict, List, Optional, Sequence, Set, Tuple, TypeVar

from . import arrays
from .names import shortened
from .renamed import Renamed

BLOCK = 64
IN_SPACE = "space"
Place = Tuple[int, int, int]
Thing = TypeVar("Thing")


@dataclass(frozen=True)
class Doubt:
    """Another order that a session may have, since a connection was lost while its atoms were sorted again.

    numbers       the server's number of each of the user's atoms in that order
    number        a number of the server
    place, other  the place of the atom with this number in the order before, and in that order
    """

    numbers: Tuple[int, ...]
    number: int
    place: Place
    other: Place


@dataclass(frozen=True)
class Order:
    """How the server numbers the atoms and steps of a session, compared with the user's numbers.

    `User.session(name, order=session.order)` passes it to another connection. It is valid until the session is sorted again.

    Attributes
    ----------
    numbers : tuple of int or None
        The server's number of each of the user's atoms; None if the numbers are the same.
    step : int
        The user's step number at step 0 of the server.
    direction : {1, -1}
        1 if both count in the same direction, -1 if the server's step numbers rise while the user's fall.
    on_ring : bool
        Whether the server's box has the edge 4294.967296, so that the sixth decimal of a position is a ring unit.
    doubt : Doubt or None
        Which other numbers the server may have, if a connection was lost while they changed. `User.session` finds out which it has.
    """

    numbers: Optional[Tuple[int, ...]] = None
    step: int = 0
    direction: int = 1
    on_ring: bool = False
    doubt: Optional[Doubt] = None

    def __post_init__(self) -> None:
        if self.numbers is not None:
            object.__setattr__(self, "numbers", tuple(map(int, self.numbers)))
            if sorted(self.numbers) != list(range(len(self.numbers))):
                wanted = f"each number from 0 to {len(self.numbers) - 1} once"
                raise ValueError(f"an order must have {wanted}, got {shortened(list(self.numbers))}")
        if self.direction not in (1, -1):
            raise ValueError(f"a direction must be 1 or -1, got {shortened(self.direction)}")

    @staticmethod
    def of(order: "Order | Sequence[int] | None") -> "Order":
        """The `Order` of an argument: an order itself, or only the server's number of each atom."""
        return order if isinstance(order, Order) else Order(None if order is None else tuple(order))

    def number_of(self, atom: int) -> int:
        """The server's number of an atom.

        Parameters
        ----------
        atom : int
            The user's number.

        Returns
        -------
        int
            The server's number. The number of an atom that does not exist is returned unchanged, and the server refuses it.
        """
        return atom if self.numbers is None or atom >= len(self.numbers) else self.numbers[atom]

    def _for_user(self, things: Any) -> Any:
        """The server's values of each atom, in the user's order: an array if they are an array, else a list."""
        if self.numbers is None:
            return things
        numbers = self._of_as_many(things)
        return things[self._indices] if hasattr(things, "tolist") else [things[number] for number in numbers]

    def _columns_for_user(self, columns: Any) -> Any:
        """The same for an array with one column per atom."""
        return columns if self.numbers is None else columns.take(self._indices, axis=1)

    def _for_server(self, things: Sequence[Thing]) -> Sequence[Thing]:
        """The user's values of each atom, in the server's order."""
        if self.numbers is None:
            return things
        placed = dict(zip(self._of_as_many(things), things))
        return [placed[number] for number in range(len(placed))]

    def step_of(self, step: int) -> int:
        """The user's number of a step.

        Parameters
        ----------
        step : int
            The server's number.

        Returns
        -------
        int
            The user's number.
        """
        return self.step + self.direction * step

    @functools.cached_property
    def _indices(self) -> Any:
        """The numbers as an array, made once, since this takes longer than sorting many arrays by it."""
        return arrays.numpy.array(self.numbers)

    def _of_as_many(self, things: Sequence[Any]) -> Tuple[int, ...]:
        numbers = self.numbers or ()
        if len(numbers) != len(things):
            wanted = f"an order must have a number for each of the {len(things)} atoms of the session"
            raise ValueError(f"{wanted}, got {len(numbers)}; use the `order` of this session")
        return numbers

    for_user = Renamed[Any]("_for_user", "Order.number_of(atom)")
    for_server = Renamed[Any]("_for_server", "Order.number_of(atom)")


def is_in_space(order: Optional[str]) -> bool:
    """Whether atoms are to be kept in spatial order, by the argument `order=`."""
    if order not in (None, IN_SPACE):
        raise ValueError(f"order must be 'space', or None for the order of the file, got {shortened(order)}")
    return order is not None


def by_halves(places: Sequence[Tuple[float, float, float]]) -> Tuple[int, ...]:
    """The numbers that put atoms into spatial order: the new number of each.

    The atoms are split at the middle atom along x, y and z in turn, down to blocks. So a block is compact where the
    atoms are dense, and each half except the last has whole blocks.
    """
    columns = list(zip(*places))
    parts, axis = [list(range(len(places)))], 0
    while any(len(part) > BLOCK for part in parts):
        parts = [half for part in parts for half in _halves(part, columns[axis])]
        axis = (axis + 1) % 3
    numbers = [0] * len(places)
    for number, atom in enumerate(atom for part in parts for atom in part):
        numbers[atom] = number
    return tuple(numbers)


def sorted_anew(places: Sequence[Place], symbols: Sequence[str], order: Order) -> Tuple[int, ...]:
    """The numbers that change the server's order of atoms to spatial order, by halves: the new number of each.

    The server's numbers keep their symbols, so atoms exchange numbers only with atoms of the same symbol. An atom that stays in
    its block keeps its number.
    """
    numbers = list(range(len(places)) if order.numbers is None else order.numbers)
    columns, count = list(zip(*places)), -(-len(places) // BLOCK)
    alike: Dict[str, List[int]] = {}
    for atom, symbol in enumerate(symbols):
        alike.setdefault(symbol, []).append(atom)
    new = list(numbers)
    for atoms in alike.values():
        room: List[List[int]] = [[] for _ in range(count)]
        for atom in atoms:
            room[numbers[atom] // BLOCK].append(numbers[atom])
        for free, here in zip(room, _in_blocks(atoms, columns, [len(each) for each in room])):
            _renumber(new, set(free), here)
    return tuple(new)


def _renumber(numbers: List[int], free: Set[int], atoms: Sequence[int]) -> None:
    """Gives the free numbers of a block to as many atoms. An atom that has one of them keeps it."""
    coming = [atom for atom in atoms if numbers[atom] not in free]
    left = free.difference(numbers[atom] for atom in atoms)
    for atom, number in zip(coming, sorted(left)):
        numbers[atom] = number


def _in_blocks(atoms: List[int], columns: Sequence[Sequence[int]], room: Sequence[int]) -> List[List[int]]:
    """The atoms of each block, by the number that each block has room for. The atoms are split along x, y and z in turn."""
    parts, axis = [(room, atoms)], 0
    while any(len(blocks) > 1 for blocks, _ in parts):
        parts = [half for blocks, part in parts for half in _split(blocks, part, columns[axis])]
        axis = (axis + 1) % 3
    return [part for _, part in parts]


def _split(blocks: Sequence[int], part: List[int], column: Sequence[int]) -> List[Tuple[Sequence[int], List[int]]]:
    """Two halves of some blocks, the first with the atoms of smaller coordinates; or the blocks unchanged, if there is one."""
    if len(blocks) == 1:
        return [(blocks, part)]
    part.sort(key=column.__getitem__)
    half = len(blocks) // 2
    first = sum(blocks[:half])
    return [(blocks[:half], part[:first]), (blocks[half:], part[first:])]


def _halves(part: List[int], column: Sequence[float]) -> List[List[int]]:
    """Two halves of whole blocks, the first with the atoms of smaller coordinates; or the part itself, if it is one block."""
    if len(part) <= BLOCK:
        return [part]
    part.sort(key=column.__getitem__)
    blocks = -(-len(part) // BLOCK)
    middle = blocks // 2 * BLOCK
    return [part[:middle], part[middle:]]
