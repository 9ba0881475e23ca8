"""Places and frames from replies: the lines of all atoms are read at once.

The readers that use numpy are imported when needed, since importing numpy takes as long as the rest of this package.
"""
from __future__ import annotations

import functools
import re
from typing import Any, Callable, List, NamedTuple, Sequence, Tuple

from . import arrays
from .errors import BadReply
from .order import Order
from .replies import of_session, whole_number
from .units import RING
from .wire import Reply

STEP = r"-?[0-9]{1,13}"
PLACE = r"([0-9]{1,10}) ([0-9]{1,10}) ([0-9]{1,10})"
COORDINATE = r" [0-9]{1,7}\.[0-9]{6}"
ROWS = re.compile(rf"(?:[!-~]{{1,16}}{COORDINATE * 3}\n)*")


class Places(NamedTuple):
    """The places of all atoms at a step: an array, or a list of tuples."""

    step: int
    places: arrays.IntArray


class Frame(NamedTuple):
    """A frame of XYZ text: its step, and for each atom a line with its symbol and its position, line ends included."""

    step: int
    lines: str

    @staticmethod
    def of(step: int, rows: Sequence[str]) -> "Frame":
        """The frame of these lines, without line ends."""
        return Frame(step, "\n".join([*rows, ""]))

    @property
    def rows(self) -> List[str]:
        """The line of each atom, without line end."""
        return self.lines.split("\n")[:-1]

    def for_user(self, order: Order) -> "Frame":
        """The frame with the user's numbers of atoms and steps."""
        step = order.step_of(self.step)
        return Frame(step, self.lines) if order.numbers is None else Frame.of(step, order._for_user(self.rows))

    def text(self, comment: str) -> str:
        """The frame as XYZ text with this comment."""
        count = self.lines.count("\n")
        return f"{count}\n{comment}\n{self.lines}"

    def symbols(self) -> List[str]:
        """The symbol of each atom."""
        return [row.split(" ")[0] for row in self.rows]

    def positions(self) -> Any:
        """The position of each atom, with the six decimals that the server sends: an array, or a list of tuples."""
        head = "positions\n"
        return _positions_in((head + self.lines).encode(), len(head), self.lines.count("\n"))


@functools.lru_cache(maxsize=8)
def shows(name: str, count: int) -> Tuple[str, ...]:
    """The commands that show the `count` atoms of a session."""
    return tuple(f"SHOW {name} {atom}" for atom in range(count))


def places_of(name: str, count: int, text: bytes) -> Places:
    """The places in the replies to `shows`: the lines are read together, which takes a tenth of the time."""
    told = re.match(rf"OK SHOW {re.escape(name)} ({STEP}) ".encode(), text)
    if told:
        read = _listed_places if arrays.numpy is None else _arrayed_places
        places = read(text, told.group(), count)
        if places is not None:
            return Places(int(told.group(1)), places)
    for atom, row in enumerate(text.split(b"\n")[:count]):
        place_of(name, atom, row)
    raise BadReply(f"{count} atoms of session {name} were not shown at one step")


def both_of(name: str, count: int, text: bytes) -> Tuple[Places, Places]:
    """The places now and one step before, from the replies to `shows`, REVERSE, `shows`, and what undoes it."""
    rows = text.split(b"\n")
    now, before = rows[:count], rows[count + 1 : 2 * count + 1]
    return places_of(name, count, b"\n".join([*now, b""])), places_of(name, count, b"\n".join([*before, b""]))


def three_of(name: str, count: int, back: int, text: bytes) -> Tuple[Places, Places, Places]:
    """The places before, now and after: from the replies to `shows` now, after REVERSE, and after `back` commands that undo it
    and a step."""
    rows = text.split(b"\n")
    parts = (b"\n".join([*rows[at : at + count], b""]) for at in (0, count + 1, 2 * count + 2 + back))
    now, before, after = (places_of(name, count, part) for part in parts)
    return before, now, after


def place_of(name: str, atom: int, row: bytes) -> Tuple[int, int, int]:
    """The place in the reply to one SHOW."""
    told = re.fullmatch(rf"OK SHOW {re.escape(name)} {STEP} {atom} {PLACE}\n?", row.decode("latin-1"))
    x, y, z = map(int, told.groups()) if told else (RING, RING, RING)
    if max(x, y, z) >= RING:
        raise BadReply(f"`SHOW {name} {atom}` was answered {row[:80]!r}")
    return x, y, z


def frame_of(name: str, reply: Reply) -> Frame:
    """The frame in the reply to `DUMP`."""
    step, head = _head_of(name, reply.words, len(reply.lines))
    if "\n".join([*reply.lines[:2], ""]) != head:
        raise BadReply(f"{' '.join(reply.words)[:80]!r} is followed by {reply.lines[:2]!r}")
    return Frame.of(step, reply.lines[2:])


def positions_of(name: str, words: List[str], text: bytes) -> Tuple[int, Any]:
    """The step and the positions in the reply to `DUMP`, from its words and the text of its lines."""
    step, start, count = _begin_of(name, words, text)
    return step, _positions_in(text, start, count)


def millionths_of(name: str, words: List[str], text: bytes) -> Tuple[int, Any]:
    """As `positions_of`, with the positions in millionths."""
    step, start, count = _begin_of(name, words, text)
    rows = _rows_of(text, start, count)
    if rows is None:
        return step, arrays.millionths(_positions_in(text, start, count))
    return step, arrays.numpy.ascontiguousarray(rows.columns.T)


def frame_with(name: str, words: List[str], text: bytes, converted: Callable[[Any], Any], order: Order) -> Frame:
    """The frame in the reply to `DUMP`, with its millionths converted, and with the user's numbers."""
    if not text.isascii():
        raise BadReply(f"{' '.join(words)[:80]!r} is followed by other bytes than text of the protocol")
    step, start, count = _begin_of(name, words, text)
    read = _rows_of(text, start, count)
    if read is not None:
        from . import decimals

        if (lines := decimals.lines(text, read, converted(read.columns), order)) is not None:
            return Frame(order.step_of(step), lines.decode())
    rows = []
    millionths = converted(arrays.millionths(_positions_in(text, start, count)))
    for row, place in zip(text[start:].decode().split("\n"), arrays.listed(millionths)):
        parts = (divmod(part, 10**6) for part in place)
        rows.append(" ".join([row.split(" ")[0], *[f"{whole}.{rest:06}" for whole, rest in parts]]))
    return Frame.of(step, rows).for_user(order)


def _begin_of(name: str, words: List[str], text: bytes) -> Tuple[int, int, int]:
    """The step in the reply to `DUMP`, where the lines of atoms begin in its text, and the number of these lines."""
    count = whole_number(words[-1])
    step, head = _head_of(name, words, count)
    if not text.startswith(head.encode()):
        raise BadReply(f"{' '.join(words)[:80]!r} is followed by {text[:40]!r}")
    return step, len(head), count - 2


def _head_of(name: str, words: List[str], count: int) -> Tuple[int, str]:
    """The step in the words of a reply to `DUMP`, and the first two lines of a frame with `count` lines."""
    if len(of_session(f"DUMP {name}", words)) != 4 or words[3] != str(count):
        raise BadReply(f"{' '.join(words)[:80]!r} is followed by {count} lines")
    return whole_number(words[2]), f"{count - 2}\nstep {words[2]}\n"


def _rows_of(text: bytes, start: int, count: int) -> Any:
    """The columns of `count` lines of atoms in a text, from `start` on. None without numpy, or if it cannot read them."""
    if arrays.numpy is None:
        return None
    from . import digits

    return digits.rows(text, start, count)


def _positions_in(text: bytes, start: int, count: int) -> Any:
    """The positions of `count` atoms with lines in a text from `start` on, by numpy if it can read them all at once."""
    positions = None
    if arrays.numpy is not None:
        from . import digits

        positions = digits.positions(text, start, count)
    if positions is None:
        positions = _listed_positions(text[start:].decode("latin-1"))
    if positions is None:
        wrong = [row for row in text[start:].decode("latin-1").split("\n")[:-1] if not ROWS.fullmatch(row + "\n")]
        raise BadReply(f"{wrong[0][:80]!r} is not an atom of a frame")
    if len(positions) != count:
        raise BadReply(f"a frame of {count} atoms has {len(positions)} lines")
    return positions


def _arrayed_places(text: bytes, head: bytes, count: int) -> Any:
    """The places of the first `count` atoms as an array, from lines with this head. None if any line has another form."""
    from . import digits

    numbers = digits.places(text, head)
    if numbers is None or not arrays.numpy.array_equal(numbers[0], arrays.numpy.arange(count)) or numbers.max() >= RING:
        return None
    return arrays.numpy.ascontiguousarray(numbers[1:].T)


def _listed_places(text: bytes, head: bytes, count: int) -> Any:
    """The same as a list of tuples."""
    if not re.fullmatch(rf"(?:{re.escape(head.decode())}[0-9]{{1,4}} {PLACE}\n)*".encode(), text):
        return None
    numbers = list(map(int, text.replace(head, b"").decode().split()))
    if numbers[0::4] != list(range(count)) or max(numbers) >= RING:
        return None
    return list(zip(numbers[1::4], numbers[2::4], numbers[3::4]))


def _listed_positions(text: str) -> Any:
    """The positions of the lines of a frame, read one by one: an array, or a list of tuples. None if a line has another form."""
    if not ROWS.fullmatch(text):
        return None
    words = text.split()
    del words[0::4]
    numbers = list(map(float, words))
    return arrays.stacked(list(zip(numbers[0::3], numbers[1::3], numbers[2::3])))
