"""The frames of a session, with the server's numbers.

In a box whose edge is 4294.967296 a ring unit is a millionth of the file's unit. So six decimals give a place exactly, both
in DUMP and in LOAD. In any other box each place needs a SHOW.
"""
from __future__ import annotations

from typing import TYPE_CHECKING, Any, List, Sequence, Tuple

from . import arrays, reading
from .errors import BadReply
from .guards import look
from .order import Place
from .reading import Frame, Places
from .scalars import nano
from .units import RING
from .wire import Reply

if TYPE_CHECKING:
    from .loading import Loader

RING_EDGE = "4294.967296"
MILLION = 10**6


def dumped(user: "Loader", name: str) -> Frame:
    """The frame as the server dumps it."""
    return reading.frame_of(name, user.ask(f"DUMP {name}"))


def dumped_positions(user: "Loader", name: str) -> Tuple[int, Any]:
    """The step and the positions as the server dumps them."""
    return reading.positions_of(name, *user._ask_text(f"DUMP {name}"))


def place(user: "Loader", name: str, number: int) -> Place:
    """The place of the atom that has this number at the server."""
    return reading.place_of(name, number, user._ask_rows([f"SHOW {name} {number}"]))


def shown(user: "Loader", name: str, count: int) -> Tuple[Places, ...]:
    """The places of `count` atoms, in a session with any box."""
    return (reading.places_of(name, count, user._ask_rows(reading.shows(name, count))),)


def both_shown(user: "Loader", name: str, count: int) -> Tuple[Places, ...]:
    """The places now and one step before, for which the motion is reversed."""
    shows, turn = reading.shows(name, count), f"REVERSE {name}"
    with look(user, name, 2 * count) as way:
        return reading.both_of(name, count, user._ask_rows([*shows, turn, *shows, *way.turned, *way.end]))


def three_shown(user: "Loader", name: str, count: int) -> Tuple[Places, ...]:
    """The places one step before, now and one step after, in a session with any box. For this it reverses and makes a step."""
    shows, step, turn = reading.shows(name, count), f"ADVANCE {name} 1", f"REVERSE {name}"
    with look(user, name, 3 * count) as way:
        lines = [*shows, turn, *shows, *way.turned, step, *shows, *way.stepped, *way.end]
        return reading.three_of(name, count, len(way.turned), user._ask_rows(lines))


def three_dumped(user: "Loader", name: str) -> Tuple[Places, ...]:
    """As `three_shown`, in a session whose box shows each ring unit."""
    dump, step, turn = f"DUMP {name}", f"ADVANCE {name} 1", f"REVERSE {name}"
    with look(user, name, 3) as way:
        replies = user.ask_all([dump, turn, dump, *way.turned, step, dump, *way.stepped, *way.end])
    now, before, after = (Places(*_on_ring(name, each.words, text_of(each))) for each in replies if each.words[0] == "DUMP")
    return before, now, after


def text_of(reply: Reply) -> bytes:
    """The lines of a reply, unchanged."""
    return "\n".join([*reply.lines, ""]).encode()


def dumped_places(user: "Loader", name: str) -> Tuple[Places, ...]:
    """The places of all atoms, of a session whose box shows each ring unit."""
    return (Places(*_on_ring(name, *user._ask_text(f"DUMP {name}"))),)


def both_dumped(user: "Loader", name: str) -> Tuple[Places, ...]:
    """The places now and one step before, of a session whose box shows each ring unit."""
    dump, turn = f"DUMP {name}", f"REVERSE {name}"
    with look(user, name, 3) as way:
        replies = user.ask_all([dump, turn, dump, *way.turned, *way.end])
    return tuple(on_ring(reading.frame_of(name, reply)) for reply in replies if reply.words[0] == "DUMP")


def dumped_in_box(user: "Loader", name: str, edge: float) -> Frame:
    """The user's frame of a session whose box shows each ring unit, as the server would dump it in a box of this edge."""
    words, text = user._ask_text(f"DUMP {name}")
    nanos = nano(edge)
    return reading.frame_with(name, words, text, lambda places: arrays.in_box(_checked(places), nanos), user._known_of(name).order)


def positions_in_box(user: "Loader", name: str, edge: float) -> Tuple[int, Any]:
    """As `dumped_in_box`, the step and the positions."""
    step, places = _on_ring(name, *user._ask_text(f"DUMP {name}"))
    order = user._known_of(name).order
    return order.step_of(step), order._for_user(arrays.of_millionths(arrays.in_box(places, nano(edge))))


def on_ring(frame: Frame) -> Places:
    """The places of a frame whose box shows each ring unit."""
    return Places(frame.step, _checked(arrays.millionths(frame.positions())))


def _on_ring(name: str, words: List[str], text: bytes) -> Tuple[int, Any]:
    """The step and the places of such a frame, from a reply to `DUMP`."""
    step, places = reading.millionths_of(name, words, text)
    return step, _checked(places)


def _checked(places: Any) -> Any:
    """Places from a box that shows each ring unit. Raises BadReply if one is outside the box."""
    if arrays.greatest(places) >= RING:
        raise BadReply("a place of a frame must be below the edge of the box")
    return places


def text_on_ring(comment: str, symbols: Sequence[str], places: Sequence[Place]) -> bytes:
    """A frame of XYZ text, in the box that shows each ring unit."""
    lines = [f"{symbol} {x}e-6 {y}e-6 {z}e-6\n" for symbol, (x, y, z) in zip(symbols, places)]
    return f"{len(lines)}\n{comment}\n{''.join(lines)}".encode()
