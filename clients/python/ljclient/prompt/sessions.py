"""What the prompt knows of sessions: their scales, and numbers of atoms and steps that differ from the server's."""
from __future__ import annotations

from typing import List

from ..overlap import warn_of_close_atoms
from ..energy_watch import can_be_measured, warn_of_large_steps
from ..measurement import Measurement
from ..mixture import Mixture
from ..order import Order
from ..session import Session
from ..units import Scale
from ..user import User
from ..wire import Reply
from .commands import forms_of
from .loading import words_of
from .shapes import SHAPES, wrong_words

# The index of the step among the words of a reply after OK.
STEP_AT = {"ADVANCE": 2, "START": 2, "REVERSE": 2, "MEASURE": 2, "SHOW": 2, "BRANCH": 3, "RESTORE": 3, "TUG": 3}
# The index of the atom among these words; in the command it is the word after the session.
ATOM_AT = {"SHOW": 3, "TUG": 2}


def session_of(user: User, name: str) -> Session:
    """A session with its known scale, without a check that it exists."""
    known = user._known_of(name)
    return Session(user, name, known.scale, known.mixture)


def asked(user: User, line: str, body: bytes = b"") -> Reply:
    """The reply to a command, with the user's numbers of atoms and steps."""
    words = words_of(line)
    verb = words[0] if words else ""
    if verb in ("LOAD", "LOADMIX"):
        reply = user.ask(line, body)
        note_scale(user, words)
        known = user._known_of(words[1])
        if known.scale is not None:
            warn_of_close_atoms((words[-2], body), known.scale, known.mixture)
            warn_of_large_steps(known.scale, known.mixture)
        return reply
    if verb == "LIST" or not is_whole(words):
        return listed(user, words) if words in (["LIST"], ["LIST", *words[1:2]]) else user.ask(line, body)
    return of_session(user, words)


def is_whole(words: List[str]) -> bool:
    """Whether a line is a command of the protocol with words of the right form."""
    return bool(words) and any(not wrong_words(words, form.usage) for form in forms_of(words[0]))


def of_session(user: User, words: List[str]) -> Reply:
    """The reply to a command of a session, or to BYE."""
    verb, *rest = words
    if not rest:
        return user.ask(verb)
    session = session_of(user, rest[0])
    if verb == "DUMP" and session.order != Order():
        return dumped(session)
    if verb in ATOM_AT and SHAPES["i"](rest[1]):
        rest[1] = str(session.order.number_of(int(rest[1])))
    reply = user.ask(" ".join([verb, *rest]))
    known = user._known_of(session.name)
    if verb == "BRANCH":
        known.branches[rest[1]] = known.order
    elif verb == "RESTORE":
        known.order = known.branch_order(rest[1])
    elif verb == "FORGET":
        known.branches.pop(rest[1], None)
    return renumbered(reply, words, known.order)


def renumbered(reply: Reply, asked_for: List[str], order: Order) -> Reply:
    """A reply with the user's numbers of atoms and steps."""
    words = list(reply.words)
    verb = words[0]
    if verb in STEP_AT:
        words[STEP_AT[verb]] = str(order.step_of(int(words[STEP_AT[verb]])))
    if verb in ATOM_AT:
        words[ATOM_AT[verb]] = str(int(asked_for[2]))
    return Reply(words, reply.lines)


def dumped(session: Session) -> Reply:
    """The frame of a session that has another box, order or step number at the server."""
    lines = session.dump().splitlines()
    return Reply(["DUMP", session.name, lines[1].split()[-1], str(len(lines))], lines)


def listed(user: User, words: List[str]) -> Reply:
    """The sessions, or the branches of one."""
    if len(words) == 1:
        rows = [" ".join(map(str, row)) for row in user.sessions()]
    elif SHAPES["s"](words[1]):
        rows = [" ".join(map(str, saved)) for saved in session_of(user, words[1]).saved()]
    else:
        return user.ask(" ".join(words))
    return Reply([*words, str(len(rows))], rows)


def note_scale(user: User, words: List[str]) -> None:
    """Notes the scale of a LOAD or LOADMIX, for `save`."""
    known, mixture = user._known_of(words[1]), None
    if words[0] == "LOAD":
        scale = Scale.of(words[2], words[3], int(words[4]))
    else:
        edge, first, second, *numbers, _, _ = words[2:]
        classes = [(numbers[at], int(numbers[at + 1]), int(numbers[at + 2])) for at in (0, 3, 6)]
        mixture = Mixture.of(edge, (first, second), classes=classes)
        scale = mixture.scale
    known.scale, known.mixture = scale, mixture


def in_words(user: User, reply: Reply) -> List[str]:
    """What a measurement means in physics, if the scale of the session is known."""
    scale = user._known_of(reply.words[1]).scale
    if not can_be_measured(scale):
        return []
    told = Measurement.of(reply.words[2:], scale)
    kinetic, potential = (energy / told.atoms for energy in (told.kinetic_energy, told.potential_energy))
    unit = "epsilon / k_B" if told.scale is None or told.scale.epsilon is None else "K"
    energies = f"kinetic {kinetic:.6g}, potential {potential:.6g}, total {kinetic + potential:.6g} epsilon an atom"
    return [f"  {energies}; temperature {told.temperature:.5g} {unit}"]
