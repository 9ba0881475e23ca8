"""The documented replies of `run` to a stream of bytes, with any numbers for places and measurements."""
import re
from dataclasses import dataclass, field
from typing import Callable, Dict, Iterator, List, Optional, Sequence, Tuple, Union

from shared.program import USUAL
from soaking.words import Fault, words_of

MOST_SESSIONS, MOST_ATOMS, MOST_SAVED = USUAL
LINE_FAULTS = {2: "LINE", 3: "SYNTAX", 6: "COMMAND"}
LAST_FAULTS = {4: "BODY", 5: "LONG", 8: "ENOUGH"}
XYZ_FAULTS = {30: "XYZ_COUNT", 31: "XYZ_SHORT", 32: "XYZ_SYMBOL", 33: "XYZ_NUMBER", 34: "XYZ_RANGE", 35: "XYZ_PAIR"}
REFUSALS = {
    10: "NO_SESSION",
    11: "EXISTS",
    12: "NO_BRANCH",
    13: "BRANCH_EXISTS",
    14: "NO_ATOM",
    20: "QUOTA_SESSIONS",
    21: "QUOTA_ATOMS",
    22: "QUOTA_BRANCHES",
    23: "STEP_RANGE",
    36: "EDGE",
    37: "SIGMA",
    38: "STEP_FACTOR",
    90: "MEMORY",
}

# A reply: a pattern for the part after OK and the command, or the number of a refusal.
Form = Union[bytes, int]


def documented(data: bytes, account: "Account") -> Iterator[bytes]:
    """The pattern of the reply to each item of a stream, up to the last reply."""
    at = 0
    for _ in range(10**6):
        end = data.find(b"\n", at, at + 65536)
        if end < 0:
            if len(data) - at >= 65536:
                yield refusal(5)
            return
        line, at = data[at:end], end + 1
        words = words_of(line) if len(line) <= 256 else []
        if words[:1] == [b"LOAD"]:
            count = words[-1]
            if len(words) == 1 or not re.fullmatch(rb"[0-9]{1,7}", count) or int(count) > 1048576:
                yield refusal(4)
                return
            at += int(count)
            if at > len(data):
                return
        yield refusal(2) if len(line) > 256 else account.reply_to(words)
        if words == [b"BYE"]:
            return
    yield refusal(8)


NAME, WHOLE, SIGNED = rb"[A-Za-z0-9_-]{1,16}", rb"[0-9]{1,19}", rb"-?[0-9]{1,19}"
FIGURE, ANY = rb"(?:0|-?[1-9][0-9]*)", rb".*"
ATOM_LINE = rb"\n[!-~]{1,16}" + rb" [0-9]+\.[0-9]{6}" * 3
# The shapes of the words after each command.
COMMANDS: Dict[bytes, List[List[bytes]]] = {
    b"LOAD": [[NAME, ANY, ANY, ANY, rb"rest|pair", ANY]],
    b"ADVANCE": [[NAME, WHOLE]],
    b"START": [[NAME, WHOLE]],
    b"REVERSE": [[NAME]],
    b"BRANCH": [[NAME, NAME]],
    b"RESTORE": [[NAME, NAME]],
    b"FORGET": [[NAME, NAME]],
    b"TUG": [[NAME, WHOLE, SIGNED, SIGNED, SIGNED]],
    b"MEASURE": [[NAME]],
    b"SHOW": [[NAME, WHOLE]],
    b"DUMP": [[NAME]],
    b"LIST": [[], [NAME]],
    b"DROP": [[NAME]],
    b"BYE": [[]],
}


def refusal(number: int) -> bytes:
    name = {**LINE_FAULTS, **LAST_FAULTS, **REFUSALS, **XYZ_FAULTS}[number]
    return b"ERR %02d %s" % (number, name.encode()) + (rb" line [1-9][0-9]*" if number in XYZ_FAULTS else b"") + rb"\n"


def has_shape(shape: bytes, word: bytes) -> bool:
    return re.fullmatch(shape, word, re.S) is not None and (shape != SIGNED or -(2**31) <= int(word) < 2**31)


@dataclass
class Session:
    """The number of atoms, the step and the direction of a session, and the step and direction of each branch."""

    atoms: int
    step: int = 0
    way: int = 1
    saved: Dict[bytes, Tuple[int, int]] = field(default_factory=dict)


class Account:
    """The sessions of a user with the usual quota. Each command returns the possible forms of its reply; `change` is made if
    the reply is OK."""

    def __init__(self) -> None:
        self.sessions: Dict[bytes, Session] = {}
        self.change: Optional[Callable[[bytes], None]] = None

    def reply_to(self, words: Sequence[bytes]) -> bytes:
        """The form of the reply to a line of these words."""
        self.change = None
        if not words:
            return refusal(3)
        if words[0] not in COMMANDS:
            return refusal(6)
        for shapes in COMMANDS[words[0]]:
            if len(shapes) == len(words) - 1 and all(map(has_shape, shapes, words[1:])):
                forms = self.forms(*words)
                told = [refusal(form) if isinstance(form, int) else b"OK " + words[0] + form + rb"\n" for form in forms]
                return b"(?:" + b"|".join(told) + b")"
        return refusal(3)

    def is_told(self, reply: bytes) -> None:
        if self.change and reply.startswith(b"OK "):
            self.change(reply)

    def forms(self, command: bytes, name: Optional[bytes] = None, *words: bytes) -> List[Form]:
        if command == b"BYE":
            return [b""]
        if name is None:
            rows = [rb"\n%s %d %d %d" % (key, one.step, one.atoms, len(one.saved)) for key, one in self.sessions.items()]
            return [b" %d" % len(rows) + b"".join(rows)]
        if command == b"LOAD":
            return self.load(name)
        if name not in self.sessions:
            return [10]
        forms: List[Form] = getattr(self, command.decode().lower())(name, self.sessions[name], *words)
        return forms

    def load(self, name: bytes) -> List[Form]:
        if name in self.sessions or len(self.sessions) == MOST_SESSIONS:
            return [11 if name in self.sessions else 20]
        self.change = lambda reply: self.enter(name, int(reply.split()[4]))
        return [b" %s 0 [1-9][0-9]*" % name, 36, 37, 38, *XYZ_FAULTS, 21, 90]

    def enter(self, name: bytes, atoms: int) -> None:
        self.sessions[name] = Session(atoms)
        if sum(one.atoms for one in self.sessions.values()) > MOST_ATOMS:
            raise Fault("more atoms than the quota has")

    def advance(self, name: bytes, one: Session, steps: bytes) -> List[Form]:
        step = one.step + one.way * int(steps)
        if int(steps) > 10**6 or abs(step) > 10**12:
            return [23]
        one.step = step
        return [b" %s %d" % (name, step)]

    start = advance

    def reverse(self, name: bytes, one: Session) -> List[Form]:
        one.step, one.way = one.step - one.way, -one.way
        return [b" %s %d" % (name, one.step)]

    def branch(self, name: bytes, one: Session, saved: bytes) -> List[Form]:
        if saved in one.saved:
            return [13]
        if sum(len(any_one.saved) for any_one in self.sessions.values()) == MOST_SAVED:
            return [22]
        self.change = lambda _: one.saved.update({saved: (one.step, one.way)})
        return [b" %s %s %d" % (name, saved, one.step), 90]

    def restore(self, name: bytes, one: Session, saved: bytes) -> List[Form]:
        if saved not in one.saved:
            return [12]
        one.step, one.way = one.saved[saved]
        return [b" %s %s %d" % (name, saved, one.step)]

    def forget(self, name: bytes, one: Session, saved: bytes) -> List[Form]:
        return [b" %s %s" % (name, saved)] if one.saved.pop(saved, None) else [12]

    def tug(self, name: bytes, one: Session, atom: bytes, *_: bytes) -> List[Form]:
        return [b" %s %d %d" % (name, int(atom), one.step)] if int(atom) < one.atoms else [14]

    def measure(self, name: bytes, one: Session) -> List[Form]:
        return [b" %s %d %d" % (name, one.step, one.atoms) + (b" " + FIGURE) * 5]

    def show(self, name: bytes, one: Session, atom: bytes) -> List[Form]:
        return [b" %s %d %d" % (name, one.step, int(atom)) + b" [0-9]{1,10}" * 3] if int(atom) < one.atoms else [14]

    def dump(self, name: bytes, one: Session) -> List[Form]:
        head = rb" %s %d %d\n%d\nstep %d" % (name, one.step, one.atoms + 2, one.atoms, one.step)
        return [head + b"(?:%s){%d}" % (ATOM_LINE, one.atoms)]

    def list(self, name: bytes, one: Session) -> List[Form]:
        rows = [rb"\n%s %d" % (saved, step) for saved, (step, _) in one.saved.items()]
        return [b" %s %d" % (name, len(rows)) + b"".join(rows)]

    def drop(self, name: bytes, _: Session) -> List[Form]:
        del self.sessions[name]
        return [b" " + name]
