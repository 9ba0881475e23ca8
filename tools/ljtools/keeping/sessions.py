"""A user's sessions: the state of each, and the commands that read one and load it exactly at another server.

A LOAD begins at step 0, so a session that was put back has an offset, and so has each of its branches: its step minus the server's.
The offset is added to the steps in replies, as if no server had ended.

A generator (`Task`) asks a server: it yields some items at a time, and receives their replies.
"""
import re
from array import array
from dataclasses import dataclass, field, replace
from itertools import islice
from typing import Callable, Dict, Generator, Iterable, Iterator, List, NamedTuple, Optional, Sequence, TypeVar

from .items import LOADS, Item, Told, Words, words_of
from .store import Part

RING, HALF = 2**32, 2**31
MAX_STEP = 10**12
MAX_STEPS = 1_000_000
# No session gets from here to MAX_STEP between two checks.
NEAR_MAX_STEP = MAX_STEP - 10**11
BURST = 500
# Sizes of pieces of an ADVANCE: the first in steps times atoms, the largest in steps.
FIRST_PIECE = 100_000
MAX_PIECE = MAX_STEPS
MAX_ATOMS = 4096
KEPT = frozenset((*LOADS, *b"ADVANCE START REVERSE BRANCH RESTORE FORGET TUG DROP".split()))
# Index of the word of a reply that is a step. All but START are answered when the session has no pending steps.
STEP_AT = dict.fromkeys(b"ADVANCE START REVERSE MEASURE SHOW DUMP".split(), 3) | dict.fromkeys(b"BRANCH RESTORE TUG".split(), 4)
NO_MEMORY = b"ERR 90 MEMORY\n"
LOADED = re.compile(rb"OK (?:LOAD|LOADMIX) (\S{1,16}) 0 ([0-9]{1,4})\n")
DECIMAL = re.compile(rb"([+-]?)([0-9]*)\.?([0-9]*)(?:[eEdD]([+-]?[0-9]{1,3}))?")
Told_T = TypeVar("Told_T")
Task = Generator[List[bytes], List[bytes], Told_T]


class Otherwise(Exception):
    """A program's reply does not follow from the commands."""


class NoMemory(Otherwise):
    """A server has no memory for what is put back."""


def shown(reply: bytes) -> str:
    """The first line of a reply for a terminal and a log, with escapes for bytes that are not printable."""
    return re.sub(rb"[^ -~]", lambda other: b"\\x%02x" % other[0][0], reply.partition(b"\n")[0]).decode("ascii")


@dataclass
class Place:
    """The step and direction of a simulation, and the offset of its step from the server's."""

    step: int = 0
    direction: int = 1
    offset: int = 0

    def is_near_an_end(self) -> bool:
        return abs(self.step) > NEAR_MAX_STEP


@dataclass
class Branch:
    """A branch that was saved by record `id`."""

    id: int
    place: Place


@dataclass
class Session:
    """A session that was loaded by record `id`, with a line equivalent to `text`."""

    id: int
    name: bytes
    text: bytes
    atoms: int
    place: Place = field(default_factory=Place)
    branches: Dict[bytes, Branch] = field(default_factory=dict)
    has_pending: bool = False
    is_moved: bool = True
    most_steps: int = 0  # steps in about a second

    def __post_init__(self) -> None:
        self.most_steps = most_at_first(self.atoms)

    def hear(self, words: Words, reply: bytes, number: int) -> bytes:
        """Applies a command whose reply is OK. Returns the reply with its true step. Raises `Otherwise`."""
        verb, at = words[0], STEP_AT.get(words[0])
        if at and verb != b"START":
            self.has_pending = False
        if verb in KEPT:
            self._do(verb, words[2:], number)
            if at:
                reply = with_step(reply, at, self.place.offset) if self.place.offset else reply
                named = words[2:3] if verb in (b"BRANCH", b"RESTORE") else (b"%d" % int(words[2]),) if verb == b"TUG" else ()
                if reply != (follows := b" ".join((b"OK", verb, self.name, *named, b"%d\n" % self.place.step))):
                    raise Otherwise(f"{shown(reply)} in place of {shown(follows)}")
        elif verb == b"LIST":
            return with_steps(reply, {name: branch.place for name, branch in self.branches.items()})
        elif at and self.place.offset:
            return with_step(reply, at, self.place.offset)
        return reply

    def _do(self, verb: bytes, others: Sequence[bytes], number: int) -> None:
        self.is_moved = self.is_moved or verb in STEP_AT and verb != b"BRANCH"
        if verb in (b"ADVANCE", b"START"):
            self.place.step += self.place.direction * int(others[0])
            self.has_pending = verb == b"START"
        elif verb in LOADS:
            raise Otherwise(f"OK {verb.decode()} of a session that is there")
        elif verb == b"REVERSE":
            self.place.step -= self.place.direction
            self.place.direction = -self.place.direction
        elif verb == b"BRANCH":
            self.branches[others[0]] = Branch(number, replace(self.place))
        elif verb in (b"RESTORE", b"FORGET"):
            if others[0] not in self.branches:
                raise Otherwise(f"OK {verb.decode()} of what is not saved")
            if verb == b"RESTORE":
                self.place = replace(self.branches[others[0]].place)
            else:
                del self.branches[others[0]]

    def places(self) -> List[Place]:
        return [self.place, *(branch.place for branch in self.branches.values())]


def with_step(reply: bytes, at: int, offset: int) -> bytes:
    """A reply with `offset` added to its step: word `at`, and line 3 of a DUMP."""
    words = reply.split(b" ", at + 1)
    step = int(words[at]) + offset
    words[at] = b"%d" % step if len(words) > at + 1 else b"%d\n" % step
    reply = b" ".join(words)
    if words[1] == b"DUMP":
        first, count, _, rows = reply.split(b"\n", 3)
        reply = b"%s\n%s\nstep %d\n%s" % (first, count, step, rows)
    return reply


def with_steps(reply: bytes, places: Dict[bytes, Place]) -> bytes:
    """The reply to a LIST with the true step as the second word of each line after the first."""
    if not any(place.offset for place in places.values()):
        return reply
    first, *lines = reply[:-1].split(b"\n")
    rows = [line.split(b" ") for line in lines]
    if [row[0] for row in rows] != [*places]:
        raise Otherwise(f"{shown(reply)} with other names")
    texts = [b" ".join([row[0], b"%d" % (int(row[1]) + places[row[0]].offset), *row[2:]]) for row in rows]
    return b"\n".join([first, *texts, b""])


class Sessions:
    """A user's sessions by their names, in the order of loading."""

    def __init__(self, parts: Iterable[Part] = ()):
        """Sessions of parts, sorted by number, which no server has yet."""
        self.by_name: Dict[bytes, Session] = {}
        by_id: Dict[int, Session] = {}
        for part in parts:
            place = Place(part.step, part.direction)
            if part.session:
                by_id[part.session].branches[part.text] = Branch(part.id, place)
            else:
                name, atoms = part.text.split()[1], int(part.measured.split()[0])
                by_id[part.id] = self.by_name[name] = Session(part.id, name, part.text, atoms, place, is_moved=False)

    def hear(self, words: Words, reply: bytes, number: int) -> bytes:
        """Applies a command, which is record `number` if it is kept. Returns the reply with its true steps. Raises `Otherwise` if it
        cannot be the reply."""
        if not words or reply[:3] != b"OK ":
            return reply
        if len(words) > 1 and (session := self.by_name.get(words[1])) is not None:
            reply = session.hear(words, reply, number)
            if words[0] == b"DROP":
                del self.by_name[words[1]]
        elif words[0] in LOADS:
            self._load(words, reply, number)
        elif len(words) > 1:
            raise Otherwise(f"{shown(reply)} of a session that is not there")
        elif words[0] == b"LIST":
            reply = with_steps(reply, {name: session.place for name, session in self.by_name.items()})
        return reply

    def _load(self, words: Words, reply: bytes, number: int) -> None:
        found = LOADED.fullmatch(reply)
        if not found or found[1] != words[1] or words[1] in self.by_name:
            raise Otherwise(f"{shown(reply)} to a load of {shown(words[1])}")
        self.by_name[words[1]] = Session(number, words[1], text_of(words), int(found[2]))

    def ids(self) -> List[int]:
        """The numbers of all sessions and branches."""
        sessions = self.by_name.values()
        return [session.id for session in sessions] + [branch.id for session in sessions for branch in session.branches.values()]

    def have_pending(self) -> bool:
        return any(session.has_pending for session in self.by_name.values())

    def are_near_an_end(self) -> bool:
        """Whether some step is near an end of the range of steps, which the server would find at another step."""
        return any(place.is_near_an_end() for session in self.by_name.values() for place in session.places())

    def refusal(self, words: Words) -> bytes:
        """The reply to a command that would leave the range of steps, which the server does not detect."""
        session = self.by_name.get(words[1]) if len(words) == 3 and words[0] in (b"ADVANCE", b"START") else None
        if session is None or not words[2].isdigit() or not 0 < len(words[2]) < 20:
            return b""
        is_beyond = abs(session.place.step + session.place.direction * int(words[2])) > MAX_STEP
        return b"ERR 23 STEP_RANGE\n" if is_beyond else b""


def most_at_first(atoms: int) -> int:
    return max(1, FIRST_PIECE // atoms)


@dataclass
class Long:
    """An ADVANCE that is done in pieces, with the steps left now and the steps left at the snapshot."""

    name: bytes
    left: int
    left_at_snapshot: int
    piece: Item = Item(b"", ())
    since: float = 0.0

    @classmethod
    def of(cls, item: Item, sessions: Sessions) -> "Optional[Long]":
        """The `Long` of an item that takes long, else None."""
        if len(item.words) != 3 or not 1 < len(item.words[2]) < 20 or not item.words[2].isdigit():
            return None
        session, steps = sessions.by_name.get(item.words[1]), int(item.words[2])
        is_long = (session.most_steps if session else most_at_first(MAX_ATOMS)) < steps <= MAX_STEPS
        return cls(item.words[1], steps, steps) if is_long else None

    def item(self, steps: int) -> Item:
        """An ADVANCE of the same session."""
        return Item(b"ADVANCE %s %d\n" % (self.name, steps), (b"ADVANCE", self.name, b"%d" % steps))

    def next_piece(self, sessions: Sessions, now: float) -> Item:
        session = sessions.by_name.get(self.name)
        self.piece, self.since = self.item(min(self.left, session.most_steps if session else most_at_first(MAX_ATOMS))), now
        return self.piece

    def hear(self, session: Session, now: float) -> bool:
        """Notes that a piece is done. Returns whether it was the last one."""
        steps = int(self.piece.words[2])
        session.most_steps = max(1, min(8 * steps, int(steps / max(now - self.since, 1e-6)), MAX_PIECE))
        self.left -= steps
        return not self.left


# Numbers and lines of loads.


def nano_of(word: bytes) -> int:
    """A decimal number that the server accepted, in billionths. Halves are rounded away from zero."""
    found = DECIMAL.fullmatch(word)
    assert found is not None
    sign, whole, fraction, power = found.groups()
    exponent = int(power or 0)
    numerator = int(whole + fraction) * 10 ** (9 + max(exponent, 0))
    denominator = 10 ** (len(fraction) + max(-exponent, 0))
    size: int = (2 * numerator + denominator) // (2 * denominator)
    return -size if sign == b"-" else size


def text_of(words: Words) -> bytes:
    """The line of a load of two frames with the same numbers, in a short spelling, without its count."""
    verb, name, edge, *others = words[:-2]
    symbols = others[: 2 * (verb == b"LOADMIX")]
    numbers = others[len(symbols) :]
    is_length = [at % 3 == 0 for at in range(len(numbers))]
    spelled = [b"%de-9" % nano_of(word) if is_one else b"%d" % int(word) for word, is_one in zip(numbers, is_length)]
    return b" ".join([verb, name, b"%de-9" % nano_of(edge), *symbols, *spelled, b"pair"])


# Requests to a server.


class Frames(NamedTuple):
    """Both frames of a simulation, as three coordinates per atom, and its direction."""

    before: "array[int]"
    now: "array[int]"
    direction: int

    @classmethod
    def of_part(cls, part: Part) -> "Frames":
        half = len(part.frames) // 2
        return cls(array("I", part.frames[:half]), array("I", part.frames[half:]), part.direction)


def asked(items: List[bytes]) -> Task[List[bytes]]:
    """The replies to items that must not be refused."""
    replies = yield items
    for item, reply in zip(items, replies):
        if not reply.startswith(b"OK "):
            raise (NoMemory if reply == NO_MEMORY else Otherwise)(f"{shown(reply)} to {shown(item)}")
    return replies


def done(items: Iterable[bytes]) -> Task[None]:
    """Sends items in bursts."""
    rest = iter(items)
    while burst := [*islice(rest, BURST)]:
        yield from asked(burst)


def places_of(session: Session) -> Task["array[int]"]:
    """The places of all atoms in the present frame."""
    places = array("I", bytes(12 * session.atoms))
    for first in range(0, session.atoms, BURST):
        end = min(first + BURST, session.atoms)
        replies = yield from asked([b"SHOW %s %d\n" % (session.name, atom) for atom in range(first, end)])
        words = b"".join(replies).split()
        for axis in range(3):
            places[3 * first + axis : 3 * end : 3] = array("I", map(int, words[5 + axis :: 8]))
    return places


def frames_of(session: Session, direction: int) -> Task[Frames]:
    """Both frames at the server, which are the same afterwards."""
    now = yield from places_of(session)
    yield from asked([b"REVERSE %s\n" % session.name])
    before = yield from places_of(session)
    yield from asked([b"REVERSE %s\n" % session.name])
    return Frames(before, now, direction)


def measured(session: Session) -> Task[bytes]:
    """The words of MEASURE after the step. The step sets the offset: a server that loaded the session again counts from 0."""
    (reply,) = yield from asked([b"MEASURE %s\n" % session.name])
    _, _, _, step, *others = reply.split()
    session.place.offset = session.place.step - int(step)
    return b" ".join(others)


def unless_measured(session: Session, told: bytes) -> Task[None]:
    """Raises `Otherwise` unless MEASURE replies `told`."""
    found = yield from measured(session)
    if found != told:
        raise Otherwise(f"MEASURE {shown(session.name)} {shown(found)} in place of {shown(told)}")


def tugs(name: bytes, have: "array[int]", want: "array[int]") -> Iterator[bytes]:
    """The TUGs that change the previous frame to `want`."""
    for at in range(0, len(have), 3):
        if have[at : at + 3] != want[at : at + 3]:
            x, y, z = ((one - other + HALF) % RING - HALF for one, other in zip(have[at : at + 3], want[at : at + 3]))
            yield b"TUG %s %d %d %d %d\n" % (name, at // 3, x, y, z)


def moves(name: bytes, have: Frames, want: Frames) -> Iterator[bytes]:
    """The commands that change frames `have` to `want`. REVERSE swaps both frames, and TUG changes the previous one."""
    turn = b"REVERSE %s\n" % name
    if have.direction != want.direction:
        yield from tugs(name, have.before, want.now)
        yield turn
        yield from tugs(name, have.now, want.before)
        return
    yield from tugs(name, have.before, want.before)
    if have.now != want.now:
        yield turn
        yield from tugs(name, have.now, want.now)
        yield turn


def load_of(part: Part, want: Frames) -> "tuple[bytes, Frames]":
    """A load of these frames, and the frames it gives: approximate in a small box, where a billionth exceeds a ring unit."""
    edge = int(part.text.split()[2][: -len(b"e-9")])
    symbols = part.symbols.split()
    texts, landed = [], []
    for places in (want.before, want.now) if want.direction > 0 else (want.now, want.before):
        nanos = [(place * edge + RING - 1) >> 32 for place in places]
        landed.append(array("I", [nano * RING // edge % RING for nano in nanos]) if edge < RING else places)
        texts.append(b"%d\nc\n" % len(symbols))
        for symbol, x, y, z in zip(symbols, nanos[::3], nanos[1::3], nanos[2::3]):
            texts.append(b"%s %de-9 %de-9 %de-9\n" % (symbol, x, y, z))
    body = b"".join(texts)
    return b"%s %d\n%s" % (part.text, len(body), body), Frames(landed[0], landed[1], 1)


def put_back(session: Session, part_of: Callable[[int], Part]) -> Task[None]:
    """Puts a session and its branches back at a new server, as they were."""
    part = part_of(session.id)
    present = Frames.of_part(part)
    branches = [*session.branches.items()]
    wanted = [*(Frames.of_part(part_of(branch.id)) for _, branch in branches[:1]), present]
    item, have = load_of(part, wanted[0])
    yield from asked([item])
    for name, branch in branches:
        want = Frames.of_part(part_of(branch.id))
        yield from done(moves(session.name, have, want))
        (reply,) = yield from asked([b"BRANCH %s %s\n" % (session.name, name)])
        branch.place.offset = branch.place.step - int(reply.split()[4])
        have = want
    yield from done(moves(session.name, have, present))
    yield from unless_measured(session, part.measured)


def drop_all() -> Task[None]:
    """Drops all sessions of the user at a server."""
    (listed,) = yield from asked([b"LIST\n"])
    yield from done(b"DROP %s\n" % row.partition(b" ")[0] for row in listed.split(b"\n")[1:-1])


def read(session: Session, stored: int) -> Task[List[Part]]:
    """A session, and its branches that were saved after record `stored`: a branch does not change once it is saved."""
    (dump,) = yield from asked([b"DUMP %s\n" % session.name])
    symbols = b" ".join(row.partition(b" ")[0] for row in dump.split(b"\n")[3:-1])
    told = yield from measured(session)
    have = present = yield from frames_of(session, session.place.direction)
    parts = [part_at(session.id, 0, session.text, session.place, present)._replace(measured=told, symbols=symbols)]
    for name, branch in session.branches.items():
        if branch.id > stored:
            yield from asked([b"RESTORE %s %s\n" % (session.name, name)])
            have = yield from frames_of(session, branch.place.direction)
            parts.append(part_at(branch.id, session.id, name, branch.place, have))
    if have is not present:
        yield from done(moves(session.name, have, present))
        yield from unless_measured(session, told)
    return parts


def part_at(id: int, session: int, text: bytes, place: Place, frames: Frames) -> Part:
    data = frames.before.tobytes() + frames.now.tobytes()
    return Part(id, session, text, place.step, place.direction, b"", b"", data)


def read_all(sessions: Sessions, stored: int) -> Task[List[Part]]:
    """All that has changed since record `stored`."""
    parts: List[Part] = []
    for session in sessions.by_name.values():
        if session.is_moved or any(branch.id > stored for branch in session.branches.values()):
            parts += yield from read(session, stored)
            session.is_moved = False
    return parts


def tell_again(sessions: Sessions, records: Sequence[Told], number: int) -> Task[None]:
    """Sends a server the records after record `number`. ADVANCE is sent as START, so that all sessions advance at once, and is then
    waited for."""
    is_waited_for: Dict[bytes, bool] = {}
    for first in range(0, len(records), BURST):
        told = [as_start(record) for record in records[first : first + BURST]]
        replies = yield [record.item for record in told]
        for at, (record, reply) in enumerate(zip(told, replies), first):
            words = words_of(record.item.partition(b"\n")[0])
            found = sessions.hear(words, reply, number + at + 1)
            if found != record.reply:
                text = f"{shown(found)} in place of {shown(record.reply)}, when told again"
                raise (NoMemory if found == NO_MEMORY else Otherwise)(text)
            if words[0] == b"START":
                is_waited_for[words[1]] = record is not records[at]
    yield from wait_for(session for session in sessions.by_name.values() if is_waited_for.get(session.name))


def wait_for(sessions: Iterable[Session]) -> Task[None]:
    """Waits until sessions have no pending steps."""
    for session in sessions:
        if session.has_pending:
            yield from asked([b"MEASURE %s\n" % session.name])
            session.has_pending = False


def as_start(record: Told) -> Told:
    if not record.reply.startswith(b"OK ADVANCE"):
        return record
    return Told(record.item.replace(b"ADVANCE", b"START", 1), record.reply.replace(b"ADVANCE", b"START", 1))
