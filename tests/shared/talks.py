"""Commands to one session with the replies of the reference, as a stream, and as a schedule that counts tiles.

A schedule has two users. A talks, and B asks for a list after each result that A has taken in. So there are as many
replies to B before A's reply as A's step has tiles.
"""
import random
from dataclasses import dataclass
from typing import Iterable, Iterator, List, Sequence, Tuple

from reference import RING, Class, Frame, Place, Session, User, performed, words_of
from schedule_tables.runs import user_line
from shared.program import USUAL

NANO = 10**9
# With this edge, a unit of the ring is a billionth, so that each place is a decimal number.
EDGE = f"{RING // NANO}.{RING % NANO:09}"

# The symbol of each species, and the usual strength and weight of a class. This is the weight of one species alone.
SYMBOLS = ("X", "Yy")
USUAL_STRENGTH, USUAL_WEIGHT = 131_072, 256

USERS = (("A", (8, 65536, 16)), ("B", (1, 1, 1)))
TICK = "arrive 2 LIST\nnext 2\n"
TOLD_BY_TICK = "B 2 OK LIST 0\n"
WORKERS = 16


def billionths(units: int) -> str:
    return f"{units // NANO}.{units % NANO:09}"


def text_of(frame: Frame, species: Sequence[int]) -> str:
    """A frame as XYZ text, in a box of EDGE."""
    atoms = zip(species, frame)
    lines = (f"{SYMBOLS[kind]} {billionths(x)} {billionths(y)} {billionths(z)}\n" for kind, (x, y, z) in atoms)
    return f"{len(frame)}\nframe\n{''.join(lines)}"


def load_line(name: str, scale_words: str, mode: str, body: str, verb: str = "LOAD") -> str:
    return f"{verb} {name} {scale_words} {mode} {len(body)}\n{body}"


@dataclass(frozen=True)
class Exchange:
    """An item, its reply, and whether it runs by tiles."""

    item: str
    reply: str
    runs: bool = False


class Talk:
    """The commands to a session `a`, and the replies of the reference."""

    def __init__(self, load: str) -> None:
        self.user = User(USUAL)
        self.exchanges: List[Exchange] = []
        self.ask(load)

    @staticmethod
    def of_frames(before: Frame, present: Frame, species: Sequence[int], scale_words: str, verb: str) -> "Talk":
        """A talk of atoms in a box of EDGE. The species of each atom is 0 or 1."""
        mode, frames = ("rest", [present]) if before == present else ("pair", [before, present])
        body = "".join(text_of(frame, species) for frame in frames)
        return Talk(load_line("a", f"{EDGE} {scale_words}", mode, body, verb))

    @staticmethod
    def of_one(before: Frame, present: Frame, sigma: int, strength: int = USUAL_STRENGTH) -> "Talk":
        """A talk of atoms of one species."""
        return Talk.of_frames(before, present, [0] * len(present), f"{billionths(sigma)} {strength}", "LOAD")

    @staticmethod
    def of_two(before: Frame, present: Frame, classes: Sequence[Class], species: Sequence[int]) -> "Talk":
        """A talk of atoms of two species, with these classes."""
        words = [*SYMBOLS, *(f"{billionths(each.sigma)} {each.strength} {each.weight}" for each in classes)]
        return Talk.of_frames(before, present, species, " ".join(words), "LOADMIX")

    @property
    def session(self) -> Session:
        return self.user.sessions["a"]

    def ask(self, item: str, runs: bool = False) -> None:
        line, _, body = item.partition("\n")
        reply = performed(self.user, words_of(line.encode()), body.encode(), "03 SYNTAX")
        self.exchanges.append(Exchange(f"{line}\n{body}", f"OK {reply}\n", runs))

    def advance(self, steps: int) -> None:
        self.ask(f"ADVANCE a {steps}", steps > 0)

    def reverse(self) -> None:
        self.ask("REVERSE a")

    def tug(self, atom: int, displacement: Place) -> None:
        self.ask(f"TUG a {atom} {' '.join(map(str, displacement))}")

    def branch(self, name: str) -> None:
        self.ask(f"BRANCH a {name}")

    def restore(self, name: str) -> None:
        self.ask(f"RESTORE a {name}")

    def show(self, atom: int) -> None:
        self.ask(f"SHOW a {atom}")

    def show_all(self) -> None:
        for atom in range(len(self.session.symbols)):
            self.show(atom)

    def measure(self) -> None:
        self.ask("MEASURE a", True)

    def stream(self) -> bytes:
        return "".join(each.item for each in self.exchanges).encode()

    def replies(self) -> bytes:
        return "".join(each.reply for each in self.exchanges).encode()


def told_to_a(reply: str) -> str:
    return "".join(f"A 1 {line}\n" for line in reply.splitlines())


def greeting() -> str:
    users = "".join(map(user_line, USERS))
    return users + "".join(f"hello {c} {n} {n * 32}\nenter {c}\n" for c, n in ((1, "A"), (2, "B")))


def one_by_one(rounds: int) -> str:
    """`rounds` tasks, each taken in before the next one is posted. A's command is turned as soon as possible."""
    one = f"post 1\ntake 1 0\ncompute 1\ngive 1\nfetch 1 0\n{TICK}turn 1\n"
    return "turn 1\n" + one * rounds


def by_chance(rounds: int, dice: random.Random) -> str:
    """Up to 16 tasks, all posted and taken, whose results are given and fetched in random order."""
    workers = list(range(1, rounds + 1))
    lines = ["turn 1\n", "post 1\n" * rounds]
    for event in ("take", "compute", "give"):
        dice.shuffle(workers)
        lines += [f"{event} {w}{f' {dice.randrange(WORKERS)}' if event == 'take' else ''}\n" for w in workers]
    lines += [f"fetch 1 {dice.randrange(WORKERS)}\n{TICK}turn 1\n" for _ in workers]
    return "".join(lines)


def schedule_of(exchanges: Iterable[Exchange], tasks: Iterator[str]) -> bytes:
    """The schedule in which A sends these items. Each item that runs is followed by the next of `tasks`."""
    lines = [greeting()]
    for each in exchanges:
        lines.append(f"arrive 1 {each.item}next 1\n")
        if each.runs:
            lines.append(next(tasks))
    return "".join(lines).encode()


def lines_that_run(exchanges: Iterable[Exchange]) -> List[bool]:
    """For each line of the replies, whether its item runs by tiles."""
    return [each.runs for each in exchanges for _ in each.reply.splitlines()]


def tiles_of(printed: str, runs: Sequence[bool], rounds: int) -> Tuple[List[int], str]:
    """The number of tiles of each item that runs, and the replies to A, from the output of that schedule.

    Each item that runs has `rounds` rounds. B asks after each of them.
    """
    tiles: List[int] = []
    told, ticks = "", 0
    waiting = iter(runs)
    for line in printed.splitlines(True):
        if line == TOLD_BY_TICK:
            ticks += 1
            continue
        told += line
        if next(waiting, False):
            tiles.append(ticks - rounds * len(tiles))
    return tiles, told
