"""Random streams of commands: most lines are valid, some have faults, and some streams are changed at random bytes."""
import random
import re
from typing import Callable, Dict, List, Tuple

from playing import Quota, Stream, referred

QUOTAS: List[Quota] = [(8, 16384, 16), (2, 20, 3), (3, 200, 2), (1, 1, 1), (2, 5, 0), (0, 0, 0)]
NAMES = ("a", "b", "c_-9")
STRANGE_WORDS = (
    "", "z", "a.b", "-1", "+1", "00000000000000000001", "0000000000000000001", "1e3", "1.", ".", "1000001", "9999999999999999999",
    "x" * 16, "x" * 17, "2147483647", "2147483648", "-2147483648", "-2147483649", "-", "1\r", "\xe9", "rest", "256", "1d0", "1e999",
    "1e-999", "NaN",
)  # fmt: skip
# The most steps of a command, for few and for many atoms, so that no stream takes long.
MOST_STEPS, MOST_OF_MANY = 25, 2


class Chance:
    """One random stream, which its seed determines."""

    def __init__(self, seed: str) -> None:
        self.rnd = random.Random(seed)
        self.there: List[str] = []
        self.quota = self.rnd.choices(QUOTAS, (6, 4, 4, 1, 1, 0.3))[0]
        self.most_atoms = self.rnd.choices((5, 12, 67, 130), (60, 30, 4, 1))[0]
        self.weights: Dict[Callable[[], str], float] = {
            self.load: 3, self.load_mix: 2, self.advance: 6, self.tug: 3, self.measure: 4, self.show: 3, self.dump: 2, self.reverse: 2,
            self.branch: 3, self.restore: 3, self.forget: 1, self.list: 2, self.drop: 0.7, self.strange: 1,
        }  # fmt: skip

    def stream(self, name: str) -> Stream:
        rnd = self.rnd
        items = [self.first_load()]
        items += [kind() for kind in rnd.choices([*self.weights], [*self.weights.values()], k=rnd.choice((3, 10, 25)))]
        sent = "".join(items).encode("latin-1") + rnd.choice((b"", b"BYE\n", b"LIST", b"LOAD\n", b"LOAD q 1 1 1 rest 9\n1\n"))
        for _ in range(rnd.choice((0, 0, 0, 0, 1, 2, 6))):
            sent = rnd.choice(CHANGES)(rnd, sent)
        sent = bounded(sent, MOST_STEPS if self.most_atoms < 20 else MOST_OF_MANY)
        return Stream(name, sent, referred(sent, self.quota), self.quota)

    def first_load(self) -> str:
        """A load that the quota allows, if one is found in nine tries."""
        for _ in range(9):
            self.there = []
            text = self.rnd.choice((self.load, self.load_mix))()
            if referred(text.encode("latin-1"), self.quota).startswith(b"OK"):
                break
        return text

    def line(self, *words: object) -> str:
        """A line of these words. Sometimes one of them is replaced, left out or repeated."""
        texts = [str(word) for word in words]
        if self.rnd.random() < 0.04:
            at = self.rnd.randrange(len(texts))
            others: List[List[str]] = [[], [texts[at]] * 2, [self.rnd.choice(STRANGE_WORDS)], [texts[at].lower()]]
            texts[at : at + 1] = self.rnd.choice(others)
        blank, end = (" ", "\n") if self.rnd.random() < 0.9 else self.rnd.choice(((" \t ", "\n"), ("\t", " \r\n"), (" ", "\r\n")))
        return blank.join(texts) + end

    def name(self) -> str:
        """Mostly the name of an existing session."""
        return self.rnd.choice(self.there if self.there and self.rnd.random() < 0.95 else NAMES)

    def new_name(self) -> str:
        """Mostly a name that no session has."""
        name = self.rnd.choice([name for name in NAMES if name not in self.there or self.rnd.random() < 0.1] or NAMES)
        self.there = [*self.there, name][-3:]
        return name

    def saved(self) -> str:
        return self.rnd.choice(("k", "k", "m"))

    def atom(self) -> str:
        number = self.rnd.choice((0, 0, 1, 2, self.rnd.randrange(self.most_atoms + 1)))
        return f"{number:0{self.rnd.choice((1, 1, 1, 4))}}"

    def number(self, size: float) -> str:
        """A decimal number of about this size, written in one of many ways."""
        in_fortran = f"{size:.7E}".replace("E", "D"), f"{size * 100:.2f}d-2"
        forms = (f"{size:.9f}", f"{size:.3f}", f"{size:+.12f}", f"{size:.6e}", *in_fortran, f"{size:.1f}")
        text = self.rnd.choices(forms, (6, 2, 2, 2, 2, 1, 0.3))[0]
        return re.sub(r"\b0\.(?=\d)", ".", text) if self.rnd.random() < 0.2 else text

    def scale(self) -> Tuple[float, float]:
        """An edge and a sigma: mostly in reduced units, for boxes from the smallest to the largest."""
        sigma = self.rnd.choice((1.0, 1.0, 1.0, 3.4, 10 ** self.rnd.uniform(-2, 4)))
        if self.rnd.random() < 0.03:
            return 5.0, self.rnd.choice((1.0, 1.000000001, 1.000000002))
        beyond, between = self.rnd.choice((4.99, 65000, 66000)), self.rnd.uniform(5.05, 9)
        ratio = self.rnd.choice((5.001, 5.5, 6.0, 7.0, 12.0, 256.0, between, beyond))
        return sigma * ratio, sigma

    def strength(self) -> int:
        return self.rnd.choice((131072, 131072, 1000, 1, 2**24, self.rnd.randrange(1, 2**20)))

    def body(self, sigma: float, symbols: str, frames: int) -> str:
        """Frames of atoms that are about sigma apart, inside or outside the box."""
        rnd = self.rnd
        count = rnd.choice((1, 2, rnd.randrange(1, 6), self.most_atoms))
        corner = [sigma * rnd.choice((0, -0.5, rnd.uniform(-20, 20))) for _ in range(3)]
        spots = [(number % 4, number // 4 % 4, number // 16) for number in range(count)]
        apart, end = rnd.choice((0.7, 1.0, 1.1, 1.3, 0)), rnd.choice(("\n", "\n", "\n", "\r\n"))
        texts = []
        for _ in range(frames):
            heads = [rnd.choice(("", "", " \t", "\n")) + str(count), rnd.choice(("", "c", "\xff 1 2"))]
            lines = heads if rnd.random() < 0.1 else [str(count), "c"]
            for spot in spots:
                moved = [sigma * (apart * part + rnd.gauss(0, 0.1 if frames < 2 else 0.001)) for part in spot]
                words = [rnd.choice(symbols), *(self.number(low + part) for low, part in zip(corner, moved))]
                lines.append(rnd.choice((" ", " ", "\t ")).join(words) + rnd.choice(("", "", " 1 #")))
            texts.append(end.join(lines) + end)
        return self.spoilt("".join(texts)) if rnd.random() < 0.08 else "".join(texts)

    def spoilt(self, body: str) -> str:
        """A body with one word replaced, without its end, or without its last line feed."""
        way = self.rnd.randrange(3)
        if way == 0:
            words = re.split(r"( |\n)", body)
            at = 2 * self.rnd.randrange((len(words) + 1) // 2)
            words[at] = self.rnd.choice(STRANGE_WORDS)
            return "".join(words)
        return body[: self.rnd.randrange(len(body))] if way == 1 else body[:-1]

    def loaded(self, verb: str, words: List[object], edge: float, sigma: float, symbols: str) -> str:
        mode = self.rnd.choice(("rest", "rest", "pair"))
        body = self.body(sigma, symbols, 2 if mode == "pair" else self.rnd.choice((1, 1, 2)))
        line = self.line(verb, self.new_name(), self.number(edge), *words, mode)
        return f"{line.rstrip()} {len(body):0{self.rnd.choices((1, 7, 8), (90, 5, 1))[0]}}\n{body}"

    def load(self) -> str:
        edge, sigma = self.scale()
        return self.loaded("LOAD", [self.number(sigma), self.strength()], edge, sigma, "XY")

    def load_mix(self) -> str:
        edge, sigma = self.scale()
        classes: List[object] = []
        for _ in range(3):
            weight = self.rnd.choice((256, 256, 1, 65536, self.rnd.randrange(1, 1000)))
            classes += [self.number(sigma * self.rnd.choice((1, 0.9, 0.8, 0.5, 1.1))), self.strength(), weight]
        if self.rnd.random() < 0.15:
            for at in self.rnd.choices(range(9), k=self.rnd.randrange(1, 4)):
                classes[at] = self.rnd.choice(("0", "-1", "16777217", "65537", "x"))
        words = [*self.rnd.choice((("X", "Y"), ("Y", "X"))), *classes]
        return self.loaded("LOADMIX", words, edge * 1.2, sigma, "XXXYY" + "Z" * (self.rnd.random() < 0.1))

    def advance(self) -> str:
        verb = self.rnd.choice(("ADVANCE", "ADVANCE", "START"))
        return self.line(verb, self.name(), self.rnd.choice((0, 1, 1, 2, self.rnd.randrange(MOST_STEPS))))

    def tug(self) -> str:
        """A small tug, a large one, or one at the limits, whose image is half the ring."""
        size = self.rnd.choice((5, 1000, 10**6, 2**31 - 1))
        limits = (-(2**31), -(2**31), 2**31 - 1, 0, 0, 2**31) if self.rnd.random() < 0.2 else (self.rnd.randint(-size, size), 0)
        return self.line("TUG", self.name(), self.atom(), *(self.rnd.choice(limits) for _ in range(3)))

    def measure(self) -> str:
        return self.line("MEASURE", self.name())

    def show(self) -> str:
        return self.line("SHOW", self.name(), self.atom())

    def dump(self) -> str:
        return self.line("DUMP", self.name())

    def reverse(self) -> str:
        return self.line("REVERSE", self.name())

    def branch(self) -> str:
        return self.line("BRANCH", self.name(), self.saved())

    def restore(self) -> str:
        return self.line("RESTORE", self.name(), self.saved())

    def forget(self) -> str:
        return self.line("FORGET", self.name(), self.saved())

    def list(self) -> str:
        return self.line("LIST", *self.rnd.choice(((), (self.name(),))))

    def drop(self) -> str:
        name = self.name()
        self.there = [each for each in self.there if each != name]
        return self.line("DROP", name)

    def strange(self) -> str:
        words = ("", " ", "\r", "bye", "HELLO a b", "LIST a b", "LOADX 5", "LOAD 3\nabc", "y" * 65_535)
        text = self.rnd.choice(words) if self.rnd.random() < 0.7 else "LIST".rjust(self.rnd.randrange(254, 259))
        return text + self.rnd.choice(("\n", "\r\n"))


def flip(rnd: random.Random, sent: bytes) -> bytes:
    """The stream with one bit flipped."""
    changed = bytearray(sent)
    changed[rnd.randrange(len(changed))] ^= 1 << rnd.randrange(8)
    return bytes(changed)


def put(rnd: random.Random, sent: bytes) -> bytes:
    at = rnd.randrange(len(sent))
    more = (b"\n", b" ", b"\r", b"-", b"9", b".", b"\nBYE\n", b"\0", b"LOAD ", b"x" * 300, b"x" * 65_535)
    return sent[:at] + rnd.choice(more) + sent[at:]


def leave_out(rnd: random.Random, sent: bytes) -> bytes:
    at = rnd.randrange(len(sent))
    return sent[:at] + sent[at + rnd.randrange(1, 20) :] or b"\n"


def repeat(rnd: random.Random, sent: bytes) -> bytes:
    at = rnd.randrange(len(sent))
    return sent[:at] + sent[at : at + rnd.randrange(1, 60)] * rnd.choice((2, 3)) + sent[at:]


CHANGES = (flip, flip, put, leave_out, repeat)


def bounded(sent: bytes, most: int) -> bytes:
    """The stream with fewer steps in a command, so that it does not take long. Refused numbers of steps stay."""

    def few(found: "re.Match[bytes]") -> bytes:
        return found[1] + (found[2] if not most < int(found[2]) <= 10**6 else b"%d" % (int(found[2]) % (most + 1)))

    return re.sub(rb"((?:ADVANCE|START)[ \t]+[^ \t]+[ \t]+)([0-9]+)", few, sent)
