"""Random items of a user, and items that ask for the state of the sessions."""
import random
from typing import Callable, List, Tuple, Union

from soaking.words import SESSIONS, words_of

ENDS = (b"LOAD", b"BYE")


class Speaker:
    """Makes the items of one user, each with its LF, and its body if it has one. None of them ends a connection."""

    def __init__(self, rnd: random.Random) -> None:
        self.rnd, self.made = rnd, 0
        self.saved: List[Tuple[bytes, bytes]] = []

    def items(self, mean: int) -> List[bytes]:
        count = min(int(self.rnd.expovariate(1 / mean)), 8 * mean) if mean else 0
        return [self.item() for _ in range(count)]

    def quiet_items(self, mean: int) -> List[bytes]:
        """Items that change nothing."""
        ways = [self.measure, self.show, self.list, self.dump, self.bad]
        return [self.rnd.choice(ways)() for _ in range(self.rnd.randrange(2 * mean))]

    def item(self) -> bytes:
        return self.rnd.choices(self.WAYS, self.WEIGHTS)[0](self)

    def session(self) -> bytes:
        return self.rnd.choices([*SESSIONS, b"none"], [40, 40, 10, 1])[0]

    def line(self, *parts: object) -> bytes:
        words = [part if isinstance(part, bytes) else str(part).encode() for part in parts]
        if self.rnd.random() < 0.05:
            blank = self.rnd.choice([b"  ", b"\t", b" \t "])
            return blank.join([b"", *words, b""]) + self.rnd.choice([b"\n", b"\r\n"])
        return b" ".join(words) + b"\n"

    def advance(self) -> bytes:
        steps = self.rnd.choices([self.rnd.randrange(6), 20, 200, 1000001, "0" * 18 + "1", 10**18, 10**19], [60, 10, 2, 2, 2, 1, 1])[0]
        return self.line(b"ADVANCE", self.session(), steps)

    def start(self) -> bytes:
        return self.line(b"START", self.session(), self.rnd.choices([self.rnd.randrange(6), 20, 1000001], [60, 10, 2])[0])

    def reverse(self) -> bytes:
        return self.line(b"REVERSE", self.session())

    def tug(self) -> bytes:
        atom = self.rnd.choice([0, 0, 1, 1, 1, 64, 4096, 10**18])
        far: List[Union[int, str]] = [self.rnd.randrange(-99999, 99999) for _ in range(3)]
        if self.rnd.random() < 0.2:
            strange: List[Union[int, str]] = [-(2**31), 2**31 - 1, 2**31, -(2**31) - 1, "-0", "--1", "+1"]
            far[self.rnd.randrange(3)] = self.rnd.choice(strange)
        return self.line(b"TUG", self.session(), atom, *far)

    def measure(self) -> bytes:
        return self.line(b"MEASURE", self.session())

    def show(self) -> bytes:
        return self.line(b"SHOW", self.session(), self.rnd.choice([0, 1, 2, 63, 64, 129, 130, 10**18]))

    def list(self) -> bytes:
        return self.line(b"LIST") if self.rnd.random() < 0.5 else self.line(b"LIST", self.session())

    def dump(self) -> bytes:
        return self.line(b"DUMP", self.session())

    def drop(self) -> bytes:
        return self.line(b"DROP", self.session())

    def branch(self) -> bytes:
        if self.saved and self.rnd.random() < 0.2:
            return self.line(b"BRANCH", *self.rnd.choice(self.saved))
        self.made += 1
        self.saved = self.saved[-5:] + [(self.session(), b"k%d" % self.made)]
        return self.line(b"BRANCH", *self.saved[-1])

    def restore(self) -> bytes:
        return self.line(b"RESTORE", *(self.rnd.choice(self.saved) if self.saved else (b"a", b"k")))

    def forget(self) -> bytes:
        if not self.saved:
            return self.line(b"FORGET", self.session(), b"k")
        return self.line(b"FORGET", *self.saved.pop(self.rnd.randrange(len(self.saved))))

    def frame(self, count: int) -> str:
        rows = (" ".join("%.3f" % self.rnd.uniform(0, 16) for _ in range(3)) for _ in range(count))
        return f"{count}\nrandom\n" + "".join(f"X {row}\n" for row in rows)

    def load(self) -> bytes:
        rnd = self.rnd
        count = rnd.choices([1, 2, 3, 9, 64, 65, 130], [10, 40, 20, 10, 5, 3, 2])[0]
        mode = rnd.choice(["rest", "rest", "pair"])
        text = self.frame(count) + (self.frame(count) if mode == "pair" else "")
        scale: Tuple[object, object, object] = 16, rnd.choice([1, 1, "1.5", "+.9e0"]), rnd.choice([1, 131072, 2**24])
        if rnd.random() < 0.25:
            text = self.worse_body(text)
        if rnd.random() < 0.1:
            bad = [(0, 1, 1), ("1e7", 1, 1), (16, 9, 1), (16, "x", 1), (16, 1, 0), (16, 1, 2**24 + 1)]
            scale = rnd.choice(bad)
        body = text.encode("latin-1")
        return self.line(b"LOAD", rnd.choices(SESSIONS, [4, 4, 1])[0], *scale, mode, len(body)) + body

    def worse_body(self, text: str) -> str:
        rnd = self.rnd
        ways: List[Callable[[], str]] = [
            lambda: "",
            lambda: text[: rnd.randrange(len(text))],
            lambda: text.replace("X", "X x", 1),
            lambda: text.replace("X", "x" * 17, 1),
            lambda: text.replace(".", "..", 1),
            lambda: text.replace(".", "e7.", 1),
            lambda: "\n \t\r\n" + text.replace("\n", "\r\n"),
            lambda: text + "more\n" * rnd.randrange(99),
            lambda: text.replace("\n", "\n\n", 1),
            lambda: str(rnd.choice([0, 4097, 10**18])) + text,
            lambda: "".join(chr(rnd.randrange(256)) for _ in range(rnd.randrange(200))),
        ]
        return (text + "x" * (2**20 - len(text))) if rnd.random() < 0.01 else rnd.choice(ways)()

    def bad(self) -> bytes:
        rnd = self.rnd
        return rnd.choice(
            [
                b"\n",
                b" \t\r\n",
                b"\r\n",
                b"\0\n",
                b"ADVANCE a\n",
                b"advance a 1\n",
                b"MEASURE a b\n",
                b"LIST a b\n",
                b"OK LIST 0\n",
                b"HELLO A " + b"0" * 32 + b"\n",
                b"SHOW a -1\n",
                b"DROP " + b"a" * 17 + b"\n",
                b"DROP a!\n",
                b"BYE 1\n",
                b"x" * rnd.choice([255, 256, 257, 300, 65535]) + b"\n",
                b"LOAD a 16 1 1 rest 3\n1\nc",
                b"LOAD a 0\n",
                b"LOAD " + b"a" * 17 + b" 16 1 1 rest 5\nBYE\n\n",
                b"LOAD a 16 1 1 best 0000004\nBYE\n",
            ]
        )

    def bent(self) -> bytes:
        """A line with random changes that is still one item."""
        line = bytearray(self.rnd.choice([self.advance, self.tug, self.show, self.restore, self.reverse])()[:-1])
        for _ in range(self.rnd.randrange(1, 4)):
            line[self.rnd.randrange(len(line))] = self.rnd.choice(b" \t\r\0-+.09Az\x7f\x80\xff")
        first = words_of(bytes(line))[:1]
        return self.bad() if first and first[0] in (*ENDS, b"BRANCH") else bytes(line) + b"\n"

    WAYS = [load, advance, start, reverse, tug, measure, show, list, dump, drop, branch, restore, forget, bad, bent]
    WEIGHTS = [18, 12, 8, 6, 8, 4, 8, 5, 2, 4, 6, 4, 3, 8, 6]


def probes() -> List[bytes]:
    """Items that read a user's state without changing it: sessions, branches, places in both frames."""
    asked = [b"LIST\n"]
    for name in SESSIONS:
        shows = [b"SHOW %s 0\n" % name, b"SHOW %s 1\n" % name]
        asked += [b"LIST %s\n" % name, b"MEASURE %s\n" % name, *shows, b"REVERSE %s\n" % name, *shows, b"REVERSE %s\n" % name]
    return asked
