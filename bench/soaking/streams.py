"""Random streams of bytes: dialogues of the examples and of the grammar, most of them changed."""
import itertools
import random
import re
from typing import Match, Tuple

from shared.program import contents
from soaking.plans import CLEAN, CLEAN_WEIGHTS
from soaking.speaker import Speaker


class Streams:
    """The random streams of a seed, by their numbers."""

    def __init__(self, seed: int) -> None:
        self.seed = seed
        whole = contents("examples", "every_command.txt")
        self.kept = [whole, whole.replace(b"BYE\n", b"") * 3, contents("examples", "dimer.txt")]
        for name in ["argon_256.xyz", "sodium_chloride.xyz", "argon_4000.xyz"]:
            body = contents("examples", name)
            self.kept.append(b"LOAD a 60 3.4 131072 rest %d\n" % len(body) + body + b"ADVANCE a 1\nMEASURE a\nDUMP a\n")

    def stream(self, number: int) -> Tuple[bytes, int]:
        """The stream of this number, and its limit of memory in kilobytes, beyond the memory of an idle run."""
        rnd = random.Random(f"{self.seed} stream {number}")
        data = self.dialogue(rnd)
        for _ in range(rnd.choice([0, 1, 1, 2, 3, 5, 9, 30])):
            data = rnd.choice(CHANGES)(rnd, data, self)
        return bounded(data[: 3 << 20]), rnd.choice([64, 256, 1024, 4096, 65536])

    def dialogue(self, rnd: random.Random) -> bytes:
        if rnd.random() < 0.1:
            return rnd.choice(self.kept[:3] * 9 + self.kept)
        speaker = Speaker(rnd)
        items = speaker.items(12)
        end = rnd.choice(CLEAN[rnd.choices(list(CLEAN), CLEAN_WEIGHTS)[0]])[0]
        return b"".join(items) + end


def place(rnd: random.Random, data: bytes) -> int:
    return rnd.randrange(len(data) + 1)


def piece(rnd: random.Random, data: bytes) -> Tuple[int, int]:
    start = place(rnd, data)
    return start, min(len(data), start + int(rnd.expovariate(1 / 20)))


def flip(rnd: random.Random, data: bytes, _: Streams) -> bytes:
    changed = bytearray(data or b"\n")
    changed[rnd.randrange(len(changed))] ^= 1 << rnd.randrange(8)
    return bytes(changed)


def put(rnd: random.Random, data: bytes, _: Streams) -> bytes:
    at = place(rnd, data)
    word = rnd.choice(
        [
            b"\0",
            b"\xff",
            b"\r",
            b"\r\n",
            b"\n",
            b"\t",
            b" ",
            b"-",
            b".",
            b"LOAD ",
            b"\nBYE\n",
            b"x" * 300,
            b" " * 256,
            b"x" * 65535,
            bytes(rnd.randrange(256) for _ in range(rnd.randrange(30))),
        ]
    )
    return data[:at] + word + data[at:]


def cut(rnd: random.Random, data: bytes, _: Streams) -> bytes:
    return data[: place(rnd, data)] if rnd.random() < 0.3 else data


def leave_out(rnd: random.Random, data: bytes, _: Streams) -> bytes:
    start, end = piece(rnd, data)
    return data[:start] + data[end:]


def repeat(rnd: random.Random, data: bytes, _: Streams) -> bytes:
    start, end = piece(rnd, data)
    return data[:end] + data[start:end] * rnd.choice([1, 2, 10]) + data[end:]


def splice(rnd: random.Random, data: bytes, streams: Streams) -> bytes:
    other = streams.dialogue(rnd)
    return data[: place(rnd, data)] + other[place(rnd, other) :]


def number_out(rnd: random.Random, data: bytes, _: Streams) -> bytes:
    """Replaces a number by a limit."""
    found = list(itertools.islice(re.finditer(rb"[0-9]+", data), 200))
    if not found:
        return data
    one = rnd.choice(found)
    limits = [
        0,
        1,
        63,
        64,
        65,
        256,
        257,
        4096,
        4097,
        65536,
        10**6,
        10**6 + 1,
        2**20,
        2**20 + 1,
        2**24,
        2**24 + 1,
        2**31,
        2**32,
        2**63,
        2**64,
        10**12,
        10**15,
        10**19 - 1,
        10**19,
        "1e6",
        "9" * 40,
        "1e-999",
        "-0",
        "",
    ]
    return data[: one.start()] + str(rnd.choice(limits)).encode() + data[one.end() :]


def exchange_lines(rnd: random.Random, data: bytes, _: Streams) -> bytes:
    lines = data.split(b"\n")
    first, second = rnd.randrange(len(lines)), rnd.randrange(len(lines))
    lines[first], lines[second] = lines[second], lines[first]
    return b"\n".join(lines)


CHANGES = [flip, flip, put, cut, leave_out, repeat, splice, number_out, number_out, exchange_lines]


def bounded(data: bytes) -> bytes:
    """The same stream with fewer steps, so that no stream computes for long."""

    def few(found: Match[bytes]) -> bytes:
        return found[1] + (b"%d" % (int(found[2]) % 20) if 20 < int(found[2]) <= 10**6 else found[2])

    return re.sub(rb"((?:ADVANCE|START)[ \t]+[^ \t]+[ \t]+)([0-9]+)", few, data)
