#!/usr/bin/env python3
"""`ljserve run` once more, in plain Python and over all pairs of atoms: what each stream of commands is to be replied.

usage: reference.py [run] [--sessions N] [--atoms N] [--branches N] < STREAM > REPLIES

It was written from docs/PROTOCOL.md, docs/WORDS.md and the definitions (crates/*/specs), and from no body of the code. It is
meant to be read beside them: each part names its definitions, and what has a name there mostly has the same one here.

Three things are simpler than in the program, and no reply tells them apart. There are no blocks, tiles and tasks: a step is the
sum over all pairs. START takes its steps at once. Memory never runs out, so there is no `ERR 90 MEMORY`.
"""
import argparse
import re
import sys
from dataclasses import dataclass, field
from typing import BinaryIO, Dict, Iterator, List, NamedTuple, Optional, Sequence, Tuple

Place = Tuple[int, ...]
Frame = Sequence[Place]
Words = List[bytes]
Row = Tuple[bytes, Place]


class Refused(Exception):
    """A refusal: its number and name, and the line of a body if there is one."""


def unless(holds: bool, refusal: str) -> None:
    """lj_session/specs/Loads: nothing if a test holds, else a refusal."""
    if not holds:
        raise Refused(refusal)


# Words: lj_fixed/specs/Numbers and Decimal; lj_wire/specs/Displacements; lj_base/specs/Names; lj_xyz/specs/Symbols
SHAPES = {
    "name": rb"[A-Za-z0-9_-]{1,16}",
    "symbol": rb"[!-~]{1,16}",
    "number": rb"[0-9]{1,19}",
    "displacement": rb"-?[0-9]{1,19}",
    "decimal": rb"([+-]?)(?=\.?[0-9])([0-9]*)\.?([0-9]*)(?:[eEdD]([+-]?[0-9]{1,3}))?",
    "mode": rb"rest|pair",
    "any": rb"(?s:.*)",
}


def has_shape(shape: str, word: bytes) -> bool:
    return re.fullmatch(SHAPES[shape], word) is not None and (shape != "displacement" or -(2**31) <= int(word) < 2**31)


def number_or_zero(word: bytes) -> int:
    """The whole number in a word, or 0, which is not valid anywhere, if the word is not a number."""
    return int(word) if has_shape("number", word) else 0


def nano_of(word: bytes, bad_number: str = "33 XYZ_NUMBER", out_of_range: str = "34 XYZ_RANGE") -> int:
    """A decimal number in billionths, rounded to the nearest, halves away from zero."""
    found = re.fullmatch(SHAPES["decimal"], word)
    if found is None or len(word) > 40:
        raise Refused(bad_number)
    sign, whole, fraction, power = found.groups()
    exponent = int(power or 0)
    numerator = int(whole + fraction) * 10 ** (9 + max(exponent, 0))
    denominator = 10 ** (len(fraction) + max(-exponent, 0))
    size: int = (2 * numerator + denominator) // (2 * denominator)
    unless(size <= 10**15, out_of_range)
    return -size if sign == b"-" else size


# The ring of 2^32 units, and the tables: lj_ring/specs/Ring and Places; lj_table/specs/Entries
RING = 2**32
BINS_TO_SQUARE, BINS, MIN_BIN = 128, 800, 64


def image(a: int, b: int) -> int:
    """The least image of a - b, in -2^31 ..= 2^31 - 1."""
    return (a - b + 2**31) % RING - 2**31


def units_of(edge: int, length: int) -> int:
    """A length in ring units, rounded down."""
    return length * RING // edge


def int_div(number: int, divisor: int) -> int:
    """The quotient rounded toward zero."""
    return number // divisor if number >= 0 else -(-number // divisor)


# At the centre of bin k the square of sigma over the distance is u = 2^8 / n, with n = 2k + 1. Pairs in the bins below 64 use
# the entries of bin 64. A push is 24 (2 u^7 - u^4) and an energy 4 (u^6 - u^3), both in units of 2^-24.
CENTRES = [2 * max(k, MIN_BIN) + 1 for k in range(BINS)]
PUSHES = [int_div(24 * 2**56 * (2**25 - n**3), n**7) for n in CENTRES]
ENERGIES = [int_div(2**50 * (2**24 - n**3), n**6) for n in CENTRES]


# Atoms and their motion: lj_ring/specs/Scales and Mixes; lj_task/specs/Species and Pushes; lj_step/specs/Motion


class Class(NamedTuple):
    """Sigma in ring units, the step factor in units of 2^-32, and the weight of energies in 256ths."""

    sigma: int
    strength: int
    weight: int


def class_of_numbers(edge: int, sigma: bytes, strength: bytes, weight: bytes) -> Class:
    """The class of three words. Raises their first refusal."""
    numbers = Class(units_of(edge, nano_of(sigma, "37 SIGMA", "37 SIGMA")), number_or_zero(strength), number_or_zero(weight))
    unless(65536 <= numbers.sigma and 5 * numbers.sigma < RING, "37 SIGMA")
    unless(1 <= numbers.strength <= 2**24, "38 STEP_FACTOR")
    unless(1 <= numbers.weight <= 65536, "40 WEIGHT")
    return numbers


class Composition(NamedTuple):
    """The classes of pairs with 0, 1 and 2 atoms of the second species; and for each atom 1 if it is of the second, else 0."""

    classes: Sequence[Class]
    seconds: Sequence[int]


class Simulation(NamedTuple):
    """The places of all atoms at `step`, and those at `step - dir`."""

    prev: Frame
    cur: Frame
    step: int = 0
    dir: int = 1


def pairs_in_reach(atoms: Composition, frame: Frame) -> Iterator[Tuple[int, int, Place, Class, int]]:
    """Each pair of atoms j < i that interacts, with a bin below 800: i, j, the images of i - j, its class and its bin.

    Nearly all of the time is spent here. So images are written out, and no bin is computed beyond 7 squares of sigma (800 / 128 < 7).
    """
    half, far = 2**31, 7 * max(each.sigma for each in atoms.classes) ** 2
    for i, (xi, yi, zi) in enumerate(frame):
        for j, (xj, yj, zj) in enumerate(frame[:i]):
            x = (xi - xj + half) % RING - half
            y = (yi - yj + half) % RING - half
            z = (zi - zj + half) % RING - half
            squared = x * x + y * y + z * z
            if squared < far:
                pair = atoms.classes[atoms.seconds[i] + atoms.seconds[j]]
                k = BINS_TO_SQUARE * squared // pair.sigma**2
                if k < BINS:
                    yield i, j, (x, y, z), pair, k


def forces(atoms: Composition, frame: Frame) -> List[List[int]]:
    """For each atom, the sum of the pushes of all others: entry times step factor times image over 2^56, rounded toward zero.

    The push on j is the negative of the push on i: the images of j - i are the negatives, and rounding is toward zero.
    """
    sums = [[0, 0, 0] for _ in frame]
    for i, j, images, pair, k in pairs_in_reach(atoms, frame):
        for axis in range(3):
            push = int_div(PUSHES[k] * pair.strength * images[axis], 2**56)
            sums[i][axis] += push
            sums[j][axis] -= push
    return sums


def stepped(atoms: Composition, sim: Simulation) -> Simulation:
    """The next coordinate is 2 cur - prev + push on the ring."""
    axes = [zip(*parts) for parts in zip(sim.prev, sim.cur, forces(atoms, sim.cur))]
    following = [tuple((2 * cur - prev + push) % RING for prev, cur, push in each) for each in axes]
    return Simulation(sim.cur, following, sim.step + sim.dir, sim.dir)


# The body of a load: lj_base/specs/Words; lj_xyz/specs/Lines, Atoms and Bodies


def words_of(line: bytes) -> Words:
    """The longest parts without a space or a tab. A carriage return at the end of the line is left out."""
    line = line[:-1] if line.endswith(b"\r") else line
    return [part for part in line.replace(b"\t", b" ").split(b" ") if part]


def lines_of(text: bytes) -> List[Words]:
    """The words of each part between line feeds. Text after the last one is a line if it is not empty."""
    parts = text.split(b"\n")
    return [words_of(part) for part in (parts if parts[-1] else parts[:-1])]


def row_of(species: Words, words: Words) -> Row:
    """The atom of a line. Its symbol must be one of the species, or may be any if there are none."""
    unless(len(words) >= 4, "31 XYZ_SHORT")
    unless(has_shape("symbol", words[0]), "32 XYZ_SYMBOL")
    unless(not species or words[0] in species, "39 XYZ_SPECIES")
    return words[0], tuple(nano_of(word) for word in words[1:4])


def frame_at(lines: List[Words], at: int, species: Words, atoms: Optional[int] = None) -> Tuple[List[Row], int]:
    """The frame that begins at a line, and the number of the line after it. A second frame has as many atoms as the first."""
    while at < len(lines) and not lines[at]:
        at += 1
    unless(at < len(lines), f"{'35 XYZ_PAIR' if atoms else '30 XYZ_COUNT'} line {at + 1}")
    count = number_or_zero(lines[at][0])
    unless(1 <= count <= 4096, f"30 XYZ_COUNT line {at + 1}")
    unless(atoms in (None, count), f"35 XYZ_PAIR line {at + 1}")
    rows = []
    for number in range(at + 2, at + 2 + count):
        unless(number < len(lines), f"31 XYZ_SHORT line {len(lines) + 1}")
        try:
            rows.append(row_of(species, lines[number]))
        except Refused as refused:
            raise Refused(f"{refused} line {number + 1}") from None
    return rows, at + 2 + count


# A user and its commands: lj_session/specs/Users, Loads, Interactions and Answers; lj_wire/specs/ReplyTexts


@dataclass
class User:
    """The most sessions, atoms and branches, and the sessions. Commands are methods, which return the reply after the name."""

    most: Tuple[int, int, int]
    sessions: "Dict[str, Session]" = field(default_factory=dict)

    def load(self, name: str, edge_word: bytes, *words: bytes) -> str:
        """A LOAD has the words of one class without a weight. A LOADMIX has two symbols and the words of three classes."""
        *numbers, mode, body = words
        species, numbers = (numbers[:2], numbers[2:]) if len(numbers) > 2 else ([], [*numbers, b"256"])
        unless(name not in self.sessions, "11 EXISTS")
        unless(len(self.sessions) < self.most[0], "20 QUOTA_SESSIONS")
        edge = nano_of(edge_word, "36 EDGE", "36 EDGE")
        unless(10**6 <= edge <= 10**15, "36 EDGE")
        classes = [class_of_numbers(edge, *numbers[at : at + 3]) for at in range(0, len(numbers), 3)]
        lines = lines_of(body)
        first, end = frame_at(lines, 0, species)
        second = first if mode == b"rest" else frame_at(lines, end, [], len(first))[0]
        unless(sum(len(each.symbols) for each in self.sessions.values()) + len(first) <= self.most[1], "21 QUOTA_ATOMS")
        atoms = Composition(classes, [int(symbol in species[1:]) for symbol, _ in first])
        prev, cur = ([tuple(units_of(edge, nano) % RING for nano in row[1]) for row in rows] for rows in (first, second))
        self.sessions[name] = Session(self, name, edge, [symbol.decode() for symbol, _ in first], atoms, Simulation(prev, cur))
        return f"0 {len(first)}"

    def list(self) -> str:
        rows = [f"\n{name} {each.sim.step} {len(each.symbols)} {len(each.saved)}" for name, each in self.sessions.items()]
        return f"{len(rows)}" + "".join(rows)


@dataclass
class Session:
    user: User
    name: str
    edge: int
    symbols: List[str]
    atoms: Composition
    sim: Simulation
    saved: Dict[str, Simulation] = field(default_factory=dict)

    def advance(self, n: str) -> str:
        target = self.sim.step + self.sim.dir * int(n)
        unless(int(n) <= 10**6 and abs(target) <= 10**12, "23 STEP_RANGE")
        for _ in range(int(n)):
            self.sim = stepped(self.atoms, self.sim)
        return f"{target}"

    start = advance

    def reverse(self) -> str:
        prev, cur, step, direction = self.sim
        self.sim = Simulation(cur, prev, step - direction, -direction)
        return f"{self.sim.step}"

    def branch(self, branch: str) -> str:
        unless(branch not in self.saved, "13 BRANCH_EXISTS")
        unless(sum(len(each.saved) for each in self.user.sessions.values()) < self.user.most[2], "22 QUOTA_BRANCHES")
        self.saved[branch] = self.sim
        return f"{branch} {self.sim.step}"

    def restore(self, branch: str) -> str:
        unless(branch in self.saved, "12 NO_BRANCH")
        self.sim = self.saved[branch]
        return f"{branch} {self.sim.step}"

    def forget(self, branch: str) -> str:
        unless(branch in self.saved, "12 NO_BRANCH")
        del self.saved[branch]
        return branch

    def tug(self, i: str, *displacement: str) -> str:
        """Moves the previous place of the atom back by the displacement."""
        unless(int(i) < len(self.symbols), "14 NO_ATOM")
        prev = list(self.sim.prev)
        prev[int(i)] = tuple((before - int(moved)) % RING for before, moved in zip(prev[int(i)], displacement))
        self.sim = self.sim._replace(prev=prev)
        return f"{int(i)} {self.sim.step}"

    def measure(self) -> str:
        """The sums of the images of cur - prev, of their squares, and of the energies of pairs, each times its weight."""
        images = [[image(now, before) for now, before in zip(*places)] for places in zip(self.sim.cur, self.sim.prev)]
        x, y, z = (sum(parts) for parts in zip(*images))
        kinetic = sum(part * part for each in images for part in each)
        potential = sum(int_div(ENERGIES[k] * pair.weight, 256) for *_, pair, k in pairs_in_reach(self.atoms, self.sim.cur))
        return f"{self.sim.step} {len(images)} {x} {y} {z} {kinetic} {potential}"

    def show(self, i: str) -> str:
        unless(int(i) < len(self.symbols), "14 NO_ATOM")
        return "{} {} {} {} {}".format(self.sim.step, int(i), *self.sim.cur[int(i)])

    def dump(self) -> str:
        """Coordinates are in file units, rounded down to six decimals."""
        rows = []
        for symbol, place in zip(self.symbols, self.sim.cur):
            micros = [coordinate * self.edge // (RING * 1000) for coordinate in place]
            rows.append(" ".join([f"\n{symbol}", *(f"{micro // 10**6}.{micro % 10**6:06}" for micro in micros)]))
        return f"{self.sim.step} {len(rows) + 2}\n{len(rows)}\nstep {self.sim.step}" + "".join(rows)

    def list(self) -> str:
        return f"{len(self.saved)}" + "".join(f"\n{name} {sim.step}" for name, sim in self.saved.items())

    def drop(self) -> str:
        del self.user.sessions[self.name]
        return ""


# Lines: lj_wire/specs/Verbs, Commands and Streams. The words after the first one have these shapes; a load ends with a count.
COMMANDS = {
    "name any any any mode any": [b"LOAD"],
    "name any symbol symbol any any any any any any any any any mode any": [b"LOADMIX"],
    "name number": [b"ADVANCE", b"START", b"SHOW"],
    "name number displacement displacement displacement": [b"TUG"],
    "name name": [b"BRANCH", b"RESTORE", b"FORGET"],
    "name": [b"REVERSE", b"MEASURE", b"DUMP", b"LIST", b"DROP"],
    "": [b"LIST", b"BYE"],
}
LOADS = (b"LOAD", b"LOADMIX")


def items_of(stream: BinaryIO) -> Iterator[Tuple[Words, bytes, str]]:
    """The items of a stream: the words of each line, its body, and the fault of a line without words."""
    for _ in range(10**6):
        line = stream.readline(65536)
        if not line.endswith(b"\n"):
            if len(line) == 65536:
                yield [], b"", "05 LONG"
            return
        if len(line) > 257:
            yield [], b"", "02 LINE"
            continue
        words, count = words_of(line[:-1]), 0
        if words and words[0] in LOADS:
            if len(words) == 1 or len(words[-1]) > 7 or not has_shape("number", words[-1]) or int(words[-1]) > 2**20:
                yield [], b"", "04 BODY"
                return
            count = int(words[-1])
        body = stream.read(count)
        if len(body) < count:
            return
        yield words, body, "03 SYNTAX"
        if words == [b"BYE"]:
            return
    yield [], b"", "08 ENOUGH"


def performed(user: User, words: Words, body: bytes, fault: str) -> str:
    """Performs the words of a line: returns the reply, or raises the first refusal. A line with a fault has no words."""
    unless(bool(words), fault)
    verb, *others = words
    shapes = [each.split() for each, verbs in COMMANDS.items() if verb in verbs]
    unless(bool(shapes), "06 COMMAND")
    unless(any(len(each) == len(others) and all(map(has_shape, each, others)) for each in shapes), "03 SYNTAX")
    unless(verb != b"LOADMIX" or others[2] != others[3], "03 SYNTAX")
    command, name = verb.decode(), others[0].decode() if others else ""
    if verb in LOADS:
        told = user.load(name, *others[1:-1], body)
    elif others:
        unless(name in user.sessions, "10 NO_SESSION")
        told = getattr(user.sessions[name], command.lower())(*map(bytes.decode, others[1:]))
    else:
        told = user.list() if verb == b"LIST" else ""
    return " ".join(filter(None, [command, name, told]))


def replies_to(stream: BinaryIO, user: User) -> Iterator[bytes]:
    for item in items_of(stream):
        try:
            yield f"OK {performed(user, *item)}\n".encode()
        except Refused as refused:
            yield f"ERR {refused}\n".encode()


def main() -> None:
    reader = argparse.ArgumentParser(usage=(__doc__ or "").split("usage: ")[1].split("\n")[0])
    reader.add_argument("command", nargs="?", choices=["run"])
    for word, usual in [("--sessions", 8), ("--atoms", 16384), ("--branches", 16)]:
        reader.add_argument(word, type=int, default=usual)
    options = reader.parse_args()
    for reply in replies_to(sys.stdin.buffer, User((options.sessions, options.atoms, options.branches))):
        sys.stdout.buffer.write(reply)
        sys.stdout.buffer.flush()


if __name__ == "__main__":
    main()
