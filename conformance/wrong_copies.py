#!/usr/bin/env python3
"""Makes copies of the reference that are wrong in one place, and says which stored streams tell each from the right one.

usage: wrong_copies.py [--only WORD]

Prints for each wrong copy the shortest stream that catches it. The status is 1 if one is not caught. The streams of long runs
and of large files are left out.
"""
import argparse
import io
import pathlib
import sys
import types
from typing import Dict, List, Tuple

sys.dont_write_bytecode = True
from playing import Stream, folded, stored  # noqa: E402

TEXT = (pathlib.Path(__file__).resolve().parent / "reference.py").read_text()
SLOW = ("runs/", "files/salt", "files/argon", "tables/limits", "tables/sessions", "ends/sessions", "ends/not_read_on", "motion/bins")

# A text of the reference, and its replacement in each copy, by the copy's fault.
REPLACED: Dict[str, Dict[str, str]] = {
    "push = int_div(PUSHES[k] * pair.strength * images[axis], 2**56)": {
        "a push is rounded down": "push = PUSHES[k] * pair.strength * images[axis] // 2**56"
    },
    "ENERGIES = [int_div(2**50 * (2**24 - n**3), n**6)": {"an energy is rounded down": "ENERGIES = [(2**50 * (2**24 - n**3)) // n**6"},
    "int_div(ENERGIES[k] * pair.weight, 256)": {"a weighted energy is rounded down": "ENERGIES[k] * pair.weight // 256"},
    "CENTRES = [2 * max(k, MIN_BIN) + 1": {"an entry is that of the lower end of its bin": "CENTRES = [2 * max(k, MIN_BIN)"},
    "BINS_TO_SQUARE, BINS, MIN_BIN = 128, 800, 64": {
        "close pairs use bin 63": "BINS_TO_SQUARE, BINS, MIN_BIN = 128, 800, 63",
        "close pairs use bin 65": "BINS_TO_SQUARE, BINS, MIN_BIN = 128, 800, 65",
        "the last bin is out of reach": "BINS_TO_SQUARE, BINS, MIN_BIN = 128, 799, 64",
        "one bin more is in reach": "BINS_TO_SQUARE, BINS, MIN_BIN = 128, 801, 64",
    },
    "return (a - b + 2**31) % RING - 2**31": {
        "an image of half the ring is positive": "return (a - b + 2**31 - 1) % RING - 2**31 + 1",
        "a move is no image": "return a - b",
    },
    "z = (zi - zj + half) % RING - half": {"the least image along z is left out": "z = zi - zj"},
    "k = BINS_TO_SQUARE * squared // pair.sigma**2": {
        "a second species has the first one's sigma": "k = BINS_TO_SQUARE * squared // atoms.classes[0].sigma ** 2"
    },
    "atoms.classes[atoms.seconds[i] + atoms.seconds[j]]": {
        "unlike pairs are of the last class": "atoms.classes[-1 * (atoms.seconds[i] | atoms.seconds[j])]"
    },
    "            sums[j][axis] -= push\n": {"the sums of pushes are as if each atom saw the lower numbers alone": ""},
    "return length * RING // edge": {
        "a place is rounded to the nearest unit": "return (2 * length * RING + edge) // (2 * edge)",
        "a place is rounded toward zero": "return int_div(length * RING, edge)",
    },
    "(2 * numerator + denominator) // (2 * denominator)": {
        "halves of a billionth go down": "(2 * numerator + denominator - 1) // (2 * denominator)"
    },
    "coordinate * self.edge // (RING * 1000)": {
        "a printed coordinate is rounded to the nearest": "(2 * coordinate * self.edge + RING * 1000) // (RING * 2000)"
    },
    "Simulation(cur, prev, step - direction, -direction)": {
        "REVERSE keeps the step number": "Simulation(cur, prev, step, -direction)",
        "REVERSE keeps the direction": "Simulation(cur, prev, step - direction, direction)",
    },
    "(before - int(moved)) % RING": {"a tug moves the frame before forward": "(before + int(moved)) % RING"},
    "self.sim = self.saved[branch]": {"RESTORE gives up what was saved": "self.sim = self.saved.pop(branch)"},
    "for rows in (first, second))": {"the two frames of a pair are exchanged": "for rows in (second, first))"},
    "frame_at(lines, end, [], len(first))": {"the species are those of the second frame, too": "frame_at(lines, end, species, len(first))"},
    "unless(not species or words[0] in species,": {
        "a symbol of neither species is found after the coordinates": (
            "tuple(nano_of(word) for word in words[1:4])\n    unless(not species or words[0] in species,"
        )
    },
    "for at in range(0, len(numbers), 3)]": {
        "classes are looked at from the last one on": "for at in reversed(range(0, len(numbers), 3))][::-1]"
    },
    "        classes = [class_of_numbers": {
        "the body is looked at before the classes": "        frame_at(lines_of(body), 0, species)\n        classes = [class_of_numbers"
    },
    "sum(len(each.saved) for each in self.user.sessions.values()) < self.user.most[2]": {
        "the quota of branches is that of a session": "len(self.saved) < self.user.most[2]"
    },
    "if len(line) > 257:": {
        "the limit of a line leaves out the carriage return": 'if len(line.rstrip(b"\\r\\n")) > 256:',
        "a line may have 257 bytes": "if len(line) > 258:",
    },
    "len(words[-1]) > 7": {"a count may have eight digits": "len(words[-1]) > 8"},
    'line.replace(b"\\t", b" ")': {"each carriage return is a blank": 'line.replace(b"\\t", b" ").replace(b"\\r", b" ")'},
    "if words and words[0] in LOADS:": {
        "the body of a load that is refused by its words is not read": "if words and words[0] in LOADS and len(words) in (7, 16):"
    },
    "-(2**31) <= int(word) < 2**31": {"a displacement may be 2^31": "-(2**31) <= int(word) <= 2**31"},
    "5 * numbers.sigma < RING": {"sigma may be a fifth of the box": "5 * numbers.sigma <= RING + 4"},
    'return "{} {} {} {} {}".format(self.sim.step, int(i)': {
        "an atom number is shown as it was written": 'return "{} {} {} {} {}".format(self.sim.step, i'
    },
}

# The fault of a copy, and the two successive statements of the reference that are exchanged in it.
EXCHANGED: Dict[str, Tuple[str, str]] = {
    "a used-up quota is found before a name that is taken": (
        'unless(name not in self.sessions, "11 EXISTS")',
        'unless(len(self.sessions) < self.most[0], "20 QUOTA_SESSIONS")',
    ),
    "a weight is looked at before its step factor": (
        'unless(1 <= numbers.strength <= 2**24, "38 STEP_FACTOR")',
        'unless(1 <= numbers.weight <= 65536, "40 WEIGHT")',
    ),
    "a used-up quota of branches is found before a saved name that is taken": (
        'unless(branch not in self.saved, "13 BRANCH_EXISTS")',
        'unless(sum(len(each.saved) for each in self.user.sessions.values()) < self.user.most[2], "22 QUOTA_BRANCHES")',
    ),
}


def exchanged(first: str, second: str) -> Tuple[str, str]:
    """Two statements with the text between them, and the same with the two exchanged."""
    between = TEXT.partition(first)[2].partition(second)[0]
    return first + between + second, second + between + first


# The fault of a copy, the text of the reference, and its replacement in the copy.
WRONG: List[Tuple[str, str, str]] = [
    *((what, old, new) for old, copies in REPLACED.items() for what, new in copies.items()),
    *((what, *exchanged(first, second)) for what, (first, second) in EXCHANGED.items()),
]


def quick_streams() -> List[Stream]:
    """The streams that the reference plays quickly, the shortest first."""
    streams = [stream for stream in stored() if not stream.name.startswith(SLOW)]
    return sorted(streams, key=lambda stream: len(stream.sent))


def copy_with(old: str, new: str) -> Dict[str, object]:
    """The namespace of a copy of the reference with one text replaced by another."""
    if TEXT.count(old) != 1:
        raise ValueError(f"the reference has {TEXT.count(old)} times {old!r}")
    module = types.ModuleType("wrong_copy")
    sys.modules[module.__name__] = module
    exec(compile(TEXT.replace(old, new), "wrong_copy.py", "exec"), module.__dict__)
    return module.__dict__


def is_caught(copy: Dict[str, object], stream: Stream) -> bool:
    """Whether the copy has other replies, or raises an error."""
    try:
        told = b"".join(copy["replies_to"](io.BytesIO(stream.sent), copy["User"](stream.quota)))  # type: ignore[operator]
    except Exception:
        return True
    return (folded(told) if stream.is_folded else told) != stream.replies


def main() -> int:
    reader = argparse.ArgumentParser(usage=(__doc__ or "").split("usage: ")[1].split("\n")[0])
    reader.add_argument("--only", default="")
    options = reader.parse_args()
    streams, missed = quick_streams(), 0
    for what, old, new in WRONG:
        if options.only in what:
            copy = copy_with(old, new)
            caught = next((stream.name for stream in streams if is_caught(copy, stream)), None)
            missed += caught is None
            print(f"{what}: {caught or 'NOT CAUGHT'}", flush=True)
    return 1 if missed else 0


if __name__ == "__main__":
    sys.exit(main())
