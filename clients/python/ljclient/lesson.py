"""Lessons: steps with expected replies, places, frames, energies and answers, and how replies are compared with them.

A lesson is a file `.steps` of lines of words, with comments after a `#`, and beside it a file of texts for each language, such
as `.en` and `.de`:

    ljserve lesson 1
    session a
    step load
    expect reply OK LOAD a 0 2
    step first
    expect place 0 at 1 is 589 0 0 within 0
    expect energy kinetic at 1 from 0.079 to 0.0795
    expect frame at 1 is 0123456789abcdef
    ask 589 to 589
    ask b of a b c

A step is done when all replies that it expects were seen, in any order, and its question was answered right. `*` matches any word
of a reply, and any step. A frame is given by the first 16 digits or more of the SHA-256 of the lines of a DUMP. Energies are in
epsilon per atom, by the numbers of the LOAD of the session. The kinetic energy is the one half a step ago.
"""
from __future__ import annotations

import dataclasses
import os
import re
from typing import Any, Dict, List, NamedTuple, Optional, Sequence, Tuple

from .errors import Damaged
from .files import Path
from .scalars import nano
from .units import POTENTIAL_UNIT, RING

HEAD = "ljserve lesson 1"
HALF = RING // 2
ENERGIES = ("kinetic", "potential", "total")
MAX_BYTES = 1 << 20
NUMBER = re.compile(r"[+-]?(?:[0-9]{1,18}(?:\.[0-9]{0,18})?|\.[0-9]{1,18})(?:[eE][+-]?[0-9]{1,2})?\Z")
FRAME = re.compile(r"[0-9a-f]{16,64}\Z")
KEY = re.compile(r"[a-z][a-z0-9-]{0,30}\Z")
LANGUAGE = re.compile(r"[a-z]{2}\Z")


class Seen(NamedTuple):
    """A reply: its words, the SHA-256 of the lines after them, and the unit of the session's kinetic energy.

    words  the words of the first line
    more   64 digits, or nothing if there are no more lines
    unit   the factor from the kinetic number to epsilon, or 0 if the LOAD is not known
    """

    words: Sequence[str]
    more: str = ""
    unit: float = 0.0

    @property
    def is_granted(self) -> bool:
        return self.words[:1] == ["OK"]


@dataclasses.dataclass(frozen=True)
class Expected:
    """A reply with these words that a step expects, where `*` matches any word."""

    words: Tuple[str, ...]

    @property
    def verb(self) -> str:
        return self.words[1] if self.words[0] == "OK" else ""

    def is_met_by(self, seen: Seen) -> bool:
        return len(seen.words) == len(self.words) and all(mine in ("*", its) for mine, its in zip(self.words, seen.words))


@dataclasses.dataclass(frozen=True)
class Place(Expected):
    """A SHOW whose place is at most `within` ring units from this one along each axis."""

    place: Tuple[int, ...] = ()
    within: int = 0

    def is_met_by(self, seen: Seen) -> bool:
        if not super().is_met_by(seen):
            return False
        apart = (abs((int(its) - mine + HALF) % RING - HALF) for its, mine in zip(seen.words[5:], self.place))
        return max(apart) <= self.within


@dataclasses.dataclass(frozen=True)
class Frame(Expected):
    """A DUMP whose lines have a SHA-256 that begins with `digest`."""

    digest: str = ""

    def is_met_by(self, seen: Seen) -> bool:
        return super().is_met_by(seen) and seen.more.startswith(self.digest)


@dataclasses.dataclass(frozen=True)
class Energy(Expected):
    """A MEASURE whose energy per atom is from `low` to `high`, in epsilon."""

    kind: str = ""
    low: float = 0.0
    high: float = 0.0

    def is_met_by(self, seen: Seen) -> bool:
        if not super().is_met_by(seen) or (not seen.unit and self.kind != "potential"):
            return False
        atoms, kinetic, potential = int(seen.words[4]), int(seen.words[8]) * seen.unit, int(seen.words[9]) / POTENTIAL_UNIT
        energy = {"kinetic": kinetic, "potential": potential, "total": kinetic + potential}[self.kind] / atoms
        return self.low <= energy <= self.high


@dataclasses.dataclass(frozen=True)
class Question:
    """A question, whose answer is one of some choices, or a number from `low` to `high`, with a decimal point or a comma."""

    choices: Tuple[str, ...] = ()
    right: str = ""
    low: float = 0.0
    high: float = 0.0

    def is_answer(self, text: str) -> bool:
        """Whether a text may be an answer, right or wrong."""
        return text.lower() in self.choices if self.choices else NUMBER.match(text.replace(",", ".")) is not None

    def is_right(self, text: str) -> bool:
        if not self.is_answer(text):
            return False
        return text.lower() == self.right if self.choices else self.low <= float(text.replace(",", ".")) <= self.high


@dataclasses.dataclass(frozen=True)
class Step:
    """A step of a lesson, with its key, which is also the key of its text."""

    key: str
    expected: Tuple[Expected, ...] = ()
    question: Optional[Question] = None


@dataclasses.dataclass(frozen=True)
class Lesson:
    """A lesson.

    session  the name of its session
    steps    in order
    texts    the text, hint and question of each step, by `KEY`, `KEY hint` and `KEY question`; and the `title`
    language of the texts, such as `en`
    stem     the path of its files without their endings
    """

    session: str
    steps: Tuple[Step, ...]
    texts: Dict[str, str]
    language: str
    stem: str

    @property
    def name(self) -> str:
        """The name of its files."""
        return os.path.basename(self.stem)

    def index_of(self, key: object) -> Optional[int]:
        """The index of the step with this key, from 0."""
        return next((at for at, step in enumerate(self.steps) if step.key == key), None)


class Walk:
    """Progress through a lesson: the present step, and its replies that are still missing.

    at       the number of the step, from 0; at the end, the number of steps
    missing  the replies of this step that were not seen yet
    """

    def __init__(self, lesson: Lesson):
        self.lesson = lesson
        self.at = 0
        self.missing: List[Expected] = list(lesson.steps[0].expected)
        self._unit = 0.0

    @property
    def step(self) -> Optional[Step]:
        """The present step. None at the end."""
        return self.lesson.steps[self.at] if self.at < len(self.lesson.steps) else None

    def see(self, command: str, first: str, more: str) -> bool:
        """Checks a command of the session, the first line of its reply, and the SHA-256 of the lines after that. Returns whether
        this was the last reply that the step expects."""
        words = first.split(" ")
        if words[:2] in (["OK", "LOAD"], ["OK", "LOADMIX"]):
            self._unit = unit_of(command)
        seen = Seen(words, more, self._unit)
        met = [each for each in self.missing if each.is_met_by(seen)]
        self.missing = [each for each in self.missing if each not in met]
        return bool(met) and not self.missing

    def is_awaited(self, first: str) -> bool:
        """Whether the step still expects a reply to a command of this kind."""
        return first.split(" ")[1:2] in [[each.verb] for each in self.missing]

    def known(self) -> Dict[str, Any]:
        """What is needed to continue from here: the key of the step, which of its replies are missing, and the unit of energy."""
        step = self.step
        missing = [] if step is None else [step.expected.index(each) for each in self.missing]
        return {"step": step and step.key, "missing": missing, "unit": self._unit}

    def resume(self, known: Dict[str, Any]) -> None:
        """Continues from there, or stays at the beginning if the lesson no longer has this step."""
        at = len(self.lesson.steps) if known["step"] is None else self.lesson.index_of(known["step"])
        if at is not None:
            self.at, self._unit = at, float(known["unit"])
            self.missing = [] if self.step is None else [self.step.expected[each] for each in known["missing"]]

    def go_on(self) -> None:
        """Advances to the next step, since this one is done."""
        self.at += 1
        self.missing = list(self.step.expected) if self.step else []

    def pass_over(self) -> None:
        """Skips all steps that expect no more replies, regardless of the answers to their questions."""
        while self.step is not None and not self.missing:
            self.go_on()


def unit_of(load: str) -> float:
    """The factor from the kinetic number of a session to epsilon, by the command that loads it: `2^32 / (2 sigma^2 h)`, with
    sigma in ring units. For a mixture, the first class gives it."""
    words = load.split()
    sigma, h = (words[3], words[4]) if words[0] == "LOAD" else (words[5], words[6])
    return RING / (2 * (nano(sigma) * RING // nano(words[2])) ** 2 * int(h))


def read(path: Path) -> Lesson:
    """Reads a lesson, by its file of steps, or by one of its texts. By its file of steps it is English.

    Raises `Damaged`, which names the file and the line, if a file is malformed, and OSError if it cannot be read.
    """
    stem, ending = os.path.splitext(os.fspath(path))
    language = "en" if ending == ".steps" else ending[1:]
    session, steps = _Reader(f"{stem}.steps").read()
    lesson = Lesson(session, tuple(steps), texts_of(f"{stem}.{language}"), language, stem)
    for name in names_of_texts(lesson):
        if name not in lesson.texts:
            raise Damaged(f"{stem}.{language}", 1, f"the lesson must have a text [{name}]")
    return lesson


def in_all_languages(lesson: Lesson) -> Dict[str, Lesson]:
    """The lesson in each language for which it has texts."""
    folder, name = os.path.split(lesson.stem)
    endings = [each[len(name) + 1 :] for each in sorted(os.listdir(folder or ".")) if each.startswith(f"{name}.")]
    return {ending: read(f"{lesson.stem}.{ending}") for ending in endings if LANGUAGE.match(ending)}


def names_of_texts(lesson: Lesson) -> List[str]:
    """The names of all texts that a lesson has."""
    names = ["title"]
    for step in lesson.steps:
        names += [step.key, f"{step.key} hint", *([f"{step.key} question"] if step.question else [])]
    return names


def texts_of(path: str) -> Dict[str, str]:
    """The texts of a file: each is below its name in brackets."""
    texts: Dict[str, str] = {}
    name = ""
    for number, line in enumerate(_lines(path), 1):
        if line.startswith("[") and line.rstrip().endswith("]"):
            name = line.strip()[1:-1]
            texts[name] = ""
        elif name:
            texts[name] = f"{texts[name]} {line.strip()}".strip()
        elif line.strip():
            raise Damaged(path, number, "a text must stand below its name in brackets, such as [title]")
    return texts


def _lines(path: str) -> List[str]:
    with open(path, encoding="utf-8") as file:
        text = file.read(MAX_BYTES + 1)
    if len(text) > MAX_BYTES:
        raise Damaged(path, 1, f"a lesson must have at most {MAX_BYTES} bytes")
    return text.splitlines()


class _Reader:
    """Reads a file of steps, line by line."""

    def __init__(self, path: str):
        self._path = path
        self._number = 0
        self._session = ""
        self._steps: List[Step] = []

    def read(self) -> Tuple[str, List[Step]]:
        """The name of the session, and the steps."""
        try:
            lines = _lines(self._path)
        except UnicodeDecodeError as error:
            raise Damaged(self._path, 1, "a lesson must be UTF-8 text") from error
        if lines[:1] != [HEAD]:
            raise Damaged(self._path, 1, f"a lesson must begin with `{HEAD}`")
        for self._number, line in enumerate(lines[1:], 2):
            words = line.partition("#")[0].split()
            if words:
                self._take(words)
        if not self._session or not self._steps:
            raise Damaged(self._path, self._number, "a lesson must have a session and at least one step")
        return self._session, self._steps

    def _take(self, words: List[str]) -> None:
        """Processes a line with these words."""
        verb, *rest = words
        try:
            if verb == "session" and len(rest) == 1 and not self._session:
                self._session = rest[0]
            elif verb == "step" and len(rest) == 1 and KEY.match(rest[0]) and rest[0] not in [step.key for step in self._steps]:
                self._steps.append(Step(rest[0]))
            elif verb == "expect" and self._steps:
                self._put(expected=(*self._steps[-1].expected, expected_of(self._session, rest)))
            elif verb == "ask" and self._steps and self._steps[-1].question is None:
                self._put(question=question_of(rest))
            else:
                raise ValueError(f"`{' '.join(words)}` must not stand here")
        except (ValueError, IndexError) as error:
            raise Damaged(self._path, self._number, str(error)) from None

    def _put(self, **parts: object) -> None:
        self._steps[-1] = dataclasses.replace(self._steps[-1], **parts)


def expected_of(session: str, words: List[str]) -> Expected:
    """The reply that a line expects. Raises ValueError if the line is malformed."""
    kind, *rest = words or [""]
    if kind == "reply" and rest[:1] in (["OK"], ["ERR"]) and rest[1:]:
        return Expected(tuple(rest))
    fixed = " ".join("_" if at in FREE.get(kind, ()) else word for at, word in enumerate(rest))
    if fixed != SHAPES.get(kind):
        raise ValueError(f"`expect` must be one of {', '.join(SAID)}, got `expect {' '.join(words)}`")
    free = [rest[at] for at in FREE[kind]]
    if kind == "place":
        atom, step, *numbers = free
        *place, within = map(int, numbers)
        return Place(("OK", "SHOW", session, step, str(int(atom)), "*", "*", "*"), tuple(place), within)
    if kind == "frame":
        step, digest = free
        if not FRAME.match(digest):
            raise ValueError(f"a frame must be the first 16 to 64 digits of a SHA-256, got `{digest}`")
        return Frame(("OK", "DUMP", session, step, "*"), digest)
    name, step, low, high = free
    if name not in ENERGIES:
        raise ValueError(f"an energy must be one of {', '.join(ENERGIES)}, got `{name}`")
    return Energy(("OK", "MEASURE", session, step, *"******"), name, *bounds(low, high))


SAID = (
    "`reply OK ..`",
    "`place ATOM at STEP is X Y Z within N`",
    "`frame at STEP is SHA-256`",
    "`energy kinetic|potential|total at STEP from LOW to HIGH`",
)
SHAPES = {"place": "_ at _ is _ _ _ within _", "frame": "at _ is _", "energy": "_ at _ from _ to _"}
FREE = {kind: [at for at, word in enumerate(shape.split()) if word == "_"] for kind, shape in SHAPES.items()}


def question_of(words: List[str]) -> Question:
    """The question that a line asks: `LOW to HIGH`, or `RIGHT of CHOICE CHOICE ..`."""
    if len(words) == 3 and words[1] == "to":
        low, high = bounds(words[0], words[2])
        return Question(low=low, high=high)
    if len(words) > 3 and words[1] == "of" and words[0] in words[2:]:
        return Question(tuple(words[2:]), words[0])
    raise ValueError("a question must be `ask LOW to HIGH` or `ask RIGHT of CHOICE CHOICE ..`")


def bounds(low: str, high: str) -> Tuple[float, float]:
    """The numbers of two bounds, the second not below the first."""
    for word in (low, high):
        if not NUMBER.match(word):
            raise ValueError(f"a bound must be a number, got `{word}`")
    if float(high) < float(low):
        raise ValueError(f"HIGH must not be below LOW, got `{low}` to `{high}`")
    return float(low), float(high)
