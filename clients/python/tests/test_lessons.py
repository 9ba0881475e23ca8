"""Lessons: those of examples/lessons are played to their ends, each wrong answer and each missing reply is refused, and what they
expect is what conformance/reference.py replies."""
import contextlib
import hashlib
import io
import pathlib
import re
import shutil
import subprocess
import sys
from typing import Any, Iterator, List, NamedTuple, Tuple

import pytest

from ljclient import lesson, lesson_texts, marking, run
from ljclient.errors import Damaged
from ljclient.prompt.dialogue import TerminalTalk
from ljclient.prompt.link import Link
from ljclient.record_file import RecordFile
from lesson_solutions import NAMES, SOLUTIONS, wrong_answer
from support import EXAMPLES, PROGRAM, RING, TOP, present
from terminals import environment

sys.path.append(str(TOP / "conformance"))
import reference  # noqa: E402

LESSONS = EXAMPLES / "lessons"
LANGUAGES = ("en", "de")


class Script:
    """Lines that nobody types."""

    is_script = True

    def stop_files(self) -> List[str]:
        return []


@pytest.fixture
def folder(tmp_path: pathlib.Path, monkeypatch: pytest.MonkeyPatch) -> pathlib.Path:
    """A folder with the lessons, which is the one of the prompt."""
    shutil.copytree(LESSONS, tmp_path / "lessons")
    monkeypatch.chdir(tmp_path / "lessons")
    return tmp_path / "lessons"


@contextlib.contextmanager
def talk_of(name: str, kept: str = "") -> Iterator[Tuple[TerminalTalk, Any]]:
    """A prompt at which a lesson was begun, and what says a line there and returns what is shown."""
    link, out = Link(lambda: run(PROGRAM), ""), io.StringIO()
    talk, script = TerminalTalk(link, out), Script()

    def says(line: str) -> str:
        start = len(out.getvalue())
        talk.perform(line, script)  # type: ignore[arg-type]
        return " ".join(out.getvalue()[start:].split())

    with contextlib.closing(link):
        says(f".lesson {name} {kept}".strip())
        yield talk, says


def checked(capsys: pytest.CaptureFixture[str], *words: str) -> Tuple[int, List[str]]:
    """The status of `check`, and the lines that it tells."""
    capsys.readouterr()
    status = marking.main(list(words))
    return status, capsys.readouterr().out.splitlines()


def at(talk: TerminalTalk) -> int:
    return present(talk.lesson).walk.at


def test_there_are_five_lessons() -> None:
    assert sorted(path.stem for path in LESSONS.glob("*.steps")) == NAMES and len(NAMES) == 5


@pytest.mark.parametrize("language", LANGUAGES)
@pytest.mark.parametrize("name", NAMES)
def test_each_text_is_there_in_each_language(name: str, language: str) -> None:
    read = lesson.read(LESSONS / f"{name}.{language}")
    assert sorted(read.texts) == sorted(lesson.names_of_texts(read)) and all(read.texts.values())
    other = lesson.read(LESSONS / f"{name}.steps")
    assert read.steps == other.steps and (read.texts == other.texts) == (language == "en")


def test_what_is_told_has_each_language() -> None:
    assert {*lesson_texts.TEXTS} == {*LANGUAGES}
    assert {*lesson_texts.TEXTS["de"]} == {*lesson_texts.TEXTS["en"]}


@pytest.mark.parametrize("language", LANGUAGES)
@pytest.mark.parametrize("name", NAMES)
def test_a_lesson_goes_to_its_end_and_refuses_what_is_wrong(folder: Any, capsys: Any, name: str, language: str) -> None:
    """Before each right answer a wrong one is given, and before each command another one that is answered."""
    told_of = lesson_texts.TEXTS[language]
    with talk_of(f"{name}.{language}", "kept.lj") as (talk, says):
        steps = present(talk.lesson).walk.lesson.steps
        for line in SOLUTIONS[name]:
            verb, *words = line.split()
            before = at(talk)
            if verb == ".answer":
                wrong = wrong_answer(words[0])
                assert told_of["wrong"].format(answer=wrong) in says(f".answer {wrong}")
                assert told_of["no answer"].format(answer="what?") in says(".answer what?")
            else:
                assert says(".answer 1") in (told_of["first"], told_of["no question"])
                says("LIST")
            assert at(talk) == before
            told = says(line)
            assert verb != ".answer" or told_of["right"] in told
        assert at(talk) == len(steps) and told_of["end"] in told
    status, lines = checked(capsys, f"{name}.{language}", "kept.lj")
    assert (status, lines[-1]) == (0, told_of["sum"].format(right=len(steps), count=len(steps)))
    assert lines[:-1] == [told_of["marked"].format(key=step.key) for step in steps]
    refuses_changed_answers(folder, capsys, name, steps)
    refuses_other_replies(name)


def refuses_changed_answers(folder: pathlib.Path, capsys: pytest.CaptureFixture[str], name: str, steps: Any) -> None:
    """Of a record with one answer more, which is wrong, or with one less, that step alone is wrong."""
    path = folder / "kept.lj.answers"
    text = path.read_text()
    for step in (step for step in steps if step.question):
        wrong = wrong_answer(step.question.right or step.question.high)
        without = "".join(line for line in text.splitlines(True) if not line.startswith(f"{step.key} "))
        for changed, told in [
            (f"{text}{step.key} {wrong}\n", f"the answer `{wrong}` is wrong"),
            (without, "the question was not answered"),
        ]:
            path.write_text(changed)
            status, lines = checked(capsys, f"{name}.en", "kept.lj")
            assert status == 1 and [line for line in lines[:-1] if not line.endswith(": right")] == [f"{step.key}: {told}"]
    path.write_text(text)


class Row(NamedTuple):
    """A command, the first line of its reply, and the sum of those after it."""

    command: str
    first: str
    more: str


def rows_of(path: str) -> List[Row]:
    return [Row(each.line.decode(), each.first.decode(), each.more.decode()) for each in RecordFile(path).entries()]


def end_of(name: str, rows: List[Row]) -> bool:
    """Whether these replies lead to the end of a lesson."""
    walk = lesson.Walk(lesson.read(LESSONS / f"{name}.en"))
    for row in rows:
        if walk.step is not None and walk.see(*row):
            walk.go_on()
    return walk.step is None


def refuses_other_replies(name: str) -> None:
    """With an awaited reply left out, with a digit of it changed or with an earlier step, the lesson has no end."""
    rows = rows_of("kept.lj")
    assert end_of(name, rows)
    walk = lesson.Walk(lesson.read(LESSONS / f"{name}.en"))
    met = 0
    for number, row in enumerate(rows):
        missing = len(walk.missing)
        is_done = walk.see(*row)
        if len(walk.missing) < missing:
            met += missing - len(walk.missing)
            assert not end_of(name, rows[:number] + rows[number + 1 :]), row
            words = row.first.split(" ")
            changed = " ".join([*words[:-1], str(int(words[-1]) + 10**9)]) if row.first.startswith(("OK SHOW", "OK ADV")) else row.first
            other = row._replace(first=changed, more=row.more[::-1])
            assert other == row or not end_of(name, [*rows[:number], other, *rows[number + 1 :]])
        if is_done:
            walk.go_on()
    assert met >= sum(len(step.expected) for step in walk.lesson.steps)


def replied(name: str) -> List[Row]:
    """What conformance/reference.py replies to the commands of a solution, of which `back` are those that it sends."""
    lines = [line for line in SOLUTIONS[name] if not line.startswith(".")]
    lines = [each for line in lines for each in (["REVERSE m", "ADVANCE m 100", "REVERSE m"] if line == "back m" else [line])]
    user, rows = reference.User((8, 16384, 16)), []
    for line in lines:
        words, body = line.split(), b""
        if words[0].startswith("LOAD"):
            body = (LESSONS / words[2]).read_bytes()
            mode = [] if words[-1] in ("pair", "rest") else ["rest"]
            line = " ".join([*words[:2], *words[3:], *mode, str(len(body))])
        (text,) = reference.replies_to(io.BytesIO(line.encode() + b"\n" + body), user)
        first, _, rest = text.decode().partition("\n")
        rows.append(Row(line, first, hashlib.sha256(rest.encode()).hexdigest() if rest else ""))
    return rows


@pytest.mark.parametrize("name", NAMES)
def test_what_is_expected_is_what_the_reference_replies(name: str) -> None:
    assert end_of(name, replied(name))


def test_answers_that_were_computed_elsewhere() -> None:
    """The numbers of questions, by the arithmetic of docs/PROTOCOL.md with whole numbers."""
    entries = [24 * 2**24 * (2 * u**7 - u**4) for u in (256 / (2 * bin_ + 1) for bin_ in (288, 287))]
    assert [abs(int(entry)) for entry in entries] == [12876994, 13028153]
    pushes = [entry * 131072 * apart >> 56 for entry, apart in ((12876994, 25165824), (13028153, 25164646))]
    assert pushes == [589, 596] and RING * 1.5 / 256 == 25165824 and RING / 256 == 16777216
    assert (25165824 - pushes[0], sum(pushes), 2 * pushes[0] + pushes[1]) == (25165235, 1185, 1774)
    kinetic = 2 * 1185**2 * RING / (2 * 2**48 * 131072) / 2
    assert 0.0000817 < kinetic < 0.0000818
    sigma = RING // 6
    assert RING / 6 / 256 == pytest.approx(2796202.67) and 578290716 - 574435428 == 3855288
    assert 2 / 3 * 2170713073413788 * RING / (2 * sigma**2 * 131072) / 32 == pytest.approx(1.446, abs=1e-3)


def test_answers_that_are_counted_in_frames_of_the_reference() -> None:
    rows = {name: reference_frames(name) for name in ("mixing", "melting")}
    left = [sum(symbol == "A" and x < 3 for symbol, x, *_ in frame) for frame in rows["mixing"]]
    assert left == [16, 12, 16]
    start, melted, back = rows["melting"]
    squares = [sum(((a - b + 3) % 6 - 3) ** 2 for a, b in zip(one[1:], other[1:])) for one, other in zip(start, melted)]
    assert (sum(squares) / 32) ** 0.5 == pytest.approx(0.599, abs=0.001) and sum(map(start.__contains__, back)) == 32


def reference_frames(name: str) -> List[Any]:
    """The frames of each DUMP of a solution: rows of a symbol and three coordinates."""
    user, frames = reference.User((8, 16384, 16)), []
    for text in reference.replies_to(io.BytesIO(b"".join(replied_lines(name))), user):
        if text.startswith(b"OK DUMP"):
            lines = [line.split() for line in text.decode().splitlines()[3:]]
            frames.append([(symbol, *map(float, parts)) for symbol, *parts in lines])
    return frames


def replied_lines(name: str) -> Iterator[bytes]:
    """The commands of a solution with their bodies."""
    for row in [line for line in SOLUTIONS[name] if not line.startswith(".")]:
        words = row.split()
        if words[0].startswith("LOAD"):
            body = (LESSONS / words[2]).read_bytes()
            yield " ".join([*words[:2], *words[3:], str(len(body))]).encode() + b"\n" + body
        else:
            yield ("REVERSE m\nADVANCE m 100\nREVERSE m" if row == "back m" else row).encode() + b"\n"


@pytest.mark.parametrize(
    "text, is_answer, is_right",
    [("1.446", True, True), ("1,446", True, True), ("1.46", True, False), ("1e0", True, False), ("", False, False), ("nan", False, False)]
    + [("1.4.4", False, False), ("1,4,4", False, False), ("a", False, False), ("0x1", False, False), ("1" * 40, False, False)],
)
def test_a_number_is_an_answer_with_a_point_or_a_comma(text: str, is_answer: bool, is_right: bool) -> None:
    question = lesson.question_of(["1.44", "to", "1.45"])
    assert (question.is_answer(text), question.is_right(text)) == (is_answer, is_right)


STEPS = "ljserve lesson 1\nsession a\nstep one\n"


@pytest.mark.parametrize(
    "text, line, why",
    [
        ("", 1, "a lesson must begin with `ljserve lesson 1`"),
        ("ljserve lesson 1\nstep one\n", 2, "a lesson must have a session and at least one step"),
        (f"{STEPS}step one\n", 4, "`step one` must not stand here"),
        (f"{STEPS}step One\n", 4, "must not stand here"),
        (f"{STEPS}session b\n", 4, "must not stand here"),
        (f"{STEPS}look\n", 4, "must not stand here"),
        (f"{STEPS}ask 1 to 2\nask 1 to 2\n", 5, "must not stand here"),
        (f"{STEPS}ask 2 to 1\n", 4, "HIGH must not be below LOW, got `2` to `1`"),
        (f"{STEPS}ask x to 1\n", 4, "a bound must be a number, got `x`"),
        (f"{STEPS}ask d of a b c\n", 4, "a question must be"),
        (f"{STEPS}expect\n", 4, "`expect` must be one of `reply OK ..`"),
        (f"{STEPS}expect reply\n", 4, "must be one of"),
        (f"{STEPS}expect place 0 at 0 is 1 2 within 0\n", 4, "must be one of `reply OK ..`, `place ATOM at STEP is"),
        (f"{STEPS}expect place 0 at 0 is 1 2 z within 0\n", 4, "invalid literal"),
        (f"{STEPS}expect frame at 0 is 123\n", 4, "a frame must be the first 16 to 64 digits of a SHA-256, got `123`"),
        (f"{STEPS}expect energy heat at 0 from 1 to 2\n", 4, "an energy must be one of kinetic, potential, total, got `heat`"),
        (f"{STEPS}expect energy total at 0 from 2 to 1\n", 4, "HIGH must not be below LOW, got `2` to `1`"),
    ],
)
def test_a_lesson_that_is_none_is_told(tmp_path: pathlib.Path, text: str, line: int, why: str) -> None:
    (tmp_path / "x.steps").write_text(text)
    (tmp_path / "x.en").write_text("[title]\nx\n[one]\nx\n[one hint]\nx\n")
    with pytest.raises(Damaged) as damaged:
        lesson.read(tmp_path / "x.en")
    assert damaged.value.line == line and why in str(damaged.value)


def test_a_text_that_is_missing_is_told(tmp_path: pathlib.Path) -> None:
    (tmp_path / "x.steps").write_text(f"{STEPS}expect reply OK LIST 0\n")
    (tmp_path / "x.en").write_text("[title]\nx\n[one]\nx\n")
    with pytest.raises(Damaged, match=r"the lesson must have a text \[one hint\]"):
        lesson.read(tmp_path / "x.steps")


def test_what_cannot_be_checked_has_status_2(folder: pathlib.Path, capsys: pytest.CaptureFixture[str]) -> None:
    (folder / "bad.lj").write_text("ljserve record 2\nnonsense\n")
    for words, why in [
        (["two_atoms.en", "none.lj"], "cannot read none.lj"),
        (["none.en", "bad.lj"], "cannot read none.steps"),
        (["two_atoms.fr", "bad.lj"], "cannot read two_atoms.fr"),
        (["two_atoms.en", "bad.lj"], "bad.lj, line 2"),
    ]:
        assert marking.main(words) == 2
        told = capsys.readouterr()
        assert why in told.err and told.out == ""
    with pytest.raises(SystemExit) as ended:
        marking.main(["two_atoms.en"])
    assert ended.value.code == 2


def test_a_record_of_another_session_is_not_right(folder: pathlib.Path, capsys: pytest.CaptureFixture[str]) -> None:
    with run(PROGRAM) as user:
        user.load("b", folder / "two_atoms.xyz", edge=256, sigma=1, h=131072, record=folder / "b.lj")
    status, lines = checked(capsys, "two_atoms.en", "b.lj")
    assert status == 1 and lines[0] == "load: missing: OK LOAD a 0 2" and lines[-1] == "0 of 5 steps are right"


def test_the_record_of_a_lesson_is_one_that_verify_plays(folder: pathlib.Path, capsys: pytest.CaptureFixture[str]) -> None:
    with talk_of("two_atoms.en", "kept.lj") as (_, says):
        for line in SOLUTIONS["two_atoms"][:5]:
            says(line)
    file = RecordFile("kept.lj")
    assert [entry.line.decode().split()[0] for entry in file.entries()] == ["LOAD", "SHOW", "ADVANCE", "SHOW"]
    assert file.is_ended and file.session == "a"


def test_what_the_document_of_the_prompt_says_of_lessons(folder: pathlib.Path) -> None:
    """Its command marks the record that its line at the prompt has begun."""
    text = (TOP / "docs" / "api" / "prompt.md").read_text()
    begin, check = (present(re.search(each, text))[1] for each in (r"`\.lesson ([^`]*)`", r"\n    python3 (-m ljclient check .*)\n"))
    (folder / "examples").symlink_to(EXAMPLES)
    with talk_of(*begin.split()) as (_, says):
        assert "Step 2 of 5" in says(SOLUTIONS["two_atoms"][0])
    done = subprocess.run([sys.executable, *check.split()], capture_output=True, text=True, env=environment())
    told = done.stdout.splitlines()
    assert (done.returncode, told[0], told[-1]) == (1, "load: right", "1 of 5 steps are right")


def test_answers_without_a_lesson_are_told(folder: pathlib.Path) -> None:
    with talk_of("two_atoms.en") as (talk, says):
        talk.lesson = None
        for line in (".answer 1", ".hint", ".lesson"):
            with pytest.raises(Exception, match="no lesson is begun"):
                says(line)
        wrong = {
            ".lesson none.en": "open none.steps",
            ".lesson crystal.xyz": "open crystal.steps",
            ".lesson a b c": "`c` is a word too many",
        }
        for line, why in wrong.items():
            with pytest.raises(Exception, match=why):
                says(line)
