"""Checks of the blocks of docs/CLASS.md, over a class that `tools/class` begins."""
import contextlib
import re
from typing import Any, Iterator

from blocks import TOP
from lessons import Lesson
from ljclient import units
from support import EXAMPLES, RING
from terminals import PROMPT, Terminal, environment


@contextlib.contextmanager
def lesson_of(folder: Any, *words: Any) -> Iterator[Any]:
    """A class in a folder."""
    lesson = Lesson(folder.path, *words)
    try:
        yield lesson
    finally:
        lesson.close()


def in_lesson(text: str, lesson: Any) -> str:
    """The text of a block for the first student of a class."""
    way = {"TOKEN": f'"{lesson.tokens()["student01"]}"', "FINGERPRINT": f'"{lesson.fingerprint()}"'}
    text = text.replace("192.0.2.10:4000", f"127.0.0.1:{lesson.port}").replace('"192.0.2.10", 4000', f'"127.0.0.1", {lesson.port}')
    return re.sub(r"\bTOKEN|\bFINGERPRINT", lambda word: way[word[0]], re.sub(r"(?<=fingerprint )\S+", lesson.fingerprint(), text))


def before_the_lesson(block: Any, folder: Any) -> None:
    """It shows what stands below, but for the time and the address."""
    with lesson_of(folder, *block.text.split()[1:]) as lesson:
        shown = re.sub(r"\d\d:\d\d:\d\d", "10:00:02", lesson.shown).replace(f"127.0.0.1:{lesson.port}", "192.0.2.10:4000")
        assert len(lesson.tokens()) == 22
    for line in (shown.splitlines()[0], shown.splitlines()[-1]):
        assert f"\n    {line}\n" in (TOP / "docs" / "CLASS.md").read_text()


def prompt_of_a_student(block: Any, folder: Any) -> None:
    with lesson_of(folder, "student01") as lesson:
        token = f"export LJSERVE_TOKEN={lesson.tokens()['student01']}\n"
        assert folder.shell(token + in_lesson(block.text, lesson), "LIST\n") == "OK LIST 0\n"


def lesson_at_the_prompt(block: Any, folder: Any) -> None:
    """The lines are a file that is read at the prompt. All atoms that are shown move, and are back at their places at the end."""
    (folder.path / "lesson.txt").write_text(block.text.replace("examples/", f"{EXAMPLES}/"))
    words = {**environment(), "PYTHONPATH": str(TOP / "clients" / "python")}
    with contextlib.closing(Terminal(PROMPT, words, cwd=folder.path)) as terminal:
        terminal.until("ljserve> ")
        terminal.type(".read lesson.txt\r")
        told = terminal.until("OK ADVANCE argon 0\n.*OK SHOW argon 0 4 [^\n]*\nljserve> ")
    shown = re.findall(r"^OK SHOW argon (\d+) (\d) (\d+) (\d+) (\d+)$", told, re.M)
    assert [(step, atom) for step, atom, *_ in shown] == [(step, str(atom)) for step in ("0", "1000", "0") for atom in range(5)]
    start, away, back = ([place for _, _, *place in shown[at : at + 5]] for at in (0, 5, 10))
    assert back == start
    assert all(moved > 0.1 for moved in map(farthest, away, start))


def farthest(place: Any, other: Any) -> float:
    """How far two places are from each other along an axis at most, round the box the nearer way, in angstrom."""
    apart = [abs(int(one) - int(two)) for one, two in zip(place, other)]
    return max(min(each, RING - each) for each in apart) * 21.04 / RING


def lesson_in_python(block: Any, folder: Any) -> None:
    with lesson_of(folder, "student01") as lesson:
        away, back = folder.python(in_lesson(block.text, lesson))
    assert float(away) > 1
    assert back == "0.0"


def after_the_lesson(block: Any, folder: Any) -> None:
    with lesson_of(folder, "student01") as lesson:
        with lesson.student("student01") as user:
            user.load("argon", EXAMPLES / "argon_256.xyz", edge=21.04, dt=2, **units.ARGON)
        folder.python(in_lesson(block.text, lesson))
    assert (folder.path / "argon.saved").read_text().startswith("ljserve checkpoint 1\n")
