"""The lesson of a class: what its pages show and accept, what prompts post, and the file of marks."""
import asyncio
import contextlib
import csv
import importlib
import io
import json
import pathlib
import stat
import threading
import time
from typing import Any, Dict, Iterator, List

import pytest

from class_pages import Answer, PagedLesson, StudentPage, begun
from lesson_solutions import NAMES, SOLUTIONS, wrong_answer
from lessons import Lesson, told
from ljclient import lesson as lessons
from screens import Screen, needs_tmux
from support import EXAMPLES, SECONDS, TOP, dimer, wait_until
from terminals import PROMPT, Terminal, environment

LESSONS = EXAMPLES / "lessons"
TWO = SOLUTIONS["two_atoms"]


@pytest.fixture
def lesson(tmp_path: pathlib.Path) -> Iterator[PagedLesson]:
    """A class of ann and ben, with the lesson of two atoms and marks."""
    with begun(tmp_path, "ann", "ben", "--lesson", LESSONS / "two_atoms.en", "--marks", "marks.csv") as lesson:
        yield lesson


class Pupil:
    """A student's page, by which a lesson is done."""

    def __init__(self, lesson: PagedLesson, name: str):
        self.lesson, self.cookie = lesson, lesson.cookie(name)
        self.page = StudentPage(lesson, self.cookie)
        self.about = self.page.next_news("lesson")
        self.progress = self.page.next_news("progress")

    @property
    def done(self) -> List[bool]:
        return [step["done"] for step in self.progress["steps"]]

    def says(self, line: str) -> List[str]:
        """Types a command, and returns its reply. Updates the progress."""
        told: List[str] = self.page.ask("commands", commands=[[line, ""]])["told"][0]
        self.progress = self.known()
        return told

    def known(self) -> Any:
        return self.posts("answer", step="none", answer="")["progress"]

    def posts(self, path: str, **words: Any) -> Any:
        answer = self.lesson.ask("POST", f"/{path}", words, Cookie=self.cookie)
        assert answer.status == 200, answer
        return json.loads(answer.text)

    def answers(self, text: str, step: str = "") -> str:
        """Answers the question of a step, by default the current one. Returns how the answer is taken."""
        steps, at = self.progress["steps"], self.progress["at"]
        answer = self.posts("answer", step=step or steps[min(at, len(steps) - 1)]["key"], answer=text)
        self.progress = answer["progress"]
        return str(answer["taken"])


def rows_of(folder: Any, name: str = "marks.csv") -> Dict[str, List[str]]:
    rows = list(csv.reader(io.StringIO((pathlib.Path(folder) / name).read_text())))
    return {row[0]: row[1:] for row in rows}


# On the page.


@pytest.mark.parametrize("name", NAMES)
def test_a_lesson_goes_to_its_end_on_a_page(tmp_path: pathlib.Path, name: str) -> None:
    """A wrong answer comes before each right one, and another command, which is answered, before each command."""
    steps = lessons.read(LESSONS / f"{name}.de").steps
    with begun(tmp_path, "ann", "--lesson", LESSONS / f"{name}.de", "--marks", "marks.csv") as begun_lesson:
        pupil = Pupil(begun_lesson, "ann")
        for language in ("en", "de"):
            assert pupil.about["texts"][language] == lessons.read(LESSONS / f"{name}.{language}").texts
        assert (pupil.about["preferred"], pupil.about["session"]) == ("de", lessons.read(LESSONS / f"{name}.en").session)
        for line in SOLUTIONS[name]:
            verb, *words = line.split()
            before = pupil.progress["at"]
            if verb == ".answer":
                assert (pupil.answers(wrong_answer(words[0])), pupil.answers("what?")) == ("wrong", "none")
                assert pupil.progress["at"] == before
                assert pupil.answers(words[0]) == "right" and pupil.progress["at"] == before + 1
            else:
                assert pupil.answers("1") in ("early", "none") and pupil.says("LIST")[0].startswith("OK LIST")
                assert pupil.progress["at"] == before
                assert not [each for each in pupil.says(line) if each.startswith(("ERR", "not sent"))]
        assert pupil.done == [True] * len(steps) == pupil.progress["at"] * [True]
        expected = ["right, 2 tries" if step.question else "done" for step in steps]
        wait_until(lambda: rows_of(tmp_path)["ann"] == [*expected, str(len(steps))])
        assert rows_of(tmp_path)["student"] == [*(step.key for step in steps), "total"]


def test_pages_are_told_of_steps_that_are_done_at_the_prompt(lesson: PagedLesson) -> None:
    pupil, other = Pupil(lesson, "ann"), Pupil(lesson, "ben")
    with lesson.student("ann") as user:
        dimer(user)
        user.ask("SHOW a 1")
    while not pupil.page.next_news("progress")["steps"][1].get("choices") == []:
        pass
    assert pupil.known()["at"] == 1 and other.known()["at"] == 0
    assert pupil.answers("16777216", "place") == "right"
    assert pupil.page.next_news("progress")["at"] == 2


def test_what_a_page_asks_by_itself_is_nothing_of_the_lesson(tmp_path: pathlib.Path) -> None:
    """It dumps each frame that it shows, and a step expects a dump of the first frame."""
    with begun(tmp_path, "ann", "--lesson", LESSONS / "melting.en") as lesson:
        pupil = Pupil(lesson, "ann")
        pupil.says(SOLUTIONS["melting"][0])
        pupil.page.ask("load", session="m")
        assert pupil.page.ask("frame", steps=0)["step"] == 0 and pupil.known()["at"] == 1
        pupil.says("DUMP m")
        pupil.says("MEASURE m")
        assert pupil.known()["steps"][1]["choices"] == []


WORDS = {
    "capitals": ("load a two_atoms.xyz 256 1 131072", "OK LOAD a 0 2"),
    "a folder": ("LOAD b examples/lessons/two_atoms.xyz 256 1 131072", "OK LOAD b 0 2"),
    "a word of physics": ("go a 3steps", "OK ADVANCE a 3"),
    "energies": ("MEASURE a", "  kinetic "),
    "the way back": ("back a", "  a is where it was loaded"),
    "undo": ("undo", "OK ADVANCE a 3"),
    "a refusal": ("SHOW a 9", "  there is no atom of that number; atoms are numbered from 0"),
    "another file": ("LOAD c /etc/passwd 256 1 131072", "not sent: a page loads no file of this name"),
    "a file that is there, and not beside the lesson": ("LOAD c argon_256.xyz 21.04 3.4 3706", "not sent: a page loads no file"),
    "a file in a folder above": ("LOAD c ../argon_256.xyz 21.04 3.4 3706", "not sent: a page loads no file"),
    "a file to write": ("DUMP a > /tmp/a.xyz", "ERR 03 SYNTAX"),
    "a file to save": ("save a /tmp/a.saved", "ERR 06 COMMAND"),
    "a file to read": (".read /etc/passwd", "ERR 06 COMMAND"),
    "a saved file": ("load_saved /etc/passwd", "ERR 06 COMMAND"),
    "too far": ("go a 2000000steps", "not sent: a page goes by at most 1,000,000 steps at once, got 2,000,000"),
    "wrong words": ("go a", "not sent: "),
    "a farewell": ("BYE", "not sent: BYE would end the connection of this page"),
}


def test_the_words_of_the_prompt_on_a_page(lesson: PagedLesson) -> None:
    pupil = Pupil(lesson, "ann")
    for what, (line, expected) in WORDS.items():
        assert any(each.startswith(expected) for each in pupil.says(line)), what


def test_what_a_page_knows_of_a_session_that_the_prompt_has_loaded(lesson: PagedLesson) -> None:
    """The page knows its scale, but not its way since it was loaded."""
    with lesson.student("ann") as user:
        dimer(user).advance(2)
        pupil = Pupil(lesson, "ann")
        assert "epsilon an atom" in pupil.says("MEASURE a")[1]
        assert pupil.says("distance a")[-1].startswith("not sent: cannot tell how far a is from where it was loaded")
        assert pupil.says("undo")[0].startswith("not sent: cannot undo") and pupil.says("go a 1steps")[1] == "OK ADVANCE a 3"
        user.ask("ADVANCE a 4")
        assert pupil.says("undo")[0].startswith("not sent: cannot undo")


# What is posted.


def post_of(of_class: PagedLesson, path: str, **words: Any) -> Answer:
    """The answer to a prompt that posts with the token of ann."""
    return of_class.ask("POST", f"/{path}", {"name": "ann", "token": of_class.tokens()["ann"], **words})


def test_posts_by_a_wrong_token_are_refused(lesson: PagedLesson) -> None:
    for path in ("answer", "line", "scale", "scales"):
        for words in ({}, {"name": "ann"}, {"name": "ann", "token": "x" * 32}, {"name": "zed", "token": lesson.tokens()["ann"]}):
            answer = lesson.ask("POST", f"/{path}", words, source="127.0.0.5")
            assert (answer.status, answer.text) == (403, "the class knows no student of this name and token")
        assert lesson.ask("GET", f"/{path}").status == 404
        assert post_of(lesson, path, more="x" * 9000).status == 403
        assert lesson.ask("POST", f"/{path}", {}, Origin="https://evil.example", source="127.0.0.5").status == 403


def test_answers_by_the_token_of_a_slip(lesson: PagedLesson) -> None:
    with lesson.student("ann") as user:
        dimer(user)
        assert json.loads(post_of(lesson, "answer", step="place", answer="16777216").text)["taken"] == "early"
        user.ask("SHOW a 1")
    takes = {"16777217": "wrong", "": "none", "x": "none", "1" * 100: "none", "16777216": "right", "5": "wrong"}
    for text, taken in takes.items():
        assert json.loads(post_of(lesson, "answer", step="place", answer=text).text)["taken"] == taken
    wait_until(lambda: rows_of(lesson.folder)["ann"] == ["done", "right, 2 tries", "", "", "", "2"])
    assert json.loads(post_of(lesson, "answer", step=["place"], answer={}).text)["taken"] == "none"
    other = post_of(lesson, "answer", lesson="melting", step="hot", answer="1.446")
    assert (other.status, other.text) == (409, "the class has another lesson, two_atoms: answers to this one are not kept")


def test_what_cannot_be_kept_is_told(lesson: PagedLesson) -> None:
    """The folder is gone, as if its disk was."""
    pupil = Pupil(lesson, "ann")
    for line in TWO[:2]:
        pupil.says(line)
    (lesson.folder / "class-kept" / "lesson-two_atoms").rename(lesson.folder / "away")
    answer = post_of(lesson, "answer", step="place", answer="16777216")
    assert (answer.status, answer.text) == (503, "the class cannot keep this: No such file or directory")
    (lesson.folder / "away").rename(lesson.folder / "class-kept" / "lesson-two_atoms")
    assert pupil.known()["at"] == 1
    assert json.loads(post_of(lesson, "answer", step="place", answer="16777216").text)["taken"] == "right"


def test_who_posts_too_often_waits_and_others_do_not(lesson: PagedLesson) -> None:
    """20 a second are taken. On a slow machine 150 may come so slowly that none is refused."""
    statuses: List[int] = []
    flood = [threading.Thread(target=lambda: statuses.append(post_of(lesson, "answer").status)) for _ in range(150)]
    for each in flood:
        each.start()
    cookie, start = lesson.cookie("ben"), time.monotonic()
    assert lesson.ask("POST", "/answer", {"step": "load"}, Cookie=cookie).status == 200 and time.monotonic() - start < 5
    for each in flood:
        each.join(SECONDS)
    assert {*statuses} <= {200, 429} and statuses.count(200) >= 100


def test_of_many_posts_at_once_the_last_are_refused(monkeypatch: pytest.MonkeyPatch) -> None:
    """20 a second are taken. Of 150 at one moment, 101 have their turn within 5 seconds. A post of another student is taken too."""
    monkeypatch.syspath_prepend(str(TOP / "tools"))
    module, slept = importlib.import_module("ljtools.teaching.posts"), []

    async def sleep(seconds: float) -> None:
        slept.append(seconds)

    async def taken() -> List[bool]:
        loop = asyncio.get_running_loop()
        monkeypatch.setattr(loop, "time", lambda: 100.0)
        monkeypatch.setattr(asyncio, "sleep", sleep)
        posts = module.Posts(None, None)
        return [await posts._has_turn("ann") for _ in range(150)] + [await posts._has_turn("ben")]

    found = asyncio.run(taken())
    assert found == [True] * 101 + [False] * 49 + [True]
    assert max(slept) == pytest.approx(5) and slept[-1] == 0


def test_a_class_without_a_lesson_takes_no_answers(tmp_path: pathlib.Path) -> None:
    with begun(tmp_path, "ann") as lesson:
        assert (post_of(lesson, "answer", step="place", answer="1").status, post_of(lesson, "line", known="-").status) == (404, 200)
        with lesson.page("ann") as page:
            assert "lesson" not in page.news[0]


def test_a_text_of_the_teacher_is_waited_for(lesson: PagedLesson) -> None:
    assert json.loads(post_of(lesson, "line", known="another").text) == {"teacher": ""}
    found: List[Any] = []
    waits = threading.Thread(target=lambda: found.append(json.loads(post_of(lesson, "line", known="").text)))
    waits.start()
    time.sleep(0.2)
    assert not found
    lesson.types("m Look here")
    waits.join(SECONDS)
    assert found == [{"teacher": "Look here"}]


def test_a_class_ends_at_once_though_texts_are_waited_for(lesson: PagedLesson) -> None:
    waits = [threading.Thread(target=post_of, args=(lesson, "line"), kwargs={"known": ""}) for _ in range(5)]
    for each in waits:
        each.start()
    time.sleep(0.3)
    start = time.monotonic()
    lesson.types("q")
    assert lesson.ended()[0] == 0 and time.monotonic() - start < 10
    for each in waits:
        each.join(SECONDS)


def test_scales_are_kept_until_a_session_is_loaded_again(lesson: PagedLesson) -> None:
    def scales() -> Any:
        return json.loads(post_of(lesson, "scales").text)["scales"]

    with lesson.student("ann") as user:
        dimer(user)
        assert scales() == {} and post_of(lesson, "scale", session="a", scale="of argon").status == 200
        assert scales() == {"a": "of argon"}
        for session, scale in [("b", "x"), ("a", 1), ("a", "x" * 4097), ("ä", "x"), (None, None)]:
            assert post_of(lesson, "scale", session=session, scale=scale).status == 404
        user.ask("ADVANCE a 5")
        assert scales() == {"a": "of argon"}
        lesson.kill()
        lesson.begin()
    with lesson.student("ann") as user:
        wait_until(lambda: scales() == {"a": "of argon"})
        user.ask("DROP a")
        assert scales() == {}
        dimer(user)
        assert scales() == {}


# At a prompt.


def words_of_prompt(lesson: PagedLesson) -> List[str]:
    """The words of a prompt, from the slip of ann."""
    (words,) = {line.strip() for line in lesson.slips().splitlines() if f":{lesson.port} ann" in line and "ljclient" in line}
    return [*PROMPT, *words.split()[3:]]


def variables_of_prompt(lesson: PagedLesson, **variables: str) -> Dict[str, str]:
    return environment(**{"LJSERVE_TOKEN": lesson.tokens()["ann"], "XDG_STATE_HOME": str(lesson.folder / "state"), **variables})


@contextlib.contextmanager
def prompt_of(lesson: PagedLesson, **variables: str) -> Iterator[Terminal]:
    """The prompt of ann, in the folder of the class."""
    env = variables_of_prompt(lesson, **variables)
    with contextlib.closing(Terminal(words_of_prompt(lesson), env, cwd=lesson.folder)) as terminal:
        terminal.until("ann> ")
        yield terminal


def says(terminal: Terminal, line: str) -> str:
    terminal.type(f"{line}\r")
    return str(terminal.until("\nann> "))


def test_the_slip_says_the_port_of_the_pages(lesson: PagedLesson) -> None:
    assert f"127.0.0.1:{lesson.port} ann --page {lesson.page_port} --fingerprint " in lesson.slips()


def test_answers_at_a_prompt_are_sent(lesson: PagedLesson) -> None:
    with prompt_of(lesson) as terminal:
        says(terminal, f".lesson {LESSONS / 'two_atoms.de'}")
        for line in TWO[:2]:
            says(terminal, line)
        assert "nicht richtig" in says(terminal, ".answer 7") and "Das ist richtig" in says(terminal, TWO[2])
        wait_until(lambda: rows_of(lesson.folder)["ann"] == ["done", "right, 2 tries", "", "", "", "2"])
        says(terminal, f".lesson {LESSONS / 'melting.en'}")
        for line in SOLUTIONS["melting"][:4]:
            says(terminal, line)
        wait_until(lambda: "the class has another lesson, two_atoms" in says(terminal, "LIST"))


def test_the_text_of_the_teacher_is_shown_at_a_prompt(lesson: PagedLesson) -> None:
    with prompt_of(lesson) as terminal:
        lesson.types("m Now look at the wall")
        terminal.until("\n  the teacher: Now look at the wall\nann> ")
        assert "the teacher" not in says(terminal, "LIST")


@needs_tmux
def test_the_text_of_the_teacher_is_shown_below_the_line(lesson: PagedLesson) -> None:
    pytest.importorskip("prompt_toolkit", reason="prompt_toolkit is not installed")
    screen = Screen(words_of_prompt(lesson), variables_of_prompt(lesson, TERM="screen"), cwd=lesson.folder)
    with contextlib.closing(screen):
        screen.until("^ann>")
        lesson.types("m Now look at the wall")
        assert screen.until("^the teacher: ")[-1] == "the teacher: Now look at the wall"
        lesson.types("m")
        wait_until(lambda: not any(line.startswith("the teacher") for line in screen.lines()))


def test_a_prompt_goes_on_when_the_pages_are_gone(lesson: PagedLesson) -> None:
    """A message says so once, and answers given in the meantime are sent when they are back."""
    with prompt_of(lesson) as terminal:
        for line in (f".lesson {LESSONS / 'two_atoms.en'}", *TWO[:2]):
            says(terminal, line)
        lesson.kill()
        start = time.monotonic()
        terminal.type(f"{TWO[2]}\r")
        terminal.until("That is right")
        assert time.monotonic() - start < 3
        for _ in range(3):
            time.sleep(1)
            says(terminal, ".hint")
        assert terminal.written.count("the page of the class does not answer") == 1
        lesson.begin()
        wait_until(lambda: rows_of(lesson.folder)["ann"][1] == "right, 1 try")
        says(terminal, "LIST")
        terminal.type("LIST\r")
        terminal.until("OK LIST 1")
        assert terminal.written.count("the page of the class does not answer") == 1


def test_a_scale_is_known_to_the_next_connection(lesson: PagedLesson, tmp_path: pathlib.Path) -> None:
    """Also on another machine, which has no notes of its own."""
    load = f"LOAD argon {EXAMPLES / 'argon_256.xyz'} edge=21.04 dt=2fs argon"
    with prompt_of(lesson) as terminal:
        assert "OK LOAD argon 0 256" in says(terminal, load)
        wait_until(lambda: json.loads(post_of(lesson, "scales").text)["scales"])
        terminal.type("exit\r")
        assert terminal.ended()[0] == 0
    with prompt_of(lesson, XDG_STATE_HOME=str(tmp_path / "other")) as terminal:
        assert "temperature 0 K" in says(terminal, "MEASURE argon")


@pytest.mark.parametrize(
    "words, why",
    [
        (["127.0.0.1:4000", "ann", "--page", "4443"], "--page must come with --fingerprint, that of the class"),
        (["127.0.0.1:4000", "ann", "--page", "x", "--fingerprint", "0" * 32], "--page must be a port or HOST:PORT, such as 4443"),
        (["127.0.0.1:4000", "ann", "--page", "h:0", "--fingerprint", "0" * 32], "--page must be a port or HOST:PORT, such as 4443"),
    ],
)
def test_a_wrong_page_is_told(capsys: pytest.CaptureFixture[str], words: List[str], why: str) -> None:
    from ljclient.prompt.starting import main

    with pytest.raises(SystemExit) as ended:
        main(words)
    assert ended.value.code == 2 and why in capsys.readouterr().err


# Marks.


def test_marks_and_ticks_outlast_a_class_that_is_killed(lesson: PagedLesson) -> None:
    """Also in the middle of a step: commands of it that were seen need not be repeated."""
    pupil = Pupil(lesson, "ann")
    for line in (TWO[0], TWO[1], TWO[3], TWO[4], TWO[6], TWO[7]):
        pupil.says(line)
    assert (pupil.answers("7", "place"), pupil.answers("16777216", "place")) == ("wrong", "right")
    before = pupil.progress
    lesson.kill()
    assert not (lesson.folder / "class-kept" / "lesson-two_atoms" / "ben.json").exists()
    lesson.begin()
    pupil = Pupil(lesson, "ann")
    assert pupil.progress == before and "choices" not in before["steps"][3]
    assert rows_of(lesson.folder)["ann"] == ["done", "right, 2 tries", "not answered", "", "", "2"]
    pupil.says("MEASURE a")
    assert pupil.known()["steps"][3]["choices"] == []


def test_marks_are_for_their_owner_and_have_each_student(lesson: PagedLesson) -> None:
    file = lesson.folder / "marks.csv"
    wait_until(file.exists)
    assert stat.S_IMODE(file.stat().st_mode) == 0o600
    assert rows_of(lesson.folder)["ben"] == ["", "", "", "", "", "0"]
    lesson.types("a -x")
    wait_until(lambda: "'-x" in rows_of(lesson.folder))
    lesson.types("q")
    assert lesson.ended()[0] == 0 and list(rows_of(lesson.folder)) == ["student", "'-x", "ann", "ben"]
    assert [path.name for path in lesson.folder.iterdir() if path.name.startswith(".")] == []


def test_where_no_answer_can_come_a_step_is_done_by_its_replies(tmp_path: pathlib.Path) -> None:
    with contextlib.ExitStack() as ends:
        lesson = Lesson(tmp_path, "ann", "--lesson", LESSONS / "two_atoms.en", "--marks", "marks.csv")
        ends.callback(lesson.close)
        with lesson.student("ann") as user:
            dimer(user)
            user.ask("SHOW a 1")
        wait_until(lambda: rows_of(tmp_path)["ann"] == ["done", "done", "", "", "", "2"])


def test_a_lesson_that_was_changed_begins_anew(tmp_path: pathlib.Path) -> None:
    for name in ("two_atoms.en", "two_atoms.xyz"):
        (tmp_path / name).write_text((LESSONS / name).read_text())
    steps = tmp_path / "two_atoms.steps"
    steps.write_text((LESSONS / "two_atoms.steps").read_text())
    with begun(tmp_path, "ann", "--lesson", "two_atoms.steps") as lesson:
        Pupil(lesson, "ann").says(TWO[0])
        lesson.kill()
        for text in ("{", '{"step": "none", "missing": [], "unit": 0, "answers": {}}', '{"step": "load", "missing": [9], "unit": 0}'):
            (tmp_path / "class-kept" / "lesson-two_atoms" / "ann.json").write_text(text)
            lesson.begin()
            assert Pupil(lesson, "ann").progress["at"] == 0
            lesson.kill()
        lesson.begin()


def test_the_wall_has_the_ticks(lesson: PagedLesson) -> None:
    pupil = Pupil(lesson, "ann")
    with contextlib.closing(lesson.wall()) as wall:
        for line in TWO[:2]:
            pupil.says(line)
        ticks = [True, False, False, False, False]
        while steps_shown(wall) != ticks:
            pass
        pupil.answers("16777216")
        while steps_shown(wall) != [True, *ticks[:-1]]:
            pass


def steps_shown(wall: Any) -> Any:
    """The steps of ann in the next message to the wall, or None if that is about something else, such as a picture."""
    rows = json.loads(wall.receive() or "").get("students", [])
    return next((row["steps"] for row in rows if row["name"] == "ann"), None)


WRONG: Dict[str, Any] = {
    "marks without a lesson": (["ann", "--marks", "m.csv"], 2, "--marks must come with --lesson, whose steps are marked"),
    "a file of something else": (
        ["ann", "--no-page", "--lesson", LESSONS / "two_atoms.en", "--marks", "notes.csv"],
        1,
        "cannot write notes.csv: it exists, and has no marks of this class; use another file by --marks FILE",
    ),
    "marks of another class": (
        ["ann", "--no-page", "--lesson", LESSONS / "two_atoms.en", "--marks", "old.csv"],
        1,
        "cannot write old.csv: it exists, and has no marks of this class",
    ),
    "no lesson": (["ann", "--lesson", "none.en"], 2, "--lesson: "),
}


@pytest.mark.parametrize("what", WRONG)
def test_wrong_options_begin_nothing(tmp_path: pathlib.Path, what: str) -> None:
    (tmp_path / "notes.csv").write_text("a,b\n1,2\n")
    (tmp_path / "old.csv").write_text("student,load,total\nann,done,1\n")
    words, status, why = WRONG[what]
    found = told(tmp_path, *words)
    assert found[0] == status and why in found[2] and not (tmp_path / "class-kept").exists()
    assert (tmp_path / "notes.csv").read_text() == "a,b\n1,2\n"
