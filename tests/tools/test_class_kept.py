"""What a class keeps: users, tokens and sessions continue by the same command, however the class or its server has ended."""
import contextlib
import os
import pathlib
import re
import signal
import socket
import subprocess
import sys
import threading
import time
from typing import Any, Dict, Iterator, List, Tuple

import pytest

from keepers import until
from lessons import Lesson, lines_from, told
from support import DIMER, SECONDS, TOKEN, TOP, dimer
from trial_students import Floods, Raw, Student

DENIED = b"ERR 01 DENIED\n"
LOAD = f"LOAD a 256 1 131072 rest {len(DIMER)}\n{DIMER}".encode()
COUNT = 20
FLOODS, VANISHES = 3, 7


@pytest.fixture
def begin(tmp_path: pathlib.Path) -> Iterator[Any]:
    """Starts a class in a folder of its own, and ends it with the test."""
    begun = []

    def lesson(*words: Any) -> Any:
        begun.append(Lesson(tmp_path, *words))
        return begun[-1]

    yield lesson
    for each in begun:
        each.close()


class VanishesWithinALine(Raw):
    """Vanishes within a line, without an end of TLS."""

    def misbehave(self) -> None:
        self.stream.sendall(b"ADVANCE a 10")
        os.close(self.stream.detach())
        self.stream = None


def student_of(lesson: Any, number: int, gate: threading.Barrier) -> Student:
    """A student over a connection of bytes, who waits for the others in the middle of the lesson."""

    def before(student: Student, at: int) -> None:
        if at == len(student.commands) // 2:
            if isinstance(student.way, (Floods, VanishesWithinALine)):
                student.way.misbehave()
            gate.wait(SECONDS)

    kind = {FLOODS: Floods, VANISHES: VanishesWithinALine}.get(number, Raw)
    name = f"student{number:02}"
    return Student(name, number, lambda: kind(lesson, name), before)


def test_twenty_students_go_on_when_the_class_is_killed(begin: Any) -> None:
    """One of them floods it, and one vanishes within a line. Each gets the replies of a program alone, except those that were on their
    way, and the same frame at the end."""
    lesson = begin(COUNT, "--of-an-address", "100")
    before = lesson.tokens()
    gate = threading.Barrier(COUNT + 1)
    students = [student_of(lesson, number, gate) for number in range(1, COUNT + 1)]
    gate.wait(SECONDS)
    time.sleep(0.05)
    lesson.kill()
    lesson.begin()
    lost = sum(student.check() for student in students)
    assert lost <= COUNT and lesson.tokens() == before
    assert secrets_in(lesson.shown, before) == []


def secrets_in(text: str, tokens: Dict[str, str]) -> List[str]:
    """The tokens in a text, with blanks or without."""
    return [token for token in tokens.values() if token in re.sub(r"\s", "", text)]


def test_the_server_is_killed_and_the_students_stay(begin: Any) -> None:
    lesson = begin("ann", "--plain")
    token = lesson.tokens()["ann"]
    lesson_server = lesson.server()
    with contextlib.closing(plain(lesson)) as stream:
        stream.sendall(f"HELLO ann {token}\n".encode() + LOAD + b"ADVANCE a 1\n")
        lines_from(stream, 3)
        os.kill(lesson_server, signal.SIGKILL)
        stream.sendall(b"ADVANCE a 1\nSHOW a 0\n")
        # Of the two atoms after two steps: docs/PROTOCOL.md, "A step in half a page".
        assert lines_from(stream, 2) == [b"OK ADVANCE a 2\n", b"OK SHOW a 2 0 1774 0 0\n"]
        lesson.until("the server has ended: it was ended by signal 9\n.*the server was begun again, and goes on where it was\n")
    assert lesson.child.poll() is None and secrets_in(lesson.shown, {"ann": token}) == []


def plain(lesson: Any) -> Any:
    return socket.create_connection(("127.0.0.1", lesson.port), SECONDS)


def end_by_q(lesson: Any) -> None:
    lesson.types("q")
    assert lesson.ended()[0] == 0


def end_by_interrupts(lesson: Any) -> None:
    lesson.child.send_signal(signal.SIGINT)
    lesson.until("Ctrl-C within 30 seconds")
    lesson.child.send_signal(signal.SIGINT)
    assert lesson.ended()[0] == 0


def kill_both(lesson: Any) -> None:
    os.kill(lesson.server(), signal.SIGKILL)
    lesson.kill()


@pytest.mark.parametrize("end", [end_by_q, end_by_interrupts, Lesson.kill, kill_both])
def test_the_same_words_go_on_after_each_end(begin: Any, end: Any) -> None:
    lesson = begin("ann", "ben")
    slips = lesson.slips()
    with lesson.student("ann") as ann, lesson.student("ben") as ben:
        assert dimer(ann).advance(2) == 2 and ben.sessions() == []
        end(lesson)
    lesson.begin()
    assert "slips in slips.txt and slips.html are as they were" in lesson.shown and lesson.slips() == slips
    with lesson.student("ann") as ann:
        assert [(row.name, row.step) for row in ann.sessions()] == [("a", 2)]
        assert ann.session("a", edge=256, sigma=1, h=131072).place(0) == (1774, 0, 0)
    with lesson.student("ben") as ben:
        assert ben.sessions() == []


def test_changed_users_stay_changed(begin: Any, tmp_path: pathlib.Path) -> None:
    """Also those of a file, whose tokens are read only once."""
    file = tmp_path / "mine"
    file.touch(0o600)
    file.write_text(f"ann {TOKEN} 8 16384 16\n")
    lesson = begin("--users", file)
    lesson.types("r ann")
    lesson.until("ann has a new token")
    lesson.types("a bob")
    lesson.until("bob may come in")
    tokens = lesson.tokens()
    assert tokens["ann"] != TOKEN and set(tokens) == {"ann", "bob"}
    lesson.kill()
    lesson.begin()
    assert lesson.tokens() == tokens
    for name in tokens:
        with lesson.student(name) as user:
            assert user.sessions() == []
    with lesson.raw(f"HELLO ann {TOKEN}\n".encode()) as stream:
        assert lines_from(stream, 1) == [DENIED]


def test_a_class_that_was_ended_while_it_was_made_is_made_by_the_same_words(begin: Any, tmp_path: pathlib.Path) -> None:
    """After each file that is written."""
    begin("ann").kill()
    before = sorted(os.listdir(tmp_path / "class-kept"))
    assert {"class.json", "class.pem", "kept.sqlite"} < set(before)
    kinds: List[List[str]] = [[], ["lock"], ["lock", "kept.sqlite"], ["lock", "kept.sqlite", "class.pem"]]
    for left in kinds:
        for path in (tmp_path / "class-kept").iterdir():
            if path.name not in ["class.json", *left]:
                path.unlink()
        lesson = begin("ann")
        with lesson.student("ann") as user:
            assert user.sessions() == []
        lesson.kill()


def test_another_address_makes_new_slips(begin: Any) -> None:
    lesson = begin("ann")
    token, fingerprint = lesson.tokens(), lesson.fingerprint()
    lesson.kill()
    lesson.words += ["--address", "192.0.2.7"]
    with pytest.raises(AssertionError):
        lesson.begin()
    lesson.until("students reach you at 192.0.2.7")
    assert "1 user in class-kept, slips in slips.txt and slips.html are new" in lesson.shown
    assert f"ann at 192.0.2.7:{lesson.port}\n" in lesson.slips() and (lesson.tokens(), lesson.fingerprint()) == (token, fingerprint)


def test_the_certificate_stays_where_a_class_was_plain_in_between(begin: Any) -> None:
    lesson = begin("ann")
    slips = lesson.slips()
    lesson.kill()
    lesson.words.append("--plain")
    lesson.begin()
    token = lesson.tokens()["ann"]
    with contextlib.closing(plain(lesson)) as stream:
        stream.sendall(f"HELLO ann {token}\n".encode())
        assert lines_from(stream, 1) == [b"OK HELLO ann\n"] and "fingerprint" not in lesson.slips()
    lesson.kill()
    lesson.words.pop()
    lesson.begin()
    assert lesson.slips() == slips


@pytest.mark.parametrize("more", [[], ["--plain"]])
def test_the_status_of_its_folder(begin: Any, tmp_path: pathlib.Path, more: Any) -> None:
    lesson = begin("ann", *more)
    with contextlib.closing(plain(lesson) if more else lesson.raw()) as stream:
        stream.sendall(f"HELLO ann {lesson.tokens()['ann']}\n".encode())
        assert lines_from(stream, 1) == [b"OK HELLO ann\n"]
        until(lambda: status_of(tmp_path)[0] == 0)
    lesson.kill()
    status, out = status_of(tmp_path)
    assert status == 1 and out.startswith("does not run: it was killed\n")


def status_of(folder: Any) -> Tuple[int, str]:
    tool = [sys.executable, str(TOP / "tools" / "keep"), "--status", "class-kept"]
    done = subprocess.run(tool, cwd=folder, capture_output=True, text=True, timeout=SECONDS)
    return done.returncode, done.stdout


# What is refused.

HERE = ["--listen", "127.0.0.1:0", "--workers", "1"]
ANOTHER = "use another folder by --keep FOLDER\n"


def files_of(folder: Any) -> Dict[str, Tuple[int, bytes]]:
    """All files below a folder, except those that a database has while it is open."""
    paths = [path for path in folder.rglob("*") if path.is_file() and not path.name.endswith(("-wal", "-shm"))]
    return {str(path): (path.stat().st_mode, path.read_bytes()) for path in paths}


def test_a_folder_of_another_class_is_refused(begin: Any, tmp_path: pathlib.Path) -> None:
    begin("ann", "ben").kill()
    before = files_of(tmp_path)
    goes_on = "use `tools/class --keep class-kept` to go on with it (`a NAME` adds a user there)"
    for words, why in (
        (["3"], ("3 users (student01, student02, student03)", "2 users (ann, ben)")),
        (["ann"], ("1 user (ann)", "2 users (ann, ben)")),
        (["ann", "ben", "--quota", "1", "2", "3"], ("the quota 1 2 3", "the quota 8 16384 16")),
    ):
        wanted = f"class: cannot begin with {why[0]}: class-kept has a class of {why[1]}; {goes_on}, or {ANOTHER}"
        assert told(tmp_path, *words, *HERE) == (1, "", wanted)
    assert files_of(tmp_path) == before


def test_other_users_of_a_file_are_refused(begin: Any, tmp_path: pathlib.Path) -> None:
    file = tmp_path / "mine"
    file.touch(0o600)
    file.write_text(f"ann {TOKEN} 8 16384 16\n")
    begin("--users", "mine").kill()
    file.write_text(f"ann {'b' * 32} 8 16384 16\n")
    status, _, err = told(tmp_path, "--users", "mine", *HERE)
    why = "class: cannot begin with the users of mine as they are now: class-kept has a class of 1 user of a file (ann)"
    assert status == 1 and err.startswith(why)


def test_what_is_no_class_is_refused(tmp_path: pathlib.Path) -> None:
    tool = [sys.executable, str(TOP / "tools" / "users"), "ann", "--store", str(tmp_path / "kept"), "--slips", str(tmp_path / "s")]
    subprocess.run(tool, check=True, timeout=SECONDS)
    (tmp_path / "other").mkdir()
    (tmp_path / "other" / "precious").write_text("precious")
    (tmp_path / "file").write_text("precious")
    before = files_of(tmp_path)
    for folder, what in (("kept", "what `tools/keep` keeps for other users"), ("other", "something else")):
        assert told(tmp_path, "2", "--keep", folder, *HERE) == (
            1,
            "",
            f"class: cannot use {folder}: it has {what}, and no class; {ANOTHER}",
        )
    status, _, err = told(tmp_path, "2", "--keep", "file", *HERE)
    assert status == 1 and err.startswith("class: ") and "Traceback" not in err
    why = "class: cannot begin: none has no class yet; use COUNT, NAME.. or --users FILE\n"
    assert told(tmp_path, "--keep", "none", *HERE) == (1, "", why)
    assert files_of(tmp_path) == before


def test_a_folder_in_use_is_refused(begin: Any, tmp_path: pathlib.Path) -> None:
    lesson = begin("ann")
    why = "another class runs there; end that one, or use another folder by --keep FOLDER\n"
    status, _, err = told(tmp_path, "ann", *HERE)
    assert status == 1 and err == f"class: cannot use class-kept: {why}"
    with lesson.student("ann") as user:
        assert user.sessions() == []


def test_slips_that_are_there_stay(tmp_path: pathlib.Path, begin: Any) -> None:
    (tmp_path / "slips.txt").write_text("precious")
    wanted = "class: cannot write slips.txt: it exists already; use --replace, or another file by --slips FILE\n"
    assert told(tmp_path, "ann", *HERE) == (1, "", wanted)
    assert os.listdir(tmp_path) == ["slips.txt"] and (tmp_path / "slips.txt").read_text() == "precious"
    assert set(begin("ann", "--replace").tokens()) == {"ann"}


def test_a_folder_that_others_read_is_refused(tmp_path: pathlib.Path) -> None:
    (tmp_path / "open").mkdir(mode=0o755)
    status, _, err = told(tmp_path, "ann", "--keep", "open", *HERE)
    assert status == 1 and "lets others in; use `chmod 700` to leave it to its owner" in err
