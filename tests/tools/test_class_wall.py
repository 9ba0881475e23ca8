"""The wall of a class: pictures of the students' sessions, and a look at one student."""
import base64
import contextlib
import importlib
import json
import time
from array import array
from typing import Any, Dict, Iterator, List

import pytest

from class_pages import PagedLesson, begun
from ljclient import Refused
from support import EXAMPLES, dimer, present
from test_class import tool

# Two atoms 1.5 apart in a box of 256, as drawn: with 65,536 places and 32 shades.
AT_REST = [0, 0, 0, 0, 384, 0, 0, 0]


@pytest.fixture(scope="module")
def lesson(tmp_path_factory: pytest.TempPathFactory) -> Iterator[PagedLesson]:
    """A class that all tests share. Each test has its own students."""
    names = ["ann", "ben", "cleo", "dan", "eve", "fay", "gil"]
    with begun(tmp_path_factory.mktemp("class"), *names) as lesson:
        yield lesson


class Wall:
    """An open wall, and all that was sent to it."""

    def __init__(self, lesson: PagedLesson) -> None:
        self.channel = lesson.wall()
        self.pictures: List[Dict[str, Any]] = []
        self.looks: List[Dict[str, Any]] = []
        self.rows: Dict[str, Dict[str, Any]] = {}

    def hear(self) -> None:
        told = json.loads(present(self.channel.receive()))
        self.rows.update({row["name"]: row for row in told.get("students", [])})
        self.pictures += told.get("pictures", [])
        self.looks += [told["look"]] if "look" in told else []

    def picture(self, name: str, holds: Any = lambda picture: True) -> Any:
        """The next picture of a student that fulfils a condition."""
        while True:
            found = [each for each in self.pictures if each["student"] == name and holds(each)]
            self.pictures.clear()
            if found:
                return found[-1]
            self.hear()

    def look(self, holds: Any) -> Any:
        """The next look that fulfils a condition."""
        while not (self.looks and holds(self.looks[-1])):
            self.hear()
        return self.looks[-1]

    def send(self, text: str) -> None:
        self.channel.send(text)

    def close(self) -> None:
        self.channel.close()


@pytest.fixture
def wall(lesson: PagedLesson) -> Iterator[Wall]:
    with contextlib.closing(Wall(lesson)) as wall:
        yield wall


def drawn(picture: Dict[str, Any]) -> List[int]:
    return [*array("H", base64.b64decode(picture["drawn"]))]


def test_the_picture_of_a_session_follows_it(lesson: PagedLesson, wall: Wall) -> None:
    with lesson.student("ann") as user:
        session = dimer(user)
        picture = wall.picture("ann")
        assert (picture["step"], picture["direction"], picture["edge"], drawn(picture)) == (0, 1, 256, AT_REST)
        assert 0 <= picture["age"] < 1 and picture["session"] == wall.rows["ann"]["shown"]
        session.advance(2)
        assert wall.picture("ann")["step"] == 2
        session.reverse()
        picture = wall.picture("ann")
        assert (picture["step"], picture["direction"]) == (1, -1)


def test_a_wall_that_is_opened_later_has_the_picture_of_before(lesson: PagedLesson, wall: Wall) -> None:
    """It is taken only once while nothing changes, and it has its age."""
    with lesson.student("ben") as user:
        dimer(user)
        first = wall.picture("ben")
        time.sleep(2)
        with contextlib.closing(Wall(lesson)) as later:
            again = later.picture("ben")
        assert {**again, "age": 0} == {**first, "age": 0} and again["age"] >= first["age"] + 1.9


def test_the_session_that_was_changed_last_is_shown(lesson: PagedLesson, wall: Wall) -> None:
    with lesson.student("cleo") as user:
        first, second = dimer(user, "a"), dimer(user, "b")
        ids = [wall.picture("cleo", lambda each: each["session"] == wall.rows["cleo"]["shown"])["session"]]
        first.advance(1)
        ids.append(wall.picture("cleo")["session"])
        second.advance(1)
        ids.append(wall.picture("cleo")["session"])
        assert ids[0] == ids[2] != ids[1]
        sessions = {row["name"]: row["id"] for row in wall.rows["cleo"]["sessions"]}
        assert ids == [sessions["b"], sessions["a"], sessions["b"]]


def test_many_atoms_are_shown_in_part(lesson: PagedLesson, wall: Wall) -> None:
    with lesson.student("dan") as user:
        user.load("argon", EXAMPLES / "argon_4000.xyz", edge=52.6, sigma=3.4, h=3706)
        assert len(drawn(wall.picture("dan"))) == 4 * 250


def test_a_look_on_has_the_last_commands_with_their_replies(lesson: PagedLesson, wall: Wall) -> None:
    token = lesson.tokens()["eve"]
    with lesson.student("eve") as user:
        dimer(user, "a")
        dimer(user, "b").advance(2)
        wall.send(json.dumps({"look": "eve"}))
        user.ask_all(["SHOW a 0", "LIST", "DUMP a"])
        with pytest.raises(Refused):
            user.ask(f"HELLO eve {token}")
        look = wall.look(lambda look: look["talk"][-1][0].startswith("HELLO"))
        assert look["name"] == "eve" and look["talk"][-4:] == [
            ["SHOW a 0", ["OK SHOW a 0 0 0 0 0"]],
            ["LIST", ["OK LIST 2", "a 0 2 0", "b 2 2 0"]],
            ["DUMP a", ["OK DUMP a 0 4", "2", "step 0", "Ar 0.000000 0.000000 0.000000", "Ar 1.500000 0.000000 0.000000"]],
            ["HELLO eve ..", ["ERR 06 COMMAND"]],
        ]
        assert {wall.picture("eve")["session"], wall.picture("eve")["session"]} == {row["id"] for row in wall.rows["eve"]["sessions"]}
        wall.send(json.dumps({"look": None}))
        user.ask("LIST")
        wall.looks.clear()
        with lesson.student("fay") as other:
            dimer(other)
            wall.picture("fay")
        assert not wall.looks


WRONG = ["", "{", "[]", "null", "7", '{"look": 7}', '{"look": "zed"}', '{"look": {"name": "ann"}}', '{"do": "commands"}', "[" * 900]


def test_a_wall_that_says_something_else_is_shown_as_before(lesson: PagedLesson, wall: Wall) -> None:
    for text in WRONG:
        wall.send(text)
    with lesson.student("gil") as user:
        dimer(user)
        assert drawn(wall.picture("gil")) == AT_REST and not wall.looks


def test_a_wall_that_says_too_much_is_ended(lesson: PagedLesson) -> None:
    with contextlib.closing(Wall(lesson)) as wall:
        wall.send("x" * 2000)
        while wall.channel.receive() is not None:
            pass


def test_long_replies_are_shown_in_part() -> None:
    tool()
    module = importlib.import_module("ljtools.teaching.wall")
    dump = b"OK DUMP a 0 258\n256\nstep 0\n" + b"Ar 1.000000 2.000000 3.000000\n" * 256
    assert module.shown_reply(dump[: module.MOST_BYTES]) == [
        "OK DUMP a 0 258",
        "256",
        "step 0",
        *["Ar 1.000000 2.000000 3.000000"] * 2,
        "..",
    ]
    assert module.shown_reply(b"OK " + b"x y " * 100 + b"\n") == ["OK " + ("x y " * 100)[:154] + "..."]
