"""When a picture of a session is taken: between two commands of its student, if no steps are pending, and never within a look."""
import asyncio
import importlib
import random
import sys
from array import array
from typing import Any, List

import pytest

from keepers import HELLO, LOAD, LOADED
from support import RING, TOP
from test_keep_local import Front, Page, Story, random_items, run
from test_keep_user import Client, let_in, user

sys.path.append(str(TOP / "tools"))
__all__ = ["user"]
DUMP = b"DUMP a\n"
# Two atoms 1.5 sigma apart in a box of 256, after 2 steps: docs/PROTOCOL.md, "A step in half a page".
AFTER_TWO = [1774, RING * 3 // 512 - 1774]


def pictures() -> Any:
    return importlib.import_module("ljtools.teaching.pictures")


class Album:
    """The pictures of a student of a front. It hears the student's commands."""

    def __init__(self, user: Any) -> None:
        self.user, self.album = user, pictures().Album()
        user.on_reply = self._hear

    def _hear(self, item: Any, reply: bytes) -> None:
        if len(item.words) > 1 and reply.startswith(b"OK "):
            self.album.note_change(item.words[1])

    def ask(self) -> None:
        self.user.read(self.album.dumped(self.user, b"a"))

    def due(self, is_looked_at: bool = False) -> Any:
        due = self.album.due(self.user.sessions.by_name, is_looked_at)
        return due and due.name

    def only(self) -> Any:
        (picture,) = self.album.pictures.values()
        return picture


def test_a_picture_is_taken_between_two_commands() -> None:
    """Its reply is sent to nobody, and is no record."""

    async def test(front: Front, _: Page) -> None:
        album = Album(front.user)
        front.comes(LOAD + b"ADVANCE a 2\n")
        album.ask()
        front.comes(b"SHOW a 0\n")
        await front.settle()
        assert front.server.items == LOAD + b"ADVANCE a 2\n" + DUMP + b"SHOW a 0\n"
        assert front.client.told == HELLO + LOADED + b"OK ADVANCE a 2\nOK SHOW a 2 0 1774 0 0\n"
        assert front.kept == [LOAD, b"ADVANCE a 2\n"]
        picture = album.only()
        assert (picture.step, picture.direction, picture.edge) == (2, 1, 256)
        # A coordinate has six decimals, and a place 16 binary digits.
        assert picture.atoms == array("H", [0, 0, 0, 0, 383, 0, 0, 0]) and AFTER_TWO[1] >> 16 == 383

    run(test)


def test_no_picture_is_taken_where_steps_are_pending(user: Any) -> None:
    client = Client(LOAD + b"START a 3\nLIST\n")
    link, album = let_in(user, client), Album(user)
    user.hear([LOADED, b"OK START a 3\n", b"OK LIST 1\na 3 2 0\n"])
    album.ask()
    assert link.sent.endswith(b"LIST\n")
    client.reader.feed(b"MEASURE a\n")
    user.go_on()
    assert link.sent.endswith(b"LIST\nMEASURE a\n")
    user.hear([b"OK MEASURE a 3 2 0 0 0 0 0\n"])
    assert link.sent.endswith(b"LIST\nMEASURE a\n" + DUMP)


def test_no_picture_is_taken_where_steps_were_started_before_it_was_asked(user: Any) -> None:
    """The reply to START had not come yet."""
    link = let_in(user, Client(LOAD + b"START a 3\n"))
    Album(user).ask()
    user.hear([LOADED, b"OK START a 3\n"])
    assert DUMP not in link.sent


def test_no_picture_is_taken_in_the_middle_of_a_long_command(user: Any) -> None:
    link, album = let_in(user, Client(LOAD + b"ADVANCE a 1000000\nLIST\n")), Album(user)
    user.hear([LOADED])
    step, heard = 0, len(LOAD)
    while not link.sent.endswith(DUMP):
        piece = link.sent[heard:].split()
        assert piece[:2] == [b"ADVANCE", b"a"] and len(piece) == 3
        step, heard = step + int(piece[2]), len(link.sent)
        album.ask()
        user.hear([b"OK ADVANCE a %d\n" % step])
    assert step == 1000000


def test_no_picture_is_taken_within_a_look() -> None:
    """A look of a page is one transaction. A look of a program has saved the session by a name that the client reserves."""

    async def test(front: Front, page: Page) -> None:
        album = Album(front.user)
        front.comes(LOAD + b"ADVANCE a 2\n")
        await front.settle()
        await page.local._begin()
        await front.settle(asyncio.ensure_future(page.ask(b"BRANCH a look\nREVERSE a\n")))
        album.ask()
        await front.settle(asyncio.ensure_future(page.ask(b"REVERSE a\nFORGET a look\n")))
        assert DUMP not in front.server.items
        await front.settle(asyncio.ensure_future(page.local._finish()))
        assert front.server.items.endswith(b"REVERSE a\nFORGET a look\n" + DUMP) and album.only().step == 2
        before = front.server.items
        front.comes(b"BRANCH a ljclient-look\nREVERSE a\n")
        await front.settle()
        album.ask()
        front.comes(b"REVERSE a\nFORGET a ljclient-look\n")
        await front.settle()
        assert front.server.items[len(before) :] == b"BRANCH a ljclient-look\nREVERSE a\nREVERSE a\nFORGET a ljclient-look\n"
        album.ask()
        await front.settle()
        assert front.server.items.endswith(b"FORGET a ljclient-look\n" + DUMP)

    run(test)


def test_a_picture_of_a_session_that_is_gone_is_not_taken() -> None:
    async def test(front: Front, _: Page) -> None:
        album = Album(front.user)
        front.comes(LOAD + b"DROP a\n")
        album.ask()
        await front.settle()
        assert front.server.items == LOAD + b"DROP a\n" and not album.album.pictures

    run(test)


@pytest.mark.parametrize(
    "reply", [b"ERR 10 NO_SESSION\n", b"OK DUMP a 2 3\n2\nstep 2\nAr 0 0\n", b"OK DUMP a 2 3\n2\nstep 2\nAr x 0 nan\n", b"OK\n"]
)
def test_a_reply_that_is_no_frame_changes_nothing(user: Any, reply: bytes) -> None:
    client = Client(LOAD)
    let_in(user, client)
    album = Album(user)
    user.hear([LOADED])
    album.ask()
    client.reader.feed(b"LIST\n")
    user.hear([reply])
    user.hear([b"OK LIST 1\na 0 2 0\n"])
    user.writer.done()
    assert not user.stopped and not album.album.pictures and client.told == HELLO + LOADED + b"OK LIST 1\na 0 2 0\n"


def test_a_server_that_ends_in_the_middle_of_a_picture() -> None:
    async def test(front: Front, _: Page) -> None:
        album = Album(front.user)
        front.comes(LOAD + b"ADVANCE a 2\n")
        await front.settle()
        album.ask()
        front.begin_server()
        front.comes(b"SHOW a 0\n")
        await front.settle()
        assert front.client.told.endswith(b"OK SHOW a 2 0 1774 0 0\n") and not album.album.pictures
        album.ask()
        await front.settle()
        assert album.only().step == 2

    run(test)


def test_what_is_due_is_what_has_changed() -> None:
    """The session that was changed last, and all sessions of a student who is looked at."""

    async def test(front: Front, _: Page) -> None:
        album, load = Album(front.user), LOAD.replace(b"LOAD a", b"LOAD b", 1)
        front.comes(LOAD + load + b"ADVANCE a 1\n")
        await front.settle()
        assert album.due() == b"a"
        album.ask()
        await front.settle()
        assert (album.due(), album.due(True)) == (None, b"b")
        front.comes(b"TUG a 0 1 0 0\n")
        await front.settle()
        assert album.due() == b"a"
        front.comes(b"DROP a\n" + LOAD)
        await front.settle()
        assert album.due() == b"a"
        front.comes(b"REVERSE b\n")
        await front.settle()
        assert album.due() == b"b"

    run(test)


def test_what_was_not_changed_since_the_class_was_begun_comes_last() -> None:
    async def test(front: Front, _: Page) -> None:
        front.comes(LOAD + LOAD.replace(b"LOAD a", b"LOAD b", 1))
        await front.settle()
        album = Album(front.user)
        assert album.due() == b"b"
        front.comes(b"REVERSE a\n")
        await front.settle()
        assert album.due() == b"a"

    run(test)


@pytest.mark.parametrize(
    "name, is_shown", [("a", 1), ("view-101", 1), ("view-101-2", 0), ("view-own-3", 0), ("ljclient-new", 0), ("view", 1)]
)
def test_what_pages_and_the_client_load_for_themselves_is_not_shown(name: str, is_shown: int) -> None:
    assert pictures().is_shown(name.encode()) == bool(is_shown)


def test_an_atom_keeps_the_colour_of_where_it_was_at_first() -> None:
    async def test(front: Front, _: Page) -> None:
        album = Album(front.user)
        load = LOAD.replace(b"Ar 1.5 0 0\n", b"Ar 200 0 0\n")  # the same number of bytes
        front.comes(load)
        await front.settle()
        album.ask()
        await front.settle()
        # 200 of 256 is shade 25 of 32.
        assert album.only().atoms == array("H", [0, 0, 0, 0, 200 * 256, 0, 0, 25])
        front.comes(b"TUG a 1 %d 0 0\nADVANCE a 1\n" % (RING // 4))
        await front.settle()
        album.ask()
        await front.settle()
        assert [*album.only().atoms[4:8:3]] == [(200 + 64) % 256 * 256, 25]

    run(test)


def test_of_many_atoms_a_part_is_shown() -> None:
    rows = b"".join(b"Ar %d.000000 0.000000 8.000000\n" % (atom % 16) for atom in range(4000))
    places = pictures().places_in(b"OK DUMP a 0 4002\n4000\nstep 0\n" + rows, 16.0)
    # Every 16th atom, which makes 250.
    assert len(places) == 3 * 250 and set(places[::3]) == {0} and set(places[2::3]) == {1 << 15}


class Users:
    """Students with one session each."""

    def __init__(self, count: int) -> None:
        self.asked: List[str] = []
        self.users = {f"s{number}": self._user(f"s{number}") for number in range(count)}

    def _user(self, name: str) -> Any:
        class User:
            sessions = type("Sessions", (), {"by_name": {b"a": type("Session", (), {"id": 1, "name": b"a", "branches": {}})()}})

        one: Any = User()
        one.name, one.read = name, lambda _: self.asked.append(name)
        return one


def test_few_are_asked_at_once_and_each_in_turn(monkeypatch: pytest.MonkeyPatch) -> None:
    """No student is asked more than once in three seconds."""
    module, now = pictures(), [100.0]
    monkeypatch.setattr(module.time, "monotonic", lambda: now[0])
    users, all_pictures = Users(10), module.Pictures()
    for _ in range(4):
        all_pictures.ask(users.users, [])
        now[0] += 0.2
    assert users.asked == [f"s{number}" for number in range(10)]
    now[0] += module.SECONDS_BETWEEN_PICTURES
    all_pictures.ask(users.users, [])
    assert users.asked[10:] == [f"s{number}" for number in range(module.MOST_AT_ONCE)]


@pytest.mark.parametrize("seed", range(8))
def test_pictures_change_no_reply(seed: int) -> None:
    """Bytes come in pieces, and replies, writes and requests for pictures at any time."""
    source, story = random.Random(seed), Story(seed)

    async def test(front: Front, page: Page) -> None:
        album, stream, looks = Album(front.user), LOAD + b"".join(random_items(source, 60)), []  # type: Any, bytes, List[Any]
        while stream or not all(look.done() for look in looks):
            kind, size = source.random(), source.randint(1, 40)
            if kind < 0.3 and stream:
                story.comes(stream[:size])
                front.comes(stream[:size])
                stream = stream[size:]
            elif kind < 0.4:
                album.ask()
            elif kind < 0.45 and all(look.done() for look in looks):
                story.order.append(("page", b"REVERSE a\nREVERSE a\n"))
                looks.append(asyncio.ensure_future(page.transaction(b"REVERSE a\n", b"REVERSE a\n")))
            elif kind < 0.8:
                front.hear(source.randint(1, 5))
            else:
                front.write()
            await asyncio.sleep(0)
        await front.settle(*looks)
        told = story.expected()
        assert front.client.told == HELLO + told["client"] and page.told == told["page"]

    run(test)
