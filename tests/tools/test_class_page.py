"""The pages of `tools/class`: who is let in, what a page shares with a prompt, and what happens if one of them vanishes."""
import contextlib
import importlib
import json
import os
import pathlib
import re
import shutil
import signal
import socket
import stat
import threading
from typing import Any, Dict, Iterator, List

import pytest

from class_pages import PagedLesson, StudentPage, begun, link_of
from ljclient import Refused
from support import EXAMPLES, SECONDS, TOP, dimer, present, wait_until
from test_class import tool
from test_class_slips import bitmap, read_codes
from web_sockets import Refused as NoSocket
from web_sockets import WebSocket

LOOKS = 20
ENDED_BY_TEACHER = "The teacher has ended this page, or its token has changed. Load it again to come back."


@pytest.fixture(scope="module")
def shared(tmp_path_factory: pytest.TempPathFactory) -> Iterator[PagedLesson]:
    """A class for tests that leave it as it is."""
    with begun(tmp_path_factory.mktemp("class"), "ann", "ben") as lesson:
        yield lesson


@pytest.fixture
def lesson(tmp_path: pathlib.Path) -> Iterator[PagedLesson]:
    """A class of ann and ben with pages."""
    with begun(tmp_path, "ann", "ben") as lesson:
        yield lesson


def places(user: Any, name: str = "a", count: int = 2) -> List[Any]:
    return [user.ask(f"SHOW {name} {atom}").words for atom in range(count)]


def begin_anew(user: Any) -> Any:
    """A dimer, which is the only session of the user."""
    user.ask_all(f"DROP {line.split()[0]}" for line in user.ask("LIST").lines)
    return dimer(user)


# Who is let in.


def test_a_slip_has_the_link_of_the_page(shared: PagedLesson, tmp_path: pathlib.Path) -> None:
    token = shared.tokens()["ann"]
    assert link_of(shared.slips(), "ann") == (f"{shared.origin}/", f"ann.{token}")
    assert "The browser warns, since it does not know who signed the certificate." in shared.slips()
    page = (shared.folder / "slips.html").read_text()
    assert f"{shared.origin}/" in page and token not in re.sub("<svg.*?</svg>", "", page, flags=re.S)
    pytest.importorskip("qrcode", reason="qrcode is not installed")
    if shutil.which("zbarimg"):
        (tmp_path / "code.pgm").write_bytes(bitmap(present(re.search("<svg.*?</svg>", page, re.S))[0]))
        assert read_codes(tmp_path / "code.pgm") == [f"{shared.origin}/#ann.{token}"]


def test_a_token_gives_a_cookie_that_no_script_and_no_other_site_has(shared: PagedLesson) -> None:
    answer = shared.enter("ann")
    name, *attributes = answer.headers["Set-Cookie"].split("; ")
    assert answer.status == 200 and name.startswith("__Host-ljserve=ann.") and shared.tokens()["ann"] not in name
    assert sorted(attributes) == ["HttpOnly", "Path=/", "SameSite=Strict", "Secure"]
    assert shared.ask("GET", "/who", Cookie=answer.cookie).text == "ann"
    spaced = shared.tokens()["ann"]
    assert shared.enter("ann", f" {spaced[:4]} {spaced[4:]}\n").cookie == answer.cookie
    with StudentPage(shared, answer.cookie) as page:
        assert page.next_news("student") == "ann" and page.first["scene"]["title"] == "A crystal that melts"


def test_the_files_of_the_page_are_for_all_and_have_no_secret(shared: PagedLesson) -> None:
    for path in ("/", "/page.js", "/transport.js", "/typed.js", "/class.js", "/wall", "/wall.js"):
        answer = shared.ask("GET", path)
        assert answer.status == 200 and not any(token in answer.text for token in shared.tokens().values())
        assert f"connect-src 'self' wss://127.0.0.1:{shared.page_port}" in answer.headers["Content-Security-Policy"]
        assert answer.headers["Cache-Control"] == "no-store" and answer.headers["Referrer-Policy"] == "no-referrer"
    for path in ("/slips.txt", "/../class.pem", "/class-kept/class.pem", "/page.html", "/wall.html"):
        assert shared.ask("GET", path).status == 404


WRONG = [("ann", "a" * 32), ("ann", ""), ("ann", None), ("", ""), ("zed", "a" * 32), ("ann\n", 7), ("ä", "ä")]


@pytest.mark.parametrize("name, token", WRONG)
def test_a_wrong_token_gives_nothing(shared: PagedLesson, name: Any, token: Any) -> None:
    answer = shared.ask("POST", "/in", {"name": name, "token": token}, source="127.0.0.3")
    assert (answer.status, answer.cookie) == (403, "")
    assert answer.text == "the class knows no student of this name and token"
    shared.until(r"denied .* 0 commands\n")


def test_a_token_of_another_student_gives_nothing(shared: PagedLesson) -> None:
    assert (shared.enter("ben", shared.tokens()["ann"]).status, shared.enter("ann", shared.tokens()["ben"]).status) == (403, 403)


@pytest.mark.parametrize("body", [None, [], "ann", {"name": ["ann"], "token": {}}])
def test_words_that_are_none_give_nothing(shared: PagedLesson, body: Any) -> None:
    assert shared.ask("POST", "/in", body, source="127.0.0.4").status == 403


def test_a_page_of_another_site_posts_nothing(shared: PagedLesson) -> None:
    for origin in ("https://evil.example", "null", "", f"http://127.0.0.1:{shared.page_port}"):
        answer = shared.enter("ann", Origin=origin)
        assert (answer.status, answer.cookie, answer.text) == (403, "", "this is for pages of this address"), origin
    with pytest.raises(NoSocket, match="403"):
        StudentPage(shared, shared.cookie("ann"), Origin="https://evil.example")


def test_without_a_cookie_there_is_no_session(shared: PagedLesson) -> None:
    ann, ben = (shared.cookie(name) for name in ("ann", "ben"))
    forged = ben.replace("=ben.", "=ann.")
    for cookie in ("", "__Host-ljserve=ann", "__Host-ljserve=ann.", forged, ann[:-1], ann + "0", "__Host-ljserve=zed.00"):
        with pytest.raises(NoSocket, match="403"):
            StudentPage(shared, cookie)
        assert shared.ask("GET", "/who", Cookie=cookie).text == ""


def test_a_flood_of_wrong_tokens_is_looked_at_no_more(lesson: PagedLesson) -> None:
    """Only its address is refused, even with a right token, so that nobody learns from it. Pages that are in stay."""
    with lesson.page("ann") as page:
        statuses = [lesson.enter("ann", f"{number:032}").status for number in range(30)]
        assert statuses == [403] * 20 + [429] * 10
        flooded = lesson.enter("ann")
        assert (flooded.status, flooded.cookie) == (429, "") and flooded.text.startswith(
            "Too many wrong tokens have come from your address."
        )
        assert lesson.enter("ann", source="127.0.0.2").status == 200
        assert page.ask("frame", steps=0)["step"] == 0
    lesson.until(r"127\.0\.0\.1: 11 closed in ")


def test_a_new_token_ends_the_pages_of_the_old_one(lesson: PagedLesson) -> None:
    cookie = lesson.cookie("ann")
    with StudentPage(lesson, cookie) as page:
        lesson.types("r ann")
        assert page.receive() == {"error": ENDED_BY_TEACHER, "ended": True} and page.receive() is None
    lesson.until("ann has a new token")
    assert lesson.ask("GET", "/who", Cookie=cookie).text == ""
    assert lesson.ask("GET", "/who", Cookie=lesson.cookie("ann")).text == "ann"


def test_k_ends_pages_who_may_come_again(shared: PagedLesson) -> None:
    cookie = shared.cookie("ann")
    with StudentPage(shared, cookie) as page, shared.page("ben") as ben:
        shared.types("k ann")
        assert page.receive() == {"error": ENDED_BY_TEACHER, "ended": True}
        shared.until("ann: all connections are ended")
        assert ben.ask("frame", steps=0)["step"] == 0
    with StudentPage(shared, cookie) as page:
        assert page.first["step"] == 0


def test_pages_take_no_place_of_connections_that_are_not_in() -> None:
    """As with students behind one address who all have a page."""
    module = importlib.import_module("ljtools.watching")
    board = module.Board(None)
    for number in range(100):
        page = module.Connection(f"192.0.2.1:{number}")
        page.state = "page"
        board.begins(page)
    assert all(board.admits(module.Connection(f"192.0.2.1:{number}")) for number in range(100, 120))
    assert not board.admits(module.Connection("192.0.2.1:120"))


def test_four_pages_of_a_student_are_open_at_most(shared: PagedLesson) -> None:
    cookie = shared.cookie("ann")
    with contextlib.ExitStack() as pages:
        opened = [pages.enter_context(StudentPage(shared, cookie)) for _ in range(4)]
        fifth = StudentPage(shared, cookie)
        assert fifth.first["error"].startswith("4 of your pages are open") and fifth.receive() is None
        assert [page.first["step"] for page in opened] == [0] * 4


def test_a_class_that_was_killed_goes_on_with_its_pages(lesson: PagedLesson) -> None:
    """The cookie is still valid. What the pages had loaded and saved is dropped."""
    cookie = lesson.cookie("ann")
    with lesson.student("ann") as user:
        dimer(user)
    page = StudentPage(lesson, cookie)
    assert page.ask("save")["saved"] == 0 and page.ask("frame", steps=2)["step"] == 2
    lesson.kill()
    page.close()
    lesson.begin()
    with StudentPage(lesson, cookie) as again:
        assert (again.first["step"], again.first["scene"]["title"], again.first["saved"]) == (2, "a", None)
    with lesson.student("ann") as user:
        assert user.ask("LIST").lines == ["a 2 2 0"]


# What is shared with a prompt.


def test_page_and_prompt_are_open_at_once(shared: PagedLesson) -> None:
    with shared.student("ann") as user:
        begin_anew(user)
        with shared.page("ann") as page:
            assert page.first["scene"]["title"] == "a" and page.first["scene"]["sigma"] == 2**32 // 256
            assert page.ask("frame", steps=2)["step"] == 2
            assert user.ask("ADVANCE a 3").words == ["ADVANCE", "a", "5"]
            assert page.next_news("sessions") == ["a"]
            frame = page.ask("frame", steps=0)
            assert (frame["step"], frame["jumped"]) == (5, True)
            assert page.ask("reverse")["step"] == 4 and user.ask("SHOW a 0").words[2] == "4"
            dimer(user, "b")
            assert page.next_news("sessions") == ["a", "b"]
            assert page.types("LIST", "SHOW b 1", "SHOW b 2", "BYE") == [
                "OK LIST 2",
                "OK SHOW b 0 1 25165824 0 0",
                "ERR 14 NO_ATOM",
                "not sent: BYE would end the connection of this page",
            ]
        wait_until(lambda: user.ask("LIST").lines == ["a 4 2 0", "b 0 2 0"])


def test_looks_and_commands_at_once_are_those_of_one_after_the_other(shared: PagedLesson) -> None:
    """The prompt advances and reverses while the page looks at speeds and compares all places. Each reply is as if it were alone."""
    with shared.student("ann") as user, shared.page("ann") as page:
        begin_anew(user)
        page.ask("load", session="a")
        alone = [["ADVANCE", "a", "1"], ["REVERSE", "a", "0"], ["ADVANCE", "a", "-1"], ["REVERSE", "a", "0"]]
        told: List[Any] = []

        def go_on() -> None:
            for _ in range(LOOKS):
                told.extend(reply.words for reply in user.ask_all(["ADVANCE a 1", "REVERSE a", "ADVANCE a 1", "REVERSE a"]))

        prompt = threading.Thread(target=go_on)
        prompt.start()
        found = [page.ask(what) for _ in range(LOOKS) for what in ("speeds", "exact")]
        prompt.join(SECONDS)
        assert told == alone * LOOKS
        assert all("before" in speeds for speeds in found[::2]) and all(exact["atoms"] == 2 for exact in found[1::2])
        assert places(user) == [["SHOW", "a", "0", "0", "0", "0", "0"], ["SHOW", "a", "0", "1", "25165824", "0", "0"]]


def test_a_program_that_numbers_atoms_itself_is_not_disturbed(shared: PagedLesson) -> None:
    """A page shows the program's session, and does not change it until the program has left."""
    with shared.student("ann") as user:
        user.ask_all(f"DROP {line.split()[0]}" for line in user.ask("LIST").lines)
        atoms = [(float(10 * x), 0.0, 0.0) for x in range(9, 0, -1)]
        session = user.load("sorted", atoms, symbols="Ar", edge=100, sigma=1, h=131072, order="space")
        with shared.page("ann") as page:
            assert page.first["scene"]["title"] == "sorted" and page.first["scene"]["exact"]
            wishes: List[Dict[str, Any]] = [{"what": "frame", "steps": 1}, {"what": "tug", "atom": 0, "by": [1, 0, 0]}]
            for wish in [*wishes, {"what": "reverse"}, {"what": "restart"}]:
                assert page.ask(**wish)["error"].startswith("sorted is that of a program that is in")
            assert "before" in page.ask("speeds") and page.ask("frame", steps=0)["step"] == 0
            session.advance(3)
            user.close()
            wait_until(lambda: page.ask("frame", steps=1).get("step") == 4)


def test_a_page_waits_for_a_long_command_of_the_prompt(shared: PagedLesson) -> None:
    with shared.student("ann") as user, shared.page("ann") as page:
        begin_anew(user)
        page.ask("load", session="a")
        prompt = threading.Thread(target=user.ask, args=("ADVANCE a 1000000",))
        prompt.start()
        page.send("frame", steps=0)
        frame = page.receive()
        prompt.join(SECONDS)
        assert frame["step"] in (0, 1000000)
        assert all(text.startswith("Another command of yours is under way") for text in page.waited)


@pytest.mark.parametrize("what", ["speeds", "exact", "second", "save"])
def test_a_page_that_vanishes_in_the_middle_leaves_nothing(shared: PagedLesson, what: str) -> None:
    """Its connection is reset during the answer. Its request is completed, and the prompt continues."""
    with shared.student("ann") as user:
        begin_anew(user).advance(5)
        page = shared.page("ann")
        page.send(what, on=True)
        page.channel.reset()
        user.ask("BRANCH a mine")
        wait_until(lambda: (user.ask("LIST").lines, user.ask("LIST a").lines[0][:4]) == (["a 5 2 1"], "mine"))
        assert user.ask_all(["REVERSE a", "REVERSE a"])[0].words[2] == "4"


def test_a_server_that_is_killed_in_the_middle_of_looks(lesson: PagedLesson) -> None:
    with lesson.student("ann") as user, lesson.page("ann") as page:
        dimer(user).advance(3)
        page.ask("load", session="a")
        before = places(user)
        ends = threading.Thread(target=lambda: os.kill(lesson.server(), signal.SIGKILL))
        for at in range(LOOKS):
            if at == LOOKS // 2:
                ends.start()
            found = page.ask("speeds" if at % 2 else "exact")
            assert "error" not in found
        ends.join(SECONDS)
        lesson.until("the server was begun again, and goes on where it was")
        assert places(user) == before and page.ask("frame", steps=0)["step"] == 3


def test_a_class_that_is_killed_in_the_middle_of_looks_keeps_none_half(lesson: PagedLesson) -> None:
    """A look reverses the motion twice. Both reversals are kept, or none."""
    with lesson.student("ann") as user:
        dimer(user).advance(3)
        before, measured = places(user), user.ask("MEASURE a").words
    page = lesson.page("ann")
    for _ in range(LOOKS):
        page.send("speeds")
    lesson.kill()
    page.close()
    lesson.begin()
    with lesson.student("ann") as user:
        assert (places(user), user.ask("MEASURE a").words) == (before, measured)
        assert user.ask("ADVANCE a 1").words[2] == "4"


def test_a_page_that_is_closed_gives_up_what_it_has_saved(shared: PagedLesson) -> None:
    with shared.student("ann") as user:
        user.ask_all(f"DROP {line.split()[0]}" for line in user.ask("LIST").lines)
        with shared.page("ann") as page:
            assert page.first["scene"]["number"] == 0 and len(user.ask("LIST").lines) == 1
        wait_until(lambda: not user.ask("LIST").lines)


def test_typed_commands_that_drop_what_is_shown(shared: PagedLesson) -> None:
    with shared.student("ann") as user, shared.page("ann") as page:
        begin_anew(user)
        page.ask("load", session="a")
        assert page.types("DROP a") == ["OK DROP a"]
        assert page.ask("frame", steps=0)["lost"] is True
        assert page.ask("load", scene=0)["step"] == 0


NOT_SENT = {
    "a load without a count": ("LOAD x", "", "not sent: LOAD must end with a count of bytes, at most 1,048,576, else the connection ends"),
    "a body that is short": (
        "LOAD x 256 1 131072 rest 28",
        "2\n",
        "not sent: the body must have the 28 bytes that the line announces, got 2",
    ),
    "a body of another command": ("SHOW a 0", "2\n", "not sent: only LOAD and LOADMIX have a body"),
    "a letter that is no ASCII": ("SHOW é 0", "", "not sent: a line has at most 256 characters of ASCII"),
    "a long line": ("x" * 257, "", "not sent: a line has at most 256 characters of ASCII"),
    "a farewell": (" BYE ", "", "not sent: BYE would end the connection of this page"),
}


@pytest.mark.parametrize("what", NOT_SENT)
def test_what_would_end_the_connection_of_a_page_is_not_sent(shared: PagedLesson, what: str) -> None:
    line, body, why = NOT_SENT[what]
    with shared.page("ann") as page:
        assert page.ask("commands", commands=[[line, body], ["LIST", ""]])["told"][0] == [why]
        assert page.ask("commands", commands=[["LIST", 1]])["error"].startswith("commands must be at most 1000 lines")


def test_pages_are_told_that_the_class_has_ended(lesson: PagedLesson) -> None:
    with lesson.page("ann") as page:
        assert page.first["step"] == 0
        lesson.types("q")
        assert page.receive() == {"error": "The class has ended. Load this page again when it goes on.", "ended": True}
    assert lesson.ended()[0] == 0


def test_a_class_ends_while_a_page_waits_for_a_long_command(lesson: PagedLesson) -> None:
    """Nothing of the running command is kept."""
    with lesson.student("ann") as user:
        user.load("argon", EXAMPLES / "argon_4000.xyz", edge=52.6, sigma=3.4, h=3706)
    page = lesson.page("ann")
    page.send("commands", commands=[["ADVANCE argon 1000000", ""]])
    lesson.types("q")
    assert lesson.ended()[0] == 0 and "Traceback" not in lesson.shown
    lesson.begin()
    with lesson.student("ann") as user:
        assert user.ask("LIST").lines[0].startswith("argon 0 4000 ")


# What the teacher says and sees.


def test_m_shows_a_text_on_all_pages(shared: PagedLesson) -> None:
    with shared.page("ann") as ann, shared.page("ben") as ben:
        assert ann.next_news("teacher") == ben.next_news("teacher") == ""
        shared.types("m Press  Play, <b>now</b>")
        shared.until("2 pages show it\n")
        assert ann.next_news("teacher") == ben.next_news("teacher") == "Press Play, <b>now</b>"
        with shared.page("ann") as later:
            assert later.next_news("teacher") == "Press Play, <b>now</b>"
            shared.types("m")
            assert later.next_news("teacher") == ""
        shared.until("show nothing of you\n")


def row_of(wall: Any, name: str, holds: Any) -> Any:
    """The row of a student on the wall, as soon as a condition holds."""
    while True:
        told = json.loads(present(wall.receive()))
        rows = [row for row in told.get("students", []) if row["name"] == name and holds(row)]
        if rows:
            return rows[0]


def test_the_wall_shows_what_students_have_and_did_last(lesson: PagedLesson) -> None:
    with contextlib.closing(lesson.wall()) as wall, lesson.student("ann") as user:
        assert row_of(wall, "ben", lambda row: True)["prompt"] is False
        dimer(user).advance(2)
        row = row_of(wall, "ann", lambda row: row["sessions"] and row["sessions"][0]["step"] == 2)
        assert row["prompt"] and row["command"] == "ADVANCE a 2" and row["refusal"] == "" and row["steps"] is None
        assert row["sessions"] == [{"id": row["shown"], "name": "a", "step": 2, "direction": 1, "atoms": 2, "saved": 0}]
        with pytest.raises(Refused):
            user.ask(f"HELLO ann {lesson.tokens()['ann']}")
        row = row_of(wall, "ann", lambda row: row["refusal"])
        assert (row["command"], row["refusal"]) == ("HELLO ann ..", "ERR 06 COMMAND")
        with lesson.page("ben") as page:
            row = row_of(wall, "ben", lambda row: row["sessions"])
            assert (row["pages"], row["command"], row["sessions"][0]["name"]) == (1, "", "")
            page.types("LIST")
            assert row_of(wall, "ben", lambda row: row["command"])["command"] == "LIST"


def test_the_wall_is_for_its_token_alone(lesson: PagedLesson, tmp_path: pathlib.Path) -> None:
    assert stat.S_IMODE((tmp_path / "class-kept" / "wall.txt").stat().st_mode) == 0o600
    assert lesson.wall_link().startswith(f"{lesson.origin}/wall#")
    assert lesson.wall_link().partition("#")[2] not in lesson.shown
    for token in ("", "x" * 24, lesson.tokens()["ann"]):
        assert lesson.ask("POST", "/wall", {"token": token}).status == 403
    for cookie in ("", lesson.cookie("ann"), "__Host-ljserve-wall=", "__Host-ljserve-wall=00"):
        with pytest.raises(NoSocket, match="403"):
            WebSocket(f"wss://127.0.0.1:{lesson.page_port}/wall-session", {"Cookie": cookie, "Origin": lesson.origin})


def test_the_wall_shows_the_steps_of_a_lesson(tmp_path: pathlib.Path) -> None:
    with begun(tmp_path, "ann", "--lesson", EXAMPLES / "lessons" / "two_atoms.en") as lesson, contextlib.closing(lesson.wall()) as wall:
        assert not any(row_of(wall, "ann", lambda row: True)["steps"])
        with lesson.student("ann") as user:
            dimer(user).advance(1)
            user.ask("SHOW a 0")
            assert any(row_of(wall, "ann", lambda row: any(row["steps"]))["steps"])


# Where there are no pages.


def test_the_debian_package_has_the_files_of_the_page() -> None:
    """An installed class has them where it looks for them."""
    rules = (TOP / "packaging" / "debian" / "rules").read_text()
    named = " ".join(module_of_page().OF_SHARED)
    assert f"cd packaging/page && install -m 644 {named} ../../debian/ljserve/usr/share/ljserve/packaging/page\n" in rules


def module_of_page() -> Any:
    tool()
    return importlib.import_module("ljtools.teaching.page")


def test_without_aiohttp_the_class_begins_all_the_same(monkeypatch: pytest.MonkeyPatch, capsys: pytest.CaptureFixture[str]) -> None:
    module = tool()
    monkeypatch.setattr(module.importlib.util, "find_spec", lambda name: None)
    assert module.page_listener_of(module.options_of(["2"])) is None
    assert capsys.readouterr().out == (
        "there are no pages for browsers, since aiohttp is not installed: apt-get install python3-aiohttp, or pip install aiohttp\n"
    )
    for words in (["2", "--plain"], ["2", "--no-page"]):
        assert module.page_listener_of(module.options_of(words)) is None and capsys.readouterr().out == ""


def test_a_port_that_is_taken(monkeypatch: pytest.MonkeyPatch, capsys: pytest.CaptureFixture[str]) -> None:
    """If it was given, nothing starts. If it is the default port, the class starts without pages."""
    module = tool()
    with socket.create_server(("127.0.0.1", 0)) as taken:
        port = taken.getsockname()[1]
        monkeypatch.setattr(module, "PAGE_PORT", port)
        assert module.page_listener_of(module.options_of(["2", "--listen", "127.0.0.1:0"])) is None
        why = f"cannot listen on 127.0.0.1:{port}: Address already in use"
        assert capsys.readouterr().out == f"there are no pages for browsers: {why}; --page ADDRESS:PORT says where else\n"
        with pytest.raises(module.Fault, match="cannot listen on"):
            module.page_listener_of(module.options_of(["2", "--page", f"127.0.0.1:{port}"]))
