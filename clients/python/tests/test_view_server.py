"""The live view of a user's sessions at a server: who is in, what is shown, and when the server is left."""
import asyncio
import os
import pathlib
import subprocess
import threading
import time
from typing import Any, Iterator, Tuple

import pytest

from browsing import CHROMIUM, Browser
from ljclient.view import connection
from support import DIMER, RING, SECONDS, TOKEN, dimer, joined, wait_until
from viewing import View, command

SCALE = ["--edge", 256, "--sigma", 1, "--h", 131072]
WAITS = "ann is in by another connection, such as a prompt or a notebook. This page goes on when that one has ended."
PICTURES = os.environ.get("LJVIEW_PICTURES")  # a folder to put what the page looks like into, where somebody wants to look


def picture(page: Any, name: Any) -> None:
    if PICTURES:
        (pathlib.Path(PICTURES) / f"{name}.png").write_bytes(page.picture())


@pytest.fixture
def ann(server: Any) -> Any:
    """Opens a connection of the user, as a prompt does."""
    return lambda timeout=SECONDS: joined(server.port, timeout)


@pytest.fixture
def view(server: Any, tmp_path: pathlib.Path) -> Iterator[Any]:
    """Opens the view of this user, with a token from a file if nothing else is said."""
    opened = []
    token = tmp_path / "token"
    token.write_text(TOKEN)

    def open_view(*words: Any, token_file: Any = token) -> Any:
        said = ["--token-file", token_file] if token_file else []
        opened.append(View(f"127.0.0.1:{server.port}", "ann", *said, *words))
        return opened[-1]

    yield open_view
    for one in opened:
        assert one.end()[1] == ""


def test_it_shows_the_session_that_the_user_has(view: Any, ann: Any) -> None:
    with ann() as user:
        dimer(user).advance(2)
    with view(*SCALE).page() as page:
        assert page.first["scene"]["session"] == "a"
        assert page.first["scene"]["sessions"] == ["a"]
        assert (page.first["step"], page.first["direction"]) == (2, 1)
        told = page.ask("frame", steps=1)
        assert told["step"] == 3
    with ann() as user:
        assert user.session("a").get_step() == 3


def test_it_shows_a_session_that_runs_back(view: Any, ann: Any) -> None:
    with ann() as user:
        session = dimer(user)
        session.advance(3)
        session.reverse()
    with view(*SCALE).page() as page:
        assert (page.first["step"], page.first["direction"]) == (2, -1)
        assert page.ask("frame", steps=2)["step"] == 0


def test_pages_share_a_session_and_its_one_connection(view: Any, ann: Any) -> None:
    with ann() as user:
        dimer(user)
    shown = view(*SCALE)
    with shown.page() as one, shown.page() as other:
        one.ask("frame", steps=2)
        assert other.ask("frame", steps=1)["step"] == 3
        one.ask("reverse")
        assert other.ask("frame", steps=0)["direction"] == -1


def test_the_server_is_left_when_nobody_plays(view: Any, ann: Any) -> None:
    """A prompt waits for as long as a page plays, and gets in some time after it has stopped. Then the page waits, and says so."""
    with ann() as user:
        dimer(user)
    with view(*SCALE).page() as page:
        page.ask("frame", steps=1)
        asked = time.monotonic()
        with ann() as user:
            assert connection.PATIENCE - 1 < time.monotonic() - asked < connection.PATIENCE + SECONDS / 2
            user.session("a").advance(4)
            page.send("frame", steps=1)
            assert page.receive() == {"waits": WAITS}
        told = page.receive()
        assert (told["step"], told["jumped"]) == (6, True)


def test_a_connection_is_not_open_while_it_is_given_up() -> None:
    """Closing takes a while, and a page that asks meanwhile has to be told that it waits."""
    closes, may_end = threading.Event(), threading.Event()

    class Leaving:
        closed = False

        def close(self) -> None:
            closes.set()
            may_end.wait(SECONDS)

    async def play() -> None:
        leaving: Any = Leaving
        shared = connection.Connection(leaving, patience=0.01)
        await shared.do(lambda user: None)
        assert await asyncio.to_thread(closes.wait, SECONDS)
        assert not shared.is_open
        may_end.set()
        await shared.close()

    asyncio.run(play())


def test_exact_counts_places_to_the_bit(view: Any, ann: Any) -> None:
    with ann() as user:
        dimer(user)
    with view(*SCALE).page() as page:
        page.ask("frame", steps=5)
        assert page.ask("exact")["same"] == {"start": 0}
        page.ask("reverse")
        page.ask("frame", steps=4)
        assert exact(page) == (2, 2, True)
        page.ask("tug", atom=0, by=[0, 0, 1])
        assert exact(page) == (2, 1, True)
        page.ask("restart")
        assert exact(page) == (2, 2, False)
        assert page.ask("frame", steps=0)["step"] == 0


def exact(page: Any) -> Any:
    """How many atoms have the places of the start, how many of them the same motion, and whether it is turned."""
    told = page.ask("exact")
    return tuple(told[word]["start"] for word in ("same", "moves", "turned"))


def test_what_was_saved_and_loaded_is_given_up_with_the_page(view: Any, ann: Any) -> None:
    with ann() as user:
        dimer(user)
    shown = view(*SCALE)
    with shown.page() as page:
        page.ask("save")
        page.ask("second", on=True)
        with_second = page.ask("frame", steps=1)
        assert abs(float(with_second["second"].split()[1]) - 590e-6) < 1e-9
        page.ask("load", scene=0)
        page.ask("second", on=True)
    shown.end()
    with ann() as user:
        assert [row.name for row in user.sessions()] == ["a"]
        assert user.session("a").saved() == []


def saved_in(ann: Any) -> Any:
    """The names of the user's sessions, and those that are saved in the first of them."""
    with ann() as user:
        return [row.name for row in user.sessions()], [row.name for row in user.session("a").saved()]


def test_what_was_saved_is_given_up_while_another_connection_is_open(server: Any, view: Any, ann: Any) -> None:
    """The view is for a class, and goes on without a page. The page is closed while a prompt is in, which then ends."""
    with ann() as user:
        dimer(user)
    shown = view("--listen", "127.0.0.1:0", *SCALE)
    with shown.page() as page:
        page.ask("save")
        page.ask("load", scene=0)
        page.ask("load", session="a")
        user = ann()
        assert [row.name for row in user.session("a").saved()] == ["view-start"]
    user.close()
    wait_until(lambda: saved_in(ann) == (["a"], []))
    assert shown.child.poll() is None


def test_what_cannot_be_given_up_is_told_at_the_end(server: Any, ann: Any, tmp_path: pathlib.Path) -> None:
    """The view ends while a prompt is in."""
    (tmp_path / "token").write_text(TOKEN)
    with ann() as user:
        dimer(user)
    with View(f"127.0.0.1:{server.port}", "ann", "--token-file", tmp_path / "token", *SCALE) as shown, shown.page(), ann():
        status, told = shown.end()
    left = "the branches view-start and view-kept of a"
    assert (status, told) == (0, f"view: cannot give up {left}: 127.0.0.1:{server.port} does not answer\n")


def end_of(server: Any) -> str:
    """What a page says of the end of a server, before the reason."""
    return f"The server at 127.0.0.1:{server.port} has ended. Load this page again when it is back ("


def test_the_end_of_the_server_is_told(server: Any, view: Any, ann: Any) -> None:
    with ann() as user:
        dimer(user)
    with view(*SCALE).page() as page:
        page.ask("frame", steps=1)
        server.end()
        for _ in range(2):
            told = page.ask("frame", steps=1)
            assert told["error"].startswith(end_of(server))
            assert told["ended"] is True


@pytest.mark.skipif(not CHROMIUM, reason="Chromium is not installed")
def test_the_page_says_that_the_server_has_ended(server: Any, view: Any, ann: Any) -> None:
    """It plays. Then no button is left to be pressed, and no atom to be pulled."""
    with ann() as user:
        dimer(user)
    with Browser() as page:
        page.open(view(*SCALE).link)
        page.wait_for("document.getElementById('about')?.textContent.startsWith('2 atoms')")
        page.click("play")
        page.wait_for("Number(document.getElementById('step').textContent) >= 8")
        server.end()
        page.wait_for(f"document.getElementById('message').textContent.startsWith('{end_of(server)}')")
        assert page.text("play") == "Play"
        assert page.value("[...document.querySelectorAll('button:not(.link), select:not(#language)')].every(each => each.disabled)")
        picture(page, "server_ended")
        assert page.faults == []


def test_without_a_scale_the_page_is_asked_for_it(view: Any, ann: Any) -> None:
    with ann() as user:
        user.load("a", DIMER, edge=21.04, sigma=1, h=131072).tug(0, (RING // 3, 0, 0))
        user.session("a").advance(1)
    with view().page() as page:
        assert page.first["asks"] == "scale"
        assert (page.first["session"], page.first["why"]) == ("a", "")
        assert abs(float(page.first["edge"]) - 21.04) < 1e-4
        for edge, sigma, h in (("x", "1", "131072"), ("21.04", "5", "131072"), ("21.04", "1", "0"), ("21.04", "1", "1.5")):
            assert "sigma below a fifth of the edge" in page.ask("load", session="a", edge=edge, sigma=sigma, h=h)["why"]
        assert "about 21.04" in page.ask("load", session="a", edge="22", sigma="1", h="131072")["why"]
        told = page.ask("load", session="a", edge="21.04", sigma="1", h="131072")
        assert told["scene"]["session"] == "a"
        assert abs(told["scene"]["edge"] - 21.04) < 1e-6


def test_a_user_without_sessions_is_shown_the_crystal(view: Any) -> None:
    with view().page() as page:
        assert (page.first["scene"]["session"], page.first["scene"]["titles"]) == (None, ["A crystal that melts"])


def test_the_token_is_typed_into_the_page(view: Any, ann: Any) -> None:
    with ann() as user:
        dimer(user)
    with view(*SCALE, token_file=None).page() as page:
        assert page.first == {"asks": "token", "name": "ann", "why": ""}
        assert "32 letters" in page.ask("token", token="short")["why"]
        assert "no user ann with this token" in page.ask("token", token="b" * 32)["why"]
        assert page.ask("token", token=" ".join(TOKEN[k : k + 4] for k in range(0, 32, 4)))["scene"]["session"] == "a"


def test_a_session_that_is_gone_or_was_loaded_anew_is_told(view: Any, ann: Any) -> None:
    with ann() as user:
        dimer(user)
        dimer(user, "b")
    shown = view(*SCALE)
    with shown.page() as one, shown.page() as other:
        other.ask("load", session="b")
        with ann() as user:
            user.session("a").drop()
            user.load("b", DIMER, edge=256, sigma=1, h=4295, replace=True)
        told = one.ask("frame", steps=1)
        assert (told["error"], told["lost"]) == ("cannot go on with a: the server no longer has it; choose other atoms", True)
        assert told["choice"]["sessions"] == ["b"]
        assert other.ask("frame", steps=1)["error"] == "cannot go on with b: it was loaded again; choose it again"
        assert other.ask("load", session="b")["scene"]["session"] == "b"


def overflow_at_320(page: Any) -> Any:
    """By how many pixels the page is wider than a screen of 320."""
    page.ask("Emulation.setDeviceMetricsOverride", width=320, height=700, deviceScaleFactor=1, mobile=False)
    page.wait_for("innerWidth === 320")
    over = page.value("document.documentElement.scrollWidth") - 320
    picture(page, f"question_at_320_{page.value('document.activeElement.name')}")
    page.ask("Emulation.clearDeviceMetricsOverride")
    return over


@pytest.mark.skipif(not CHROMIUM, reason="Chromium is not installed")
def test_the_page_asks_for_what_it_has_to_know(view: Any, ann: Any) -> None:
    """The token, and then what the session was loaded with. Keys that are typed into a field press no button."""
    with ann() as user:
        dimer(user).advance(5)
    with Browser() as page:
        page.open(view(token_file=None).link)
        page.wait_for("document.activeElement?.name === 'token'")
        assert overflow_at_320(page) <= 0
        for button in ("reverse", "save", "second", "play", "csv"):
            page.value(f"document.getElementById('{button}').click()")
        page.type(f"b{TOKEN[1:]}\r")
        page.wait_for("document.querySelector('#question .message').textContent.includes('type it again')")
        page.type(f"{TOKEN}\r")
        page.wait_for("document.activeElement?.name === 'edge'")
        assert "look at the LOAD at the prompt, or below its reply" in page.text("question")
        assert page.value("document.activeElement.value") == "256"
        assert overflow_at_320(page) <= 0
        picture(page, "question")
        page.type("\t1\t131072\r")
        page.wait_for("document.getElementById('about').textContent.startsWith('2 atoms, the box is 256.00 \\u03c3 wide')")
        assert page.text("step") == "5"
        assert page.value("document.getElementById('question').hidden")
        page.click("one")
        page.wait_for("document.getElementById('step').textContent === '6'")
        assert page.faults == []


def refused(*words: Any) -> Tuple[Any, Any]:
    done = subprocess.run(**command(*words), capture_output=True, timeout=SECONDS)
    assert done.stdout == ""
    return done.returncode, done.stderr


def test_what_is_wrong_is_told_before_a_page(server: Any, tmp_path: pathlib.Path) -> None:
    token = tmp_path / "token"
    token.write_text("b" * 32)
    here = f"127.0.0.1:{server.port}"
    assert refused(here)[0] == 2
    assert "HOST:PORT must be followed by NAME" in refused(here)[1]
    assert "ERR 01 DENIED" in refused(here, "ann", "--token-file", token)[1]
    assert "cannot connect" in refused("127.0.0.1:1", "ann")[1]
    assert "--token-file must come with" in refused("--token-file", token)[1]
