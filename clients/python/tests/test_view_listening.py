"""The live view behind an address of its own, for those who have its link."""
import contextlib
import json
import re
import signal
import socket
import subprocess
from concurrent.futures import ThreadPoolExecutor
from typing import Any, Iterator

import pytest

from ljclient.view import pages
from support import SECONDS, wait_until
from viewing import Page, Stream, View, command
from web_sockets import Refused


@pytest.fixture
def view() -> Iterator[Any]:
    with View("--listen", "127.0.0.1:0", "--address", "class.example") as one:
        yield one


def test_the_link_has_a_secret(view: Any) -> None:
    told = re.fullmatch(r"The page is at http://class\.example:\d+/([\w-]{16})/ and the program ends by Ctrl-C\.\n", view.said)
    assert told
    with View("--listen", "127.0.0.1:0") as other:
        assert other.said.startswith("The page is at http://127.0.0.1:")
        assert told[1] not in other.said


def test_whoever_has_the_link_is_answered(view: Any) -> None:
    """By whatever name, since a class reaches the machine by more than one."""
    for host in (f"127.0.0.1:{view.port}", "class.example", "[2001:db8::1]:80"):
        status, headers, body = view.get(view.path, Host=host)
        assert (status, b'<canvas id="box"' in body) == (200, True)
        assert headers["Content-Security-Policy"].endswith(f"connect-src ws://{host} wss://{host}")
        assert headers["Referrer-Policy"] == "no-referrer"
        for scheme in ("http", "https"):
            with Page(view.port, {"Host": host, "Origin": f"{scheme}://{host}"}, view.path) as page:
                assert page.ask("frame", steps=1)["step"] == 1
    assert view.get(f"{view.path}page.js")[0] == 200


def test_without_the_secret_there_is_no_page(view: Any) -> None:
    wrong = f"/{'A' * 16}/"
    for path in ("/", "/page.html", "/page.js", "/session", wrong, f"{wrong}page.js", view.path[:-2], view.path.lower() + "x"):
        assert view.get(path)[0] == 404
    with pytest.raises(Refused, match="404"):
        Page(view.port, {"Origin": f"http://{view.url}", "Host": view.url}, wrong)


@pytest.mark.parametrize("words, most", [([], 8), (["--pages-of-an-address", "2"], 2)])
def test_one_address_has_some_of_the_pages(words: Any, most: int) -> None:
    """One more is told why it is not answered, and another address has its own. When a page is closed there is room again."""
    with View("--listen", "127.0.0.1:0", *words) as view, contextlib.ExitStack() as opened:
        first, *_ = [opened.enter_context(view.page()) for _ in range(most)]
        why = f"{most} pages are open already from your address, 127.0.0.1, and no more may be. Close one, and load this page again."
        with view.page() as refused:
            assert (refused.first, refused.channel.receive()) == ({"error": why}, None)
        with Stream(view, "127.0.0.2") as other:
            assert json.loads(other.first[1])["step"] == 0
        first.close()
        wait_until(lambda: "error" not in opened.enter_context(view.page()).first)


def closes(port: int, sent: bytes) -> bytes:
    """What is answered to these bytes until the connection is closed by the other side."""
    with socket.create_connection(("127.0.0.1", port), SECONDS) as connection:
        connection.sendall(sent)
        return b"".join(iter(lambda: connection.recv(4096), b""))


def test_a_connection_that_asks_for_nothing_is_let_go(view: Any) -> None:
    """One that says nothing, one whose request does not end, and one that says no more after its first. A page that says nothing
    stays."""
    request = f"GET / HTTP/1.1\r\nHost: {view.url}\r\n"
    with Page(view.port, {"Origin": f"http://127.0.0.1:{view.port}"}, view.path) as page, ThreadPoolExecutor(3) as threads:
        answers = list(threads.map(closes, [view.port] * 3, [b"", request.encode(), f"{request}\r\n".encode()]))
        assert answers[:2] == [b"", b""]
        assert answers[2].startswith(b"HTTP/1.1 404 ")
        assert page.ask("frame", steps=1)["step"] == 1


def test_no_page_of_another_site_is_answered(view: Any) -> None:
    for headers in ({"Origin": "http://example.org"}, {"Host": "a b"}, {"Host": "x;y"}, {"Host": ""}):
        assert view.get(view.path, **headers)[0] == 403
    with pytest.raises(Refused, match="403"):
        Page(view.port, {"Origin": "http://example.org"}, view.path)


def test_it_stays_when_a_page_is_closed_and_ends_by_an_interrupt(view: Any) -> None:
    with Page(view.port, {"Origin": f"http://127.0.0.1:{view.port}"}, view.path):
        pass
    with pytest.raises(subprocess.TimeoutExpired):
        view.child.wait(pages.GRACE_SECONDS + 1)
    view.child.send_signal(signal.SIGTERM)
    assert view.child.wait(SECONDS) == 0
    assert view.end() == (0, "")


@pytest.mark.parametrize(
    "words, told",
    [
        (["--listen", "8000"], "--listen must be ADDRESS:PORT"),
        (["--listen", "0.0.0.0:8000", "--port", "1"], "--port cannot be used with --listen"),
        (["--address", "class.example"], "--address must come with --listen"),
        (["--pages-of-an-address", "8"], "--pages-of-an-address must come with --listen"),
        (["--listen", "0.0.0.0:8000", "--pages-of-an-address", "0"], "--pages-of-an-address must be from 1 to 40, got 0"),
        (["--listen", "0.0.0.0:8000", "--pages-of-an-address", "41"], "--pages-of-an-address must be from 1 to 40, got 41"),
    ],
)
def test_words_that_do_not_fit(words: Any, told: Any) -> None:
    done = subprocess.run(**command(*words), capture_output=True, timeout=SECONDS)
    assert (done.returncode, told in done.stderr) == (2, True)
