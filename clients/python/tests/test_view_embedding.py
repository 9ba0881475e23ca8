"""`--embed ORIGIN`: the pages of one origin may show the live view in a frame, and no others; without it none may."""
import contextlib
import http.server
import json
import pathlib
import subprocess
import sys
import threading
from typing import Any, Iterator

import pytest
import web_sockets  # noqa: F401  first, since without aiohttp these tests are skipped

from browsing import CHROMIUM, Browser
from ljclient.view.addresses import is_origin
from support import SECONDS, TOP
from viewing import View, command

ORIGIN = "https://course.example"
# Where a page comes from, when its atoms are there.
REFERRER = """new Promise((done) => {
  const look = () => (document.getElementById('message')?.textContent === 'Press Play.' ? done(document.referrer) : setTimeout(look, 50));
  look();
})"""
WRONG = ["course.example", f"{ORIGIN}/", f"{ORIGIN}/page", "https://*.example", "*", "'none'", f"{ORIGIN}; script-src *", f"{ORIGIN} *"]
WRONG += ["ftp://course.example", "https://course.example:65536", "https://ann@course.example", "https://", "", f"{ORIGIN}\n", "https://-a"]
RIGHT = [ORIGIN, "http://localhost:8888", "https://127.0.0.1", "https://[::1]:8443", "https://course-1.example"]


def policy(view: Any, path: str) -> str:
    status, headers, _ = view.get(path)
    assert status == 200
    return str(headers["Content-Security-Policy"])


def test_one_origin_may_frame_it() -> None:
    """The rest of the policy stays, and a request of that origin itself is refused as ever: the frame asks by its own address."""
    with View("--embed", ORIGIN) as view:
        told = policy(view, view.path)
        assert told.split("; ").count(f"frame-ancestors {ORIGIN}") == 1 and "'none'" in told
        assert "default-src 'none'" in told and "frame-ancestors 'none'" not in told
        assert view.get("/")[0] == 404 and view.get(view.path, Origin=ORIGIN)[0] == 403
        with view.page() as page:
            assert page.first["scene"]["title"] == "A crystal that melts"


def test_one_origin_may_frame_the_page_with_the_program(tmp_path: pathlib.Path) -> None:
    for kind in ("wasm64", "wasm32"):
        (tmp_path / f"{kind}.wasm").write_bytes(b"\0asm\1\0\0\0")
    words = [sys.executable, str(TOP / "bin/page"), str(tmp_path / "site"), "--modules", str(tmp_path)]
    subprocess.run(words, check=True, timeout=SECONDS)
    with View("--page", tmp_path / "site", "--embed", ORIGIN) as view:
        assert policy(view, "/") == f"frame-ancestors {ORIGIN}"
    with View("--page", tmp_path / "site") as view:
        assert policy(view, "/") == "frame-ancestors 'none'"


@pytest.mark.parametrize("word", WRONG)
def test_what_is_no_origin_is_refused(word: str) -> None:
    assert not is_origin(word)


@pytest.mark.parametrize("word", RIGHT)
def test_what_is_an_origin_is_taken(word: str) -> None:
    assert is_origin(word)


def test_a_wrong_word_is_told() -> None:
    done = subprocess.run(**command("--embed", "course.example"), stdout=subprocess.PIPE, stderr=subprocess.PIPE, timeout=SECONDS)
    assert done.returncode == 2
    assert done.stderr.endswith("--embed must be an origin like https://course.example, got course.example\n")


class Handler(http.server.BaseHTTPRequestHandler):
    """Answers with a page that frames another one."""

    framed = ""

    def do_GET(self) -> None:
        self.send_response(200)
        self.send_header("Content-Type", "text/html")
        self.end_headers()
        self.wfile.write(f"<!doctype html><title>Course</title><iframe src='{self.framed}' width=900 height=700></iframe>".encode())

    def log_message(self, *_: Any) -> None:
        """Prints nothing."""


@contextlib.contextmanager
def course() -> Iterator[Any]:
    """A server of such a page."""
    kind = type("Framing", (Handler,), {})
    with http.server.ThreadingHTTPServer(("127.0.0.1", 0), kind) as server:
        threading.Thread(target=server.serve_forever, daemon=True).start()
        yield server
        server.shutdown()


def frame_of(browser: Any) -> Any:
    """The frame within the page, when it is loaded."""
    (child,) = browser.ask("Page.getFrameTree")["frameTree"]["childFrames"]
    return child["frame"]


@pytest.mark.skipif(not CHROMIUM, reason="Chromium is not installed")
def test_the_page_runs_in_a_frame_of_that_origin_alone() -> None:
    with course() as one, course() as other, Browser(1000, 800) as browser:
        origin = f"http://127.0.0.1:{one.server_port}"
        with View("--embed", origin) as view, view.page():
            one.RequestHandlerClass.framed = other.RequestHandlerClass.framed = view.link
            browser.open(origin)
            browser.wait_for("document.title === 'Course' && document.readyState === 'complete'")
            frame = frame_of(browser)
            assert frame["url"] == view.link
            world = browser.ask("Page.createIsolatedWorld", frameId=frame["id"])["executionContextId"]
            told = browser.ask("Runtime.evaluate", expression=REFERRER, contextId=world, awaitPromise=True, returnByValue=True)
            assert told["result"]["value"].startswith(origin) and browser.faults == []
            browser.open(f"http://127.0.0.1:{other.server_port}")
            browser.wait_for(f"location.port === '{other.server_port}' && document.readyState === 'complete'")
            assert frame_of(browser).get("unreachableUrl") == view.link
            assert "frame-ancestors" in json.dumps(browser.faults)
