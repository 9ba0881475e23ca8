"""The page that bin/page makes, in Chromium: the live view over the program that runs in it, commands, and where it cannot run."""
from __future__ import annotations

import base64
import functools
import hashlib
import http.server
import json
import os
import shutil
import subprocess
import sys
import threading
import time
from pathlib import Path
from typing import Any, Callable, Iterator

import pytest

TOP = Path(__file__).resolve().parents[2]
SECONDS = 240
FAST = "Object.assign(document.getElementById('speed'), { value: '20' }).dispatchEvent(new Event('input'))"
TO_THE_BIT = "OK SHOW a 2 0 1774 0 0\nREVERSE a\nOK REVERSE a 1\nADVANCE a 1\nOK ADVANCE a 0\nSHOW a 0\nOK SHOW a 0 0 0 0 0\n"
ATOMS = "".join(f"Ar {3.8 * (k % 3):.2f} {3.8 * (k // 3 % 3):.2f} {3.8 * (k // 9):.2f}\n" for k in range(27))
# The longest words that parts of the page can have.
LONGEST = """document.getElementById('direction').textContent = 'backward';
document.getElementById('restore').textContent = 'Restore step 123,456'"""
CUT_OFF = """[...document.querySelectorAll('button, select, textarea, pre, canvas, label')]
  .filter((each) => each.getBoundingClientRect().right > innerWidth).map((each) => each.id || each.textContent)"""
WITHOUT_PROMISES = "delete WebAssembly.Suspending;"
CANNOT = "The program cannot run here: this browser has no promises in WebAssembly"
WITHOUT_WORKERS = "Object.defineProperty(navigator, 'serviceWorker', { value: undefined });"


class Handler(http.server.SimpleHTTPRequestHandler):
    """Of a server of files that sends no headers of its own."""

    def log_message(self, *_: Any) -> None:
        """Prints nothing."""


class Site(http.server.ThreadingHTTPServer):
    """Serves a folder until it is shut."""

    def __init__(self, folder: Path):
        super().__init__(("127.0.0.1", 0), functools.partial(Handler, directory=str(folder)))
        threading.Thread(target=self.serve_forever, daemon=True).start()
        self.address = f"http://127.0.0.1:{self.server_port}/index.html"

    def shut(self) -> None:
        self.shutdown()
        self.server_close()


@pytest.fixture(scope="module")
def site(tmp_path_factory: pytest.TempPathFactory, compiled: Callable[[str], Path]) -> Path:
    """The folder of a page."""
    folder = tmp_path_factory.mktemp("page")
    (folder / "modules").mkdir()
    for kind in ("wasm64", "wasm32"):
        (folder / "modules" / f"{kind}.wasm").symlink_to(compiled(kind))
    subprocess.run([TOP / "bin/page", folder / "site", "--modules", folder / "modules"], check=True, timeout=SECONDS)
    return folder / "site"


@pytest.fixture(scope="module")
def address(site: Path) -> Iterator[str]:
    server = Site(site)
    yield server.address
    server.shut()


@pytest.fixture(scope="module")
def opened() -> Iterator[Any]:
    browsing = pytest.importorskip("browsing")
    if browsing.CHROMIUM is None:
        pytest.skip("no chromium")
    with browsing.Browser(1280, 800) as browser:
        yield browser


@pytest.fixture
def browser(opened: Any) -> Iterator[Any]:
    yield opened
    opened.ask("Emulation.clearDeviceMetricsOverride")
    opened.leave()


def begin(browser: Any, address: str) -> None:
    """Opens the page, and waits until its atoms are there."""
    browser.open(address)
    browser.wait_for("document.getElementById('state')?.textContent.startsWith('The program runs')", SECONDS)
    browser.wait_for("document.getElementById('message').textContent === 'Press Play.'", SECONDS)


def click(browser: Any, name: str) -> None:
    browser.value(f"document.getElementById('{name}').scrollIntoView({{ block: 'center' }})")
    browser.click(name)


def says(browser: Any, name: str, begins: str) -> None:
    browser.wait_for(f"document.getElementById('{name}').textContent.startsWith({json.dumps(begins)})", SECONDS)


def send(browser: Any, commands: str, count: int) -> None:
    browser.value(f"document.getElementById('commands').value = {json.dumps(commands)}")
    click(browser, "send")
    says(browser, "state", f"{count} commands answered" if count > 1 else "1 command answered")


def play_to(browser: Any, step: int) -> None:
    """Plays, with as many steps a frame as there may be."""
    browser.value(FAST)
    click(browser, "play")
    browser.wait_for(f"Number(document.getElementById('step').textContent.replaceAll(',', '')) >= {step}", SECONDS)
    click(browser, "play")
    says(browser, "play", "Play")


def saved_record(browser: Any, folder: Path) -> Path:
    browser.ask("Browser.setDownloadBehavior", behavior="allow", downloadPath=str(folder))
    click(browser, "record")
    end = time.monotonic() + SECONDS
    while not (found := list(folder.glob("*.lj"))):
        assert time.monotonic() < end, list(folder.iterdir())
        time.sleep(0.05)
    return found[0]


def played(record: Path) -> "subprocess.CompletedProcess[str]":
    """A record, played by the program for this machine."""
    command = [sys.executable, "-m", "ljclient", "verify", "--program", os.environ["LJSERVE"], "--quiet", str(record)]
    environment = {**os.environ, "PYTHONPATH": str(TOP / "clients/python")}
    return subprocess.run(command, env=environment, capture_output=True, text=True, timeout=SECONDS)


def test_256_atoms_go_there_and_back_without_a_network(site: Path, browser: Any, tmp_path: Path) -> None:
    """From when the page is loaded its host is gone. Its record is played by the program for this machine."""
    server = Site(site)
    begin(browser, server.address)
    server.shut()
    play_to(browser, 400)
    assert float(browser.text("distance")) > 0.1
    click(browser, "exact")
    says(browser, "message", "0 of 256 atoms")
    click(browser, "reverse")
    says(browser, "direction", "backward")
    click(browser, "play")
    says(browser, "message", "Back at step 0.")
    browser.wait_for("document.getElementById('distance').textContent === '0'", SECONDS)
    click(browser, "exact")
    says(browser, "message", "256 of 256, bit for bit: each atom is where it was at the start, with its motion turned back.")
    record = saved_record(browser, tmp_path)
    done = played(record)
    assert done.returncode == 0, done.stdout + done.stderr
    assert "0 commands were not played; 1 trajectory" in done.stdout
    assert hashlib.sha256((site / browser.text("module")).read_bytes()).hexdigest() in record.read_text()
    assert not browser.faults


def test_two_atoms_go_there_and_back_by_commands(address: str, browser: Any, site: Path) -> None:
    begin(browser, address)
    click(browser, "send")
    says(browser, "state", "7 commands answered")
    assert TO_THE_BIT in browser.text("replies")
    name = browser.text("module")
    assert browser.text("sum") == hashlib.sha256((site / name).read_bytes()).hexdigest()
    assert not browser.faults


def test_commands_act_on_the_atoms_that_are_shown(address: str, browser: Any) -> None:
    begin(browser, address)
    send(browser, "ADVANCE view-1 7\nREVERSE view-1\n", 2)
    browser.wait_for("document.getElementById('step').textContent === '6'", SECONDS)
    assert browser.text("direction") == "backward"
    send(browser, "DROP view-1", 1)
    says(browser, "message", "cannot go on with view-1: the program no longer has it; choose other atoms")
    browser.value("Object.assign(document.getElementById('scene'), { value: '2' }).dispatchEvent(new Event('change'))")
    browser.wait_for("document.getElementById('about').textContent.startsWith('32 atoms')", SECONDS)
    assert not browser.faults


def test_what_the_buttons_send_is_shown(address: str, browser: Any) -> None:
    begin(browser, address)
    click(browser, "all")
    click(browser, "one")
    dumped = "DUMP view-1\nOK DUMP view-1 1 258\n.. 258 more lines\n"
    says(browser, "replies", f"ADVANCE view-1 1\nOK ADVANCE view-1 1\n{dumped}MEASURE view-1\nOK MEASURE view-1 1 256 0 0 0 ")
    assert not browser.faults


def test_it_shows_the_commit(address: str, browser: Any) -> None:
    browser.open(address)
    browser.wait_for("document.getElementById('commit') !== null", SECONDS)
    head = subprocess.run(["git", "-C", TOP, "rev-parse", "HEAD"], capture_output=True, text=True, check=True).stdout.strip()
    assert browser.text("commit").startswith(head)


def test_a_refusal_is_shown_and_the_program_begins_anew(address: str, browser: Any) -> None:
    begin(browser, address)
    send(browser, "SHOW b 0\nBYE\nLIST\n", 3)
    assert browser.text("replies") == "SHOW b 0\nERR 10 NO_SESSION\nBYE\nOK BYE\nLIST\nthe program has ended with status 0\n"
    says(browser, "message", "The program has ended. Load this page again (")
    click(browser, "anew")
    browser.wait_for("document.getElementById('message')?.textContent === 'Press Play.'", SECONDS)
    send(browser, "LIST", 1)
    browser.wait_for("document.getElementById('replies').textContent === 'LIST\\nOK LIST 1\\nview-1 0 256 1\\n'", SECONDS)


def test_a_file_is_opened(address: str, browser: Any, tmp_path: Path) -> None:
    """It says no Lattice, so that its edge has to be typed. What does not fit is told, and the atoms before are still there."""
    (tmp_path / "cube.xyz").write_text(f"27\n\n{ATOMS}")
    begin(browser, address)
    root = browser.ask("DOM.getDocument")["root"]["nodeId"]
    node = browser.ask("DOM.querySelector", nodeId=root, selector="#file")["nodeId"]
    browser.ask("DOM.setFileInputFiles", nodeId=node, files=[str(tmp_path / "cube.xyz")])
    browser.wait_for("!document.getElementById('question').hidden", SECONDS)
    for edge, shown in (("10", "sigma"), ("25", "27 atoms, the box is 7.35 σ wide, a step is 10.00 fs")):
        browser.value(f"Object.assign(document.querySelector('#question [name=edge]'), {{ value: '{edge}' }})")
        browser.value("document.querySelector('#question button').click()")
        browser.wait_for(
            f"document.querySelector('#question .message, #about').closest('body').innerText.includes({json.dumps(shown)})", SECONDS
        )
    browser.wait_for("document.getElementById('question').hidden", SECONDS)
    assert browser.value("document.getElementById('scene').selectedOptions[0].text") == "cube.xyz"
    click(browser, "one")
    browser.wait_for("document.getElementById('step').textContent === '1'", SECONDS)
    assert not browser.faults


@pytest.mark.parametrize("width", [1280, 850, 390])
def test_all_of_it_can_be_read_at_any_width(address: str, browser: Any, width: int) -> None:
    browser.ask("Emulation.setDeviceMetricsOverride", width=width, height=844, deviceScaleFactor=1, mobile=False)
    begin(browser, address)
    browser.value(LONGEST)
    assert browser.value("document.documentElement.scrollWidth <= innerWidth")
    assert browser.value(CUT_OFF) == []
    if "LJSERVE_PICTURES" in os.environ:
        shown = browser.ask("Page.captureScreenshot", format="png", captureBeyondViewport=True)["data"]
        Path(os.environ["LJSERVE_PICTURES"], f"page-{width}.png").write_bytes(base64.b64decode(shown))


def with_script(browser: Any, script: str, address: str) -> str:
    """Opens the page where this is done before its scripts. Returns what undoes that."""
    name: str = browser.ask("Page.addScriptToEvaluateOnNewDocument", source=script)["identifier"]
    browser.open(address)
    return name


def test_without_promises_a_service_worker_adds_the_headers(address: str, browser: Any) -> None:
    name = with_script(browser, WITHOUT_PROMISES, address)
    try:
        says_so = "document.getElementById('message')?.textContent === 'Press Play.'"
        browser.wait_for(says_so, SECONDS)
        assert browser.value("crossOriginIsolated") is True
        click(browser, "one")
        browser.wait_for("document.getElementById('step').textContent === '1'", SECONDS)
    finally:
        browser.ask("Page.removeScriptToEvaluateOnNewDocument", identifier=name)
        workers = "navigator.serviceWorker.getRegistrations().then((all) => Promise.all(all.map((each) => each.unregister())))"
        browser.value(f"{workers}.then(() => sessionStorage.clear())")
    assert not browser.faults


def test_where_nothing_helps_it_says_so(site: Path, browser: Any) -> None:
    server = Site(site)
    name = with_script(browser, WITHOUT_PROMISES + WITHOUT_WORKERS, server.address)
    try:
        for element in ("message", "state"):
            browser.wait_for(
                f"document.getElementById('{element}')?.textContent.startsWith('The program cannot run here: this browser has no ')",
                SECONDS,
            )
        assert browser.text("message").endswith("from a host that sends the headers COOP same-origin and COEP require-corp.")
        assert browser.value("document.getElementById('play').disabled && document.getElementById('send').disabled")
    finally:
        browser.ask("Page.removeScriptToEvaluateOnNewDocument", identifier=name)
        server.shut()


def test_view_page_serves_it_with_the_headers(site: Path, browser: Any) -> None:
    """In memory that threads share, since promises are taken away."""
    viewing = pytest.importorskip("viewing")
    with viewing.View("--page", site) as view:
        name = with_script(browser, WITHOUT_PROMISES + WITHOUT_WORKERS, view.link)
        try:
            browser.wait_for("document.getElementById('message')?.textContent === 'Press Play.'", SECONDS)
            assert browser.value("crossOriginIsolated") is True
            play_to(browser, 100)
        finally:
            browser.ask("Page.removeScriptToEvaluateOnNewDocument", identifier=name)
    assert not browser.faults


def test_a_module_that_is_not_there_is_told(tmp_path: Path) -> None:
    done = subprocess.run([TOP / "bin/page", tmp_path / "site", "--modules", tmp_path], capture_output=True, text=True, timeout=SECONDS)
    why = f"cannot read {tmp_path}/wasm64.wasm: there is no such file; use bin/compile wasm64 to make it, or leave --modules out"
    assert (done.returncode, done.stderr) == (69, f"page: {why}\n")
    assert not (tmp_path / "site").exists()


@pytest.mark.skipif(shutil.which("node") is None, reason="no node")
def test_bodies_are_cut_by_their_bytes() -> None:
    """A letter may be two bytes of a body. A body that is cut short has what there is of it."""
    text = "LOAD a 9 1 1 rest 9\n1\nK\u00fc\nAr\nLIST\n\nLOADMIX b 9\nAr"
    module, given = str(TOP / "packaging/page/commands.js"), json.dumps(text)
    words = f"const {{ split }} = await import({module!r}); console.log(JSON.stringify(split({given})))"
    done = subprocess.run(["node", "--input-type=module", "-e", words], capture_output=True, text=True, timeout=SECONDS, check=True)
    bodies = [("LOAD a 9 1 1 rest 9", "1\nK\u00fc\nAr\n"), ("LIST", ""), ("LOADMIX b 9", "Ar\n")]
    assert json.loads(done.stdout) == [{"line": line, "body": body} for line, body in bodies]
