"""Chromium without a window, spoken to by its DevTools protocol: what the tests of a page and its bench need of it."""
import base64
import json
import os
import pathlib
import shutil
import subprocess
import tempfile
import time
import urllib.request
from typing import Any, Callable, Dict, List, Tuple

from support import SECONDS, present
from web_sockets import WebSocket

CHROMIUM = shutil.which("chromium") or shutil.which("chromium-browser") or shutil.which("google-chrome")


class Browser:
    """A browser with one page, which is as large as said, and with more words of its command line."""

    def __init__(self, width: int = 1320, height: int = 860, *more: str) -> None:
        self._folder = pathlib.Path(tempfile.mkdtemp())
        words = ["--headless", "--remote-debugging-port=0", f"--user-data-dir={self._folder}", "--disable-gpu", "--accept-lang=en"]
        words += ["--no-first-run", "--hide-scrollbars", f"--window-size={width},{height}", "--force-device-scale-factor=1", *more]
        words += ["--no-sandbox"] if os.geteuid() == 0 else []
        self._child = subprocess.Popen(
            [present(CHROMIUM), *words, "about:blank"],
            env={**os.environ, "TMPDIR": str(self._folder)},
            stdout=subprocess.DEVNULL,
            stderr=subprocess.DEVNULL,
        )
        self._channel: Any = None
        self._number = 0
        self.faults: List[Any] = []
        try:
            self._channel = self._page()
            for domain in ("Page", "Runtime", "Log"):
                self.ask(f"{domain}.enable")
        except BaseException:
            self.end()
            raise

    @property
    def process(self) -> Any:
        """The number of its first process."""
        return self._child.pid

    def _page(self) -> Any:
        told = self._folder / "DevToolsActivePort"
        end = time.monotonic() + SECONDS
        while not (told.exists() and told.read_text().count("\n") >= 1):
            if self._child.poll() is not None or time.monotonic() > end:
                raise AssertionError("the browser does not begin")
            time.sleep(0.02)
        port = int(told.read_text().split("\n")[0])
        with urllib.request.urlopen(f"http://127.0.0.1:{port}/json/list", timeout=SECONDS) as pages:
            page = next(each for each in json.load(pages) if each["type"] == "page")
        return WebSocket(page["webSocketDebuggerUrl"])

    def ask(self, method: Any, **words: Any) -> Any:
        """The result of a method of the protocol. What the page complains of meanwhile is kept in `faults`."""
        return self.ask_all(method, [words])[0]

    def ask_all(self, method: Any, each: Any) -> Any:
        """The results of a method for several words, which are sent at once, so that hardly any time is between them."""
        numbers = range(self._number + 1, self._number + 1 + len(each))
        self._number += len(each)
        for number, words in zip(numbers, each):
            self._channel.send(json.dumps({"id": number, "method": method, "params": words}))
        return self._results(method, numbers)

    def _results(self, method: Any, numbers: Any) -> List[Any]:
        """The results of a method that was sent with these numbers."""
        results: Dict[Any, Any] = {}
        while len(results) < len(numbers):
            told = json.loads(self._channel.receive())
            if "error" in told:
                raise AssertionError(f"{method}: {told['error']}")
            if told.get("id") in numbers:
                results[told["id"]] = told["result"]
            elif "id" not in told:
                self._note(told)
        return [results[number] for number in numbers]

    def _note(self, told: Any) -> None:
        """Keeps what the page complains of."""
        if told["method"] == "Runtime.exceptionThrown" or told.get("params", {}).get("entry", {}).get("level") == "error":
            self.faults.append(told["params"])

    def value(self, text: Any) -> Any:
        """The value of an expression in the page."""
        told = self.ask("Runtime.evaluate", expression=text, returnByValue=True, awaitPromise=True)
        if "exceptionDetails" in told:
            raise AssertionError(f"{text}: {told['exceptionDetails']}")
        return told["result"].get("value")

    def text(self, name: Any) -> Any:
        """The text of the element of this name."""
        return self.value(f"document.getElementById({json.dumps(name)}).textContent")

    def click(self, name: Any) -> None:
        """Presses a button with the mouse."""
        box = self.value(f"document.getElementById({json.dumps(name)}).getBoundingClientRect().toJSON()")
        where: Dict[str, Any] = {"x": box["x"] + box["width"] / 2, "y": box["y"] + box["height"] / 2}
        self.mouse("mousePressed", **where)
        self.mouse("mouseReleased", **where)

    def mouse(self, what: Any, x: Any, y: Any) -> None:
        held = int(what != "mouseReleased")
        self.ask("Input.dispatchMouseEvent", type=what, x=x, y=y, button="left", buttons=held, clickCount=1)

    def take(self, point: Callable[[Dict[str, float]], Tuple[float, float]]) -> Tuple[float, float]:
        """Presses at a point of the box until an atom is held there: the page may have moved since its rectangle was told."""
        end = time.monotonic() + SECONDS
        while True:
            x, y = point(self.value("document.getElementById('box').getBoundingClientRect().toJSON()"))
            self.mouse("mousePressed", x, y)
            if self.value("document.getElementById('box').classList.contains('holding')"):
                return x, y
            self.mouse("mouseReleased", x, y)
            assert time.monotonic() < end, "no atom is held"

    def type(self, text: Any) -> None:
        """Types letters into what has the focus. A tab goes to the next field, and a carriage return is Enter."""
        for letter in text:
            key = {"\t": "Tab", "\r": "Enter"}.get(letter, letter)
            words: Dict[str, Any] = {"key": key, "code": key, "windowsVirtualKeyCode": ord(letter.upper())}
            self.ask("Input.dispatchKeyEvent", type="keyDown", text=letter, **words)
            self.ask("Input.dispatchKeyEvent", type="keyUp", **words)

    def wait_for(self, text: Any, seconds: Any = 4 * SECONDS) -> None:
        """Waits until an expression holds in the page."""
        end = time.monotonic() + seconds
        while not self.value(text):
            if time.monotonic() > end:
                shown = self.value("document.body.innerText")
                raise AssertionError(f"this does not come to hold: {text}\n{shown}\n{self.faults}")
            time.sleep(0.02)

    def open(self, url: Any) -> None:
        self.ask("Page.navigate", url=url)

    def leave(self) -> None:
        """Leaves the page for an empty one, and forgets what it complained of, since its server may have ended."""
        self.open("about:blank")
        self.wait_for("location.href === 'about:blank'")
        self.faults.clear()

    def in_scheme(self, scheme: Any) -> None:
        """Shows the page as a system in a light or a dark scheme does."""
        self.ask("Emulation.setEmulatedMedia", features=[{"name": "prefers-color-scheme", "value": scheme}])

    def picture(self) -> Any:
        """What the page looks like, as PNG."""
        return base64.b64decode(self.ask("Page.captureScreenshot", format="png")["data"])

    def end(self) -> None:
        if self._channel is not None:
            self._channel.close()
        if self._child.poll() is None:
            self._child.terminate()
        try:
            self._child.wait(SECONDS)
        except subprocess.TimeoutExpired:
            self._child.kill()
            self._child.wait(SECONDS)
        shutil.rmtree(self._folder, ignore_errors=True)

    def __enter__(self) -> Any:
        return self

    def __exit__(self, *_: Any) -> None:
        self.end()
