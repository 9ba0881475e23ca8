"""The stored streams of conformance/ on the program as WebAssembly, in Node and in Chromium."""
from __future__ import annotations

import base64
import json
import os
import re
import shutil
import subprocess
from pathlib import Path
from typing import Any, Callable, Dict, Iterator, List, Set, Tuple

import pytest
from playing import USUAL, Stream, difference, stored, told_by

TOP = Path(__file__).resolve().parents[2]
ENGINE = TOP / "clients/javascript/src/program.js"
NODE = shutil.which("node")
SECONDS = 600
# Each stream with LJSERVE_STREAMS=all, as a release is tried; else every tenth. `lj_run` has the usual quota alone, and `ljserve` each.
STEP = 1 if os.environ.get("LJSERVE_STREAMS") == "all" else 10
STREAMS = [("", stream) for stream in stored() if stream.quota == USUAL][::STEP]
STREAMS += [("ljserve-", stream) for stream in stored() if STEP == 1 or stream.quota != USUAL][::STEP]
NAMES = [crate + stream.name for crate, stream in STREAMS]
# The words of each program.
WORDS: Dict[str, List[str]] = {"": [], "ljserve-": ["run"]}


@pytest.mark.skipif(NODE is None, reason="no node")
@pytest.mark.parametrize("crate, stream", STREAMS, ids=NAMES)
def test_node_answers_as_the_reference(crate: str, stream: Stream, compiled: Callable[[str], Path]) -> None:
    command = [str(NODE), str(TOP / "packaging/wasm/run.mjs"), str(compiled(f"{crate}wasm32")), *WORDS[crate]]
    assert difference(stream, *told_by(command, stream, SECONDS)) is None


# A program is compiled once for all of its streams, and each of them has an instance of its own.
BEGIN = """(async () => {
  const bytes = (text) => Uint8Array.from(atob(text), (letter) => letter.charCodeAt(0));
  const { answerAll } = await import("data:text/javascript;base64,%s");
  const module = await WebAssembly.compile(bytes("%s"));
  window.programs ??= {};
  window.programs["%s"] = (input, words) => {
    const { status, output } = answerAll(module, bytes(input), words);
    let text = "";
    for (const byte of output) text += String.fromCharCode(byte);
    return [status, btoa(text)];
  };
  return true;
})()"""


class Page:
    """A browser whose page has programs of one kind, which are handed to it when they are first asked for."""

    def __init__(self, browser: Any, kind: str, compiled: Callable[[str], Path]) -> None:
        self.browser, self.kind, self.compiled = browser, kind, compiled
        self.engine = base64.b64encode(ENGINE.read_bytes()).decode()
        self.has: Set[str] = set()

    def answer(self, crate: str, stream: Stream) -> Tuple[int, bytes]:
        """The status and the replies."""
        if crate not in self.has:
            module = base64.b64encode(self.compiled(crate + self.kind).read_bytes()).decode()
            assert self.browser.value(BEGIN % (self.engine, module, crate)) is True
            self.has.add(crate)
        sent, words = base64.b64encode(stream.sent).decode(), json.dumps([*WORDS[crate], *stream.words()])
        status, output = self.browser.value(f"programs[{crate!r}]({sent!r}, {words})")
        return status, base64.b64decode(output)


@pytest.fixture(scope="module", params=["wasm64", "wasm32"])
def page(request: pytest.FixtureRequest, compiled: Callable[[str], Path]) -> Iterator[Page]:
    browsing = pytest.importorskip("browsing")
    if browsing.CHROMIUM is None:
        pytest.skip("no chromium")
    browser = browsing.Browser()
    yield Page(browser, request.param, compiled)
    browser.end()


@pytest.mark.parametrize("crate, stream", STREAMS, ids=NAMES)
def test_chromium_answers_as_the_reference(crate: str, stream: Stream, page: Page) -> None:
    status, output = page.answer(crate, stream)
    assert difference(stream, output, f"ended with status {status}" if status else "") is None


# How `ljserve` ends by other words than those of a run, and what it tells then.
ENDS = [
    (["--version"], 0, r"ljserve \d+\.\d+\.\d+\n", ""),
    (["run", "--sessions", "x"], 2, "", "(?s).*--sessions.*"),
    (["run", "--" + "x" * 5000], 2, "", "(?s).*x{100}.*"),
    (["", "run"], 2, "", "(?s).+"),
]


@pytest.mark.skipif(NODE is None, reason="no node")
@pytest.mark.parametrize("words, status, out, err", ENDS, ids=["version", "no number", "a long word", "an empty word"])
def test_words_and_statuses_of_ljserve(words: List[str], status: int, out: str, err: str, compiled: Callable[[str], Path]) -> None:
    command = [str(NODE), str(TOP / "packaging/wasm/run.mjs"), str(compiled("ljserve-wasm32")), *words]
    done = subprocess.run(command, stdin=subprocess.DEVNULL, capture_output=True, text=True, timeout=SECONDS)
    assert done.returncode == status, done
    assert re.fullmatch(out, done.stdout) and re.fullmatch(err, done.stderr), done


SERVE = ["serve", "--listen", "127.0.0.1:4000", "--users", "users", "--workers", "1", "--connections", "1"]


@pytest.mark.skipif(NODE is None, reason="no node")
def test_a_server_has_no_files_and_no_sockets_there(compiled: Callable[[str], Path]) -> None:
    command = [str(NODE), str(TOP / "packaging/wasm/run.mjs"), str(compiled("ljserve-wasm32")), *SERVE]
    done = subprocess.run(command, stdin=subprocess.DEVNULL, capture_output=True, text=True, timeout=SECONDS)
    assert done.returncode != 0 and done.stdout == "" and done.stderr != "", done
