"""The page that has the program itself, without its modules: the files that `bin/page` makes, whose engine asks a program beside it."""
import contextlib
import functools
import http.server
import json
import pathlib
import subprocess
import sys
import threading
from typing import Any, Dict, Iterator

from ljclient import run
from ljclient.view.typed import replied
from support import PROGRAM, SECONDS, TOP

# An engine that has the commands answered by the program in turn. Those that are sent at once are asked in one request.
ENGINE = """
export class Engine {
  static async open() {
    const number = await (await fetch("begin", { method: "POST" })).text();
    return Object.assign(new Engine(), { number, waiting: [], last: Promise.resolve() });
  }
  send(line, body = "") {
    if (!this.waiting.length) this.last = this.last.then(() => this.ask(this.waiting.splice(0)));
    return new Promise((resolve, reject) => this.waiting.push({ line, body, resolve, reject }));
  }
  async ask(all) {
    const answer = await fetch(`ask-${this.number}`, { method: "POST", body: JSON.stringify(all.map(({ line, body }) => [line, body])) });
    const replies = await answer.json();
    all.forEach(({ resolve, reject }, place) => {
      if (replies[place].startsWith("ERR ")) reject(new Error(replies[place].trim()));
      else resolve(replies[place]);
    });
  }
  close() {}
}
"""


class Handler(http.server.SimpleHTTPRequestHandler):
    """Of the files, and of what the engine asks."""

    def do_POST(self) -> None:
        body = self.rfile.read(int(self.headers["Content-Length"] or 0))
        told = self.server.answer(self.path.rpartition("/")[2], body)  # type: ignore[attr-defined]
        self.send_response(200)
        self.send_header("Content-Length", str(len(told)))
        self.end_headers()
        self.wfile.write(told)

    def log_message(self, *_: Any) -> None:
        """Prints nothing."""


class Site(http.server.ThreadingHTTPServer):
    """Serves the page of a folder, and has a program for each engine."""

    def __init__(self, folder: pathlib.Path):
        super().__init__(("127.0.0.1", 0), functools.partial(Handler, directory=str(folder)))
        self.programs: Dict[str, Any] = {}
        self.link = f"http://127.0.0.1:{self.server_port}/"

    def answer(self, path: str, body: bytes) -> bytes:
        kind, _, number = path.partition("-")
        if kind == "begin":
            number = str(len(self.programs))
            self.programs[number] = run(PROGRAM)
            return number.encode()
        replies = [replied(self.programs[number], line, text.encode()) for line, text in json.loads(body)]
        return json.dumps(["".join(f"{each}\n" for each in lines) for lines in replies]).encode()


@contextlib.contextmanager
def served(folder: pathlib.Path) -> Iterator[Site]:
    """The page, made in a folder and served."""
    for kind in ("wasm64", "wasm32"):
        (folder / f"{kind}.wasm").write_bytes(b"\0asm\1\0\0\0")
    words = [sys.executable, str(TOP / "bin/page"), str(folder / "site"), "--modules", str(folder)]
    subprocess.run(words, check=True, timeout=SECONDS)
    (folder / "site/ljclient/index.js").write_text(ENGINE)
    with Site(folder / "site") as site:
        threading.Thread(target=site.serve_forever, daemon=True).start()
        try:
            yield site
        finally:
            site.shutdown()
            for program in site.programs.values():
                program.close()
