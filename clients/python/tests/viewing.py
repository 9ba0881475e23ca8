"""What the tests of the view share with its bench: the program of a page, and a page without a browser."""
import contextlib
import http.client
import json
import os
import pathlib
import subprocess
import sys
import socket
import tempfile
from typing import Any, Dict, List, Tuple

from support import PROGRAM, SECONDS, TOP, present
from web_sockets import WebSocket


def file_of(case: Any, text: Any, name: str = "atoms.xyz") -> Any:
    """The path of a file of this text, which is there for as long as a test runs."""
    folder = tempfile.TemporaryDirectory()
    case.addCleanup(folder.cleanup)
    path = pathlib.Path(folder.name) / name
    path.write_text(text)
    return path


def command(*words: Any) -> Dict[Any, Any]:
    """The view with these words, and with the program that is tested."""
    told: Dict[str, Any] = {"LJSERVE": PROGRAM, "PYTHONPATH": str(TOP / "clients" / "python"), "PYTHONDONTWRITEBYTECODE": "1"}
    args = [sys.executable, "-m", "ljclient.view", "--no-browser", *map(str, words)]
    return {"args": args, "env": {**os.environ, **told}, "text": True}


class View:
    """`python3 -m ljclient.view` with these words, until it is ended."""

    def __init__(self, *words: Any) -> None:
        self.child = subprocess.Popen(**command(*words), stdout=subprocess.PIPE, stderr=subprocess.PIPE)
        self.said = present(self.child.stdout).readline()
        self.url, _, path = self.said.partition("http://")[2].split(" ")[0].partition("/")
        self.path = f"/{path}"
        self.link = f"http://{self.url}{self.path}"
        if not self.url:
            self.end()
            raise AssertionError("the view does not begin")
        self.port = int(self.url.partition(":")[2])

    def page(self, **headers: Any) -> Any:
        """A page that is opened in it, as a browser would."""
        return Page(self.port, {"Origin": f"http://{self.url}", **headers}, self.path)

    def get(self, path: Any, **headers: Any) -> Tuple[Any, Any, Any]:
        """The status, the headers and the body of what a GET of this path is answered."""
        with contextlib.closing(http.client.HTTPConnection("127.0.0.1", self.port, timeout=SECONDS)) as connection:
            connection.request("GET", path, headers=headers)
            answer = connection.getresponse()
            return answer.status, dict(answer.getheaders()), answer.read()

    def end(self) -> Tuple[Any, Any]:
        """Ends the program. Returns its status, and what it wrote to standard error."""
        if self.child.poll() is None:
            self.child.terminate()
        _, told = self.child.communicate(timeout=SECONDS)
        return self.child.returncode, told

    def __enter__(self) -> Any:
        return self

    def __exit__(self, *_: Any) -> None:
        self.end()


class Page(contextlib.AbstractContextManager["Page"]):
    """A page's WebSocket: what it asks, and what it is told first."""

    def __init__(self, port: Any, headers: Any, path: str = "/") -> None:
        self.channel = WebSocket(f"ws://127.0.0.1:{port}{path}session", headers)
        self.first = self.receive()

    def send(self, what: Any, **words: Any) -> None:
        self.channel.send(json.dumps({"do": what, **words}))

    def receive(self) -> Any:
        return json.loads(self.channel.receive())

    def ask(self, what: Any, **words: Any) -> Any:
        self.send(what, **words)
        return self.receive()

    def close(self) -> None:
        self.channel.close()

    def __exit__(self, *_: Any) -> None:
        self.close()


class Stream(contextlib.AbstractContextManager["Stream"]):
    """The bytes of a page's WebSocket, of which each is written by hand."""

    KEY, ACCEPTED = "dGhlIHNhbXBsZSBub25jZQ==", b"s3pPLMBiTxaQ9kYGzzhZRbK+xOo="

    def __init__(self, view: Any, source: str = "127.0.0.1") -> None:
        self.connection = socket.create_connection(("127.0.0.1", view.port), SECONDS, (source, 0))
        words: Dict[str, Any] = {"Host": view.url, "Origin": f"http://{view.url}", "Connection": "Upgrade", "Upgrade": "websocket"}
        words.update({"Sec-WebSocket-Version": "13", "Sec-WebSocket-Key": self.KEY})
        lines = "".join(f"{name}: {value}\r\n" for name, value in words.items())
        self.connection.sendall(f"GET {view.path}session HTTP/1.1\r\n{lines}\r\n".encode())
        self.reader = self.connection.makefile("rb")
        self.head = b"".join(iter(self.reader.readline, b"\r\n"))
        self.first = self.receive()

    def send(self, first: Any, data: Any, mask: bytes = b"\x37\xfa\x21\x3d") -> None:
        """Sends a frame of less than 126 bytes, masked, whose first byte says its kind and whether it is the last."""
        masked = bytes(byte ^ mask[k % 4] for k, byte in enumerate(data))
        self.connection.sendall(bytes([first, 0x80 | len(data)]) + mask + masked)

    def receive(self) -> Any:
        """The first byte of the next frame, and what it holds. None at the end."""
        head = self.reader.read(2)
        if len(head) < 2:
            return None
        length = head[1] if head[1] < 126 else int.from_bytes(self.reader.read(2 if head[1] == 126 else 8), "big")
        return head[0], self.reader.read(length)

    def __exit__(self, *_: Any) -> None:
        self.reader.close()
        self.connection.close()


def places_of(answer: Any, run: str = "atoms") -> List[Any]:
    """The places of an answer's frame. A coordinate has six decimals, and the last of them is one ring unit."""
    rows = (line.split(" ")[1:] for line in answer[run].split("\n"))
    return [tuple(int(word.replace(".", "")) for word in row) for row in rows]
