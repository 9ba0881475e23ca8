"""A class that `tools/class` has begun, for its tests: what it shows, the lines that are typed, and its students."""
import os
import pathlib
import re
import signal
import socket
import ssl
import subprocess
import sys
import threading
import time
from typing import Any, Dict, List, Tuple

from ljclient import connect
from support import PROGRAM, SECONDS, TOP, free_port, heed_signals, present

CLASS = [sys.executable, str(TOP / "tools" / "class")]
ENVIRONMENT: Dict[str, Any] = {**os.environ, "LJSERVE": PROGRAM, "PYTHONDONTWRITEBYTECODE": "1"}
REACHED = r"students reach you at 127\.0\.0\.1:(\d+);"


def told(folder: Any, *words: Any, program: Any = PROGRAM, path: Any = None) -> Tuple[Any, Any, Any]:
    """The status of a class that does not begin, and what it writes."""
    environment: Dict[str, Any] = {**ENVIRONMENT, "LJSERVE": str(program), **({"PATH": str(path)} if path else {})}
    streams: Dict[str, Any] = {"stdin": subprocess.DEVNULL, "capture_output": True, "text": True}
    done = subprocess.run([*CLASS, *map(str, words)], cwd=folder, env=environment, timeout=SECONDS, **streams)
    return done.returncode, done.stdout, done.stderr


class Lesson:
    """A class that has begun, whose standard streams are pipes, at a port that stays the same."""

    def __init__(self, folder: Any, *words: Any) -> None:
        self.folder, self.port = pathlib.Path(folder), free_port()
        self.words = [*map(str, words), "--listen", f"127.0.0.1:{self.port}", "--workers", "1"]
        self.words += [] if "--page" in self.words else ["--no-page"]
        self.shown = ""
        self.begin()

    def begin(self) -> None:
        """Begins it by the same words, and waits until students may come."""
        self.child = subprocess.Popen(
            [*CLASS, *self.words],
            cwd=self.folder,
            env=ENVIRONMENT,
            preexec_fn=heed_signals,
            stdin=subprocess.PIPE,
            stdout=subprocess.PIPE,
            stderr=subprocess.STDOUT,
            text=True,
        )
        self._at = len(self.shown)
        self._reader = threading.Thread(target=self._read, args=(present(self.child.stdout),), daemon=True)
        self._reader.start()
        self.until(REACHED)

    def _read(self, stream: Any) -> None:
        for line in stream:
            self.shown += line

    def until(self, wanted: Any) -> Any:
        """What is shown from the last time on until this stands there."""
        end = time.monotonic() + SECONDS
        while not (found := re.search(wanted, self.shown[self._at :], re.S)):
            assert time.monotonic() < end and self._reader.is_alive(), (wanted, self.shown)
            time.sleep(0.01)
        self._at += found.end()
        return found

    def types(self, line: Any) -> None:
        stream = present(self.child.stdin)
        stream.write(f"{line}\n")
        stream.flush()

    def server(self) -> int:
        """The process of its server."""
        pid = self.child.pid
        end = time.monotonic() + SECONDS
        while time.monotonic() < end:
            if children := pathlib.Path(f"/proc/{pid}/task/{pid}/children").read_text().split():
                return int(children[0])
        raise AssertionError("there is no server")

    def kill(self) -> None:
        """Ends it by SIGKILL."""
        server = self.server()
        self.child.kill()
        self.child.wait(SECONDS)
        assert is_gone(server)
        self._close()

    def ended(self) -> Tuple[Any, Any]:
        """The status, and what is shown at the end."""
        status = self.child.wait(SECONDS)
        self._close()
        return status, self.shown

    def _close(self) -> None:
        self._reader.join(SECONDS)
        present(self.child.stdin).close()
        present(self.child.stdout).close()

    def close(self) -> None:
        if self.child.poll() is None:
            self.child.send_signal(signal.SIGTERM)
            self.ended()

    # What students do.

    def slips(self) -> str:
        return (self.folder / "slips.txt").read_text()

    def tokens(self) -> Dict[str, str]:
        """The tokens of the slips, by name."""
        found = re.findall("^(\\S+) at .*\n\n    token   (.*)$", self.slips(), re.M)
        return {name: token.replace(" ", "") for name, token in found}

    def fingerprint(self) -> str:
        """The fingerprint that is typed."""
        (found,) = set(re.findall(r"--fingerprint (\S+)$", self.slips(), re.M))
        return str(found)

    def student(self, name: str, token: Any = None, **words: Any) -> Any:
        """A student who is in, by what the slip says."""
        way: Dict[str, Any] = {"timeout": SECONDS, "fingerprint": self.fingerprint(), **words}
        return connect("127.0.0.1", self.port, name, token or self.tokens()[name], **way)

    def raw(self, first: bytes = b"", source: str = "127.0.0.1", port: int = 0) -> Any:
        """A connection over TLS that has said this, from an address of this machine, to the class or to another port."""
        context = ssl.SSLContext(ssl.PROTOCOL_TLS_CLIENT)
        context.check_hostname, context.verify_mode = False, ssl.CERT_NONE
        plain = socket.create_connection(("127.0.0.1", port or self.port), SECONDS, (source, 0))
        stream = context.wrap_socket(plain)
        stream.sendall(first)
        return stream


def is_gone(process: Any) -> bool:
    """Whether a process has ended: it is no child of this one, so its end is waited for."""
    end = time.monotonic() + SECONDS
    while os.path.exists(f"/proc/{process}") and time.monotonic() < end:
        time.sleep(0.01)
    return not os.path.exists(f"/proc/{process}")


def lines_from(stream: Any, count: int) -> List[bytes]:
    """So many lines of a connection. Raises OSError if it ends before."""
    lines = [b""]
    while len(lines) <= count:
        if not (byte := stream.recv(1)):
            raise OSError("it has ended")
        lines[-1] += byte
        if byte == b"\n":
            lines.append(b"")
    return lines[:-1]
