"""A front with its server and its folder, which trials start, kill and end."""
import contextlib
import json
import os
import pathlib
import random
import signal
import socket
import subprocess
import sys
import time
from typing import Any, Callable, Dict, List, Optional, Sequence, Tuple, TypeVar

TOP = pathlib.Path(__file__).resolve().parents[2]
TOOL = (sys.executable, str(TOP / "tools" / "keep"))
TOKEN = "k" * 32
SECONDS = 120
USUAL = (8, 16384, 16)
Quota = Tuple[int, int, int]
Kept = TypeVar("Kept", bound="Keeper")


def patched(words: str) -> List[str]:
    """The tool, run after some Python code."""
    run = f"import runpy, sys; sys.path.insert(0, {str(TOP / 'tools')!r})\n{words}\n"
    return [sys.executable, "-c", f"{run}runpy.run_path({str(TOP / 'tools' / 'keep')!r}, None, '__main__')"]


def until(holds: Callable[[], Any]) -> Any:
    """Waits until `holds()` is true, and returns its value."""
    end = time.monotonic() + SECONDS
    while not (found := holds()):
        if time.monotonic() > end:
            raise TimeoutError("it must hold in time, and does not")
        time.sleep(0.01)
    return found


def is_alive(process: int) -> bool:
    """Whether a process runs; a zombie does not."""
    try:
        return pathlib.Path(f"/proc/{process}/stat").read_text().rpartition(")")[2].split()[0] != "Z"
    except OSError:
        return False


class Keeper:
    """`tools/keep` in front of a program, for users with the same token, each with a quota."""

    def __init__(
        self, top: pathlib.Path, program: str, users: Dict[str, Quota], options: Sequence[str] = (), tool: Sequence[str] = TOOL,
        more: Sequence[str] = ("--workers", "2"), prepare: Optional[Callable[[], None]] = None, store: str = "",
    ):  # fmt: skip
        """`more` are the server's words after its users, and `prepare` is called in the process of the front. The store is a folder if
        no other one is given."""
        self.folder, self.users, self.log = top / "kept", top / "users", top / "log"
        self.store = store or str(self.folder)
        self.program, self.options, self.tool, self.more, self.prepare = program, options, tool, more, prepare
        self.errors = top / "errors"
        self.put_users(users)
        self.begin()

    def put_users(self, users: Dict[str, Quota]) -> None:
        text = "".join("{} {} {} {} {}\n".format(name, TOKEN, *quota) for name, quota in users.items())
        self.users.write_text(text)
        self.users.chmod(0o600)

    def begin(self) -> None:
        """Starts the front, and waits until it listens."""
        kept = ["127.0.0.1:0", self.store, "--log", str(self.log), *self.options]
        words = [*self.tool, *kept, "--", self.program, "serve", "--users", str(self.users), *self.more]
        before = len(self.events("listens"))
        with open(self.errors, "ab") as errors:
            self.child = subprocess.Popen(
                words, stdin=subprocess.DEVNULL, stdout=subprocess.DEVNULL, stderr=errors, preexec_fn=self.prepare
            )
        until(lambda: self.child.poll() is not None or len(self.events("listens")) > before)
        if self.child.poll() is None:
            self.port = int(str(self.events("listens")[-1]["at"]).rpartition(":")[2])

    def events(self, event: str) -> List[Dict[str, Any]]:
        """The events of this kind in the log so far."""
        lines = self.log.read_text().splitlines() if self.log.exists() else []
        return [told for line in lines if (told := json.loads(line))["event"] == event]

    def known(self) -> Dict[str, Any]:
        """The status as it is now."""
        with contextlib.suppress(OSError, ValueError):
            told: Dict[str, Any] = json.loads((self.folder / "status.json").read_text())
            return told
        return {"server": None, "process": None, "begun": 0, "users": {}, "servers": []}

    def server(self) -> int:
        """The process of the server, as soon as there is one."""
        process: int = until(lambda: int(self.known()["server"] or 0))
        return process

    def is_ready(self) -> bool:
        """Whether there is a server, and each user that is not stopped is let in at once."""
        known = self.known()
        is_there = known["server"] is not None and known["process"] == self.child.pid
        return is_there and all(each["state"] in ("ready", "stopped") for each in known["users"].values())

    def kill_server(self) -> int:
        """Kills the server, waits for another one, and returns its process."""
        before = self.server()
        os.kill(before, signal.SIGKILL)
        process: int = until(lambda: (now := int(self.known()["server"] or 0)) != before and now)
        return process

    def kill_one_server(self, rnd: random.Random) -> None:
        """Kills one of the servers, and waits until another one replaces it."""
        restarts = self.known().get("restarts", 0)
        processes = until(lambda: [each["process"] for each in self.known()["servers"] if each["process"]])
        with contextlib.suppress(ProcessLookupError):
            os.kill(rnd.choice(processes), signal.SIGKILL)
            until(lambda: self.known().get("restarts", 0) > restarts)

    def kill(self) -> None:
        """Kills the front, and waits until its server has ended too."""
        server = self.known()["server"]
        self.child.kill()
        self.child.wait(SECONDS)
        until(lambda: server is None or not is_alive(server))

    def raw(self, name: str, token: str = TOKEN) -> socket.socket:
        """A connection that has sent its HELLO."""
        stream = socket.create_connection(("127.0.0.1", self.port), SECONDS)
        stream.setsockopt(socket.IPPROTO_TCP, socket.TCP_NODELAY, 1)
        stream.sendall(f"HELLO {name} {token}\n".encode())
        return stream

    def told(self, sent: bytes, name: str, token: str = TOKEN) -> bytes:
        """The replies to some bytes, after which the input ends."""
        with self.raw(name, token) as stream:
            stream.sendall(sent)
            stream.shutdown(socket.SHUT_WR)
            with stream.makefile("rb") as replies:
                return replies.read()

    def status(self) -> Tuple[int, str]:
        done = subprocess.run([*self.tool, "--status", self.store], capture_output=True, text=True, timeout=SECONDS)
        return done.returncode, done.stdout + done.stderr

    def end(self) -> int:
        """Ends the front, and returns its status."""
        self.child.terminate()
        status: int = self.child.wait(SECONDS)
        return status

    def __enter__(self: Kept) -> Kept:
        return self

    def __exit__(self, *_: object) -> None:
        if self.child.poll() is None:
            self.end()
