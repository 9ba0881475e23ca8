"""A server that is kept by `tools/keep`, for its tests: that of bench/keep, with the program of the tests."""
import contextlib
import hashlib
import json
import sqlite3
import subprocess
import sys
from typing import Any, List, Tuple

from ljclient import connect
from support import DIMER, PROGRAM, SECONDS, TOP

sys.path += [str(TOP / "bench"), str(TOP / "tools")]
from keep_trials import keeper  # noqa: E402
from keep_trials.cluster import Cluster, missing  # noqa: E402
from keep_trials.fronts import Fronts  # noqa: E402
from keep_trials.keeper import TOKEN, USUAL, patched, until  # noqa: E402

LOAD = f"LOAD a 256 1 131072 rest {len(DIMER)}\n{DIMER}".encode()
LOADED = b"OK LOAD a 0 2\n"
HELLO = b"OK HELLO ann\n"
# The status as it was written before there was a store, by a front that was killed.
STATUS_OF_BEFORE = json.dumps({
    "since": 1700000000.5, "process": 96, "begun": 1, "last_end": "", "end": "", "server": 99,
    "users": {"user": {"state": "ready", "why": None}},
}) + "\n"  # fmt: skip
__all__ = [
    "HELLO", "LOAD", "LOADED", "STATUS_OF_BEFORE", "TOKEN", "TOP", "USUAL", "Cluster", "Fronts", "Keeper", "ended", "first_line",
    "journal", "missing", "patched", "until",
]  # fmt: skip


def journal(name: str, records: Any) -> bytes:
    """A journal as it was written before there was a store, worked out by hand."""
    text = b"ljserve journal 1 %s\n" % name.encode()
    told = text
    for record in records:
        body = record.reply + record.item
        told += b"%07d" % len(body)
        text += b"%07d %s\n" % (len(body), hashlib.sha256(told).hexdigest()[:8].encode())
        told += body
        text += body + b"\n%s\n" % hashlib.sha256(told).hexdigest()[:16].encode()
    return text


def ended(folder: Any, words: Any) -> Tuple[Any, Any]:
    """The status of the tool, and what it says of a fault."""
    tool = [sys.executable, str(TOP / "tools" / "keep")]
    done = subprocess.run([*tool, *words], cwd=folder, capture_output=True, text=True, timeout=SECONDS)
    return done.returncode, done.stderr


class Keeper(keeper.Keeper):
    """`tools/keep` before the program of the tests, for users of the usual quota if no other is said."""

    def __init__(self, top: Any, *options: Any, users: Any = ("ann",), program: Any = PROGRAM, **more: Any) -> None:
        quotas = users if isinstance(users, dict) else dict.fromkeys(users, USUAL)
        super().__init__(top, program, quotas, options, **more)

    def connected(self, name: str = "ann") -> Any:
        """A user of the client who is let in."""
        return connect("127.0.0.1", self.port, name, TOKEN, timeout=SECONDS)

    def stopped(self, name: Any) -> Any:
        """Why a user is not let in, when the status says so."""
        why: Any = until(lambda: self.known()["users"].get(name, {}).get("why"))
        return why

    def kept(self, name: str) -> List[Any]:
        """Number, item and reply of each record of a user."""
        with contextlib.closing(sqlite3.connect(self.folder / "kept.sqlite")) as base:
            return base.execute("select seq, item, reply from record where name = ? order by seq", (name,)).fetchall()

    def running(self, name: str) -> bytes:
        """What is left of an ADVANCE of a user, as it is kept."""
        with contextlib.closing(sqlite3.connect(self.folder / "kept.sqlite")) as base:
            (found,) = base.execute("select running from snapshot where name = ?", (name,)).fetchone() or (b"",)
            return bytes(found)

    def change(self, words: str, *values: Any) -> None:
        """Changes what is kept, as no program does it."""
        with contextlib.closing(sqlite3.connect(self.folder / "kept.sqlite", isolation_level=None)) as base:
            assert base.execute(words, values).rowcount > 0

    def everything(self) -> bytes:
        """The bytes of all files that it has written, and of what it has said."""
        files = [*self.folder.iterdir(), self.log, self.errors]
        return b"".join(each.read_bytes() for each in files)

    def killed_server(self) -> None:
        """Kills the server, and returns when another one is there and was told all."""
        self.kill_server()
        until(self.is_ready)


def first_line(stream: Any) -> Any:
    """The first line that comes on a connection, or what comes of it."""
    line = b""
    with contextlib.suppress(OSError):
        while not line.endswith(b"\n") and (byte := stream.recv(1)):
            line += byte
    return line
