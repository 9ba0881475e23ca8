"""The server of a front: a child process that ends with the front, however that ends."""
import asyncio
import contextlib
import hashlib
import os
import secrets
import shutil
import signal
import socket
import subprocess
from typing import Any, List, Sequence

from ..children import ending_with_parent, environment
from ..user_files import Fault

MAX_CONNECTIONS = 1_000_000
SECONDS_FOR_VERSION = 30.0
# Enough to build a repository's program first.
SECONDS_FOR_TRIAL = 7200.0
OWN = ("--listen", "--connections")
# Names that a server lends, and the name for checks that it answers.
NAMES = [f"user{number}" for number in range(1, 63)]
WATCHER = "watcher"


class Words:
    """The command line of a server: its program, and the file of users, which is not passed to it."""

    def __init__(self, words: Sequence[str]):
        """Raises ValueError if the words are not for a server."""
        if len(words) < 2 or words[1] != "serve":
            raise ValueError("the server must follow --; use -- bin/ljserve serve --users FILE --workers 4 --pool queue")
        for option in OWN:
            if option in words:
                raise ValueError(f"{option} must not be among the words of the server: keep sets it")
        if words.count("--users") > 1 or words[-1] == "--users":
            raise ValueError("--users must come once among the words of the server, with a FILE")
        if shutil.which(words[0]) is None:
            raise ValueError(f"cannot start {words[0]}: there is no such program")
        at = words.index("--users") if "--users" in words else len(words)
        self.program, self.users = words[0], "".join(words[at + 1 : at + 2])
        self._before, self._behind = list(words[:at]), list(words[at + 2 :])

    def command(self, port: int, users: int) -> List[str]:
        """The command for a server on a port, which reads its users from an open file."""
        own = ["--listen", f"127.0.0.1:{port}", "--connections", str(MAX_CONNECTIONS), "--users", f"/proc/self/fd/{users}"]
        return [*self._before, *own, *self._behind]


class Server:
    """A server that was started. All of its users have `token`, which nobody else knows."""

    def __init__(self, process: asyncio.subprocess.Process, port: int, token: str):
        self.process, self.port, self._token = process, port, token

    def hello(self, name: str) -> bytes:
        """The first line of one of its users."""
        return f"HELLO {name} {self._token}\n".encode()

    def is_there(self) -> bool:
        return self.process.returncode is None

    def kill(self) -> None:
        """Kills it and the processes that it started."""
        kill_group(self.process)

    async def ended(self) -> str:
        """Waits for its end, and returns how it ended."""
        return how_it_ended(await self.process.wait())


def how_it_ended(status: int) -> str:
    return f"it ended with status {status}" if status >= 0 else f"it was ended by signal {-status}"


async def begun(words: Sequence[str], **streams: Any) -> asyncio.subprocess.Process:
    """A started program that leads a process group and ends with this process. Raises OSError."""
    return await asyncio.create_subprocess_exec(*ending_with_parent(words), env=environment(), start_new_session=True, **streams)


def users_text(quota: str, token: str) -> bytes:
    """The text of the file of users for a server."""
    return "".join(f"{name} {token} {'0 0 0' if name == WATCHER else quota}\n" for name in (*NAMES, WATCHER)).encode()


async def begin(words: Words, quota: str) -> Server:
    """Starts a server of a quota on a free port. Raises Fault if the program cannot be started."""
    with socket.create_server(("127.0.0.1", 0)) as free:
        port = free.getsockname()[1]
    token = secrets.token_hex(16)
    users = os.memfd_create("users", 0)
    try:
        os.write(users, users_text(quota, token))
        process = await begun(words.command(port, users), stdin=subprocess.DEVNULL, stdout=subprocess.DEVNULL, pass_fds=[users])
    except OSError as error:
        raise Fault(f"cannot start {words.program}: {error.strerror}") from error
    finally:
        os.close(users)
    return Server(process, port, token)


async def output_of(program: str, word: str, sent: bytes, seconds: float) -> bytes:
    """The output of a program called with a word, or nothing if it does not end in time. It has ended in any case."""
    with open(os.memfd_create("sent"), "w+b") as source, open(os.memfd_create("printed"), "w+b") as printed:
        source.write(sent)
        source.seek(0)
        try:
            process = await begun([program, word], stdin=source, stdout=printed, stderr=subprocess.DEVNULL)
        except OSError:
            return b""
        try:
            await asyncio.wait_for(process.wait(), seconds)
        except asyncio.TimeoutError:
            return b""
        finally:
            kill_group(process)
            await process.wait()
        printed.seek(0)
        return printed.read()


async def version_of(program: str) -> str:
    """The lines that a program prints as its version."""
    told = await output_of(program, "--version", b"", SECONDS_FOR_VERSION)
    return "\n".join(told.decode(errors="replace").splitlines()) or "unknown"


async def trial_of(program: str) -> str:
    """The hash of a program's replies in a short run. Raises Fault if it does not do the run."""
    told = await output_of(program, "run", trial_run(), SECONDS_FOR_TRIAL)
    if b"OK ADVANCE t 200\n" not in told:
        raise Fault(f"{program} does not do a trial run")
    return hashlib.sha256(told).hexdigest()


def trial_run() -> bytes:
    """200 steps of atoms of two species, enough for another arithmetic to give another result."""
    rows = [f"{'XY'[n % 2]} {n % 3 * 1100 + n * 13}e-3 {n // 3 % 3 * 1100 - n * 7}e-3 {n // 9 * 1100}e-3\n" for n in range(27)]
    body = "27\nc\n" + "".join(rows)
    load = f"LOADMIX t 6 X Y 1 70000 256 0.9 60000 300 1.1 50000 200 rest {len(body)}\n{body}"
    return f"{load}ADVANCE t 200\nMEASURE t\nDUMP t\nREVERSE t\nMEASURE t\n".encode()


def kill_group(process: asyncio.subprocess.Process) -> None:
    """Kills a process and the group that it leads. A process that was not waited for keeps its number."""
    if process.returncode is None:
        with contextlib.suppress(ProcessLookupError):
            os.killpg(process.pid, signal.SIGKILL)
