"""What the tests share: the program, servers of it on a loopback port, and peers that are not the program."""
import contextlib
import os
import pathlib
import re
import secrets
import signal
import socket
import subprocess
import tempfile
import threading
import time
import unittest
from typing import Any, Dict, Iterator, List, Optional, TypeVar

import pytest

from ljclient import User, connect, run, units

TOP = pathlib.Path(__file__).resolve().parents[3]
EXAMPLES = TOP / "examples"
PROGRAM = os.environ.get("LJSERVE") or str(TOP / "bin" / "ljserve")
SECONDS = 60
TOKEN = "a" * 32
DIMER = "2\ndimer\nAr 0 0 0\nAr 1.5 0 0\n"
DIMER_SCALE: Dict[str, Any] = {"edge": 256, "sigma": 1, "h": 131072}
ARGON: Dict[str, Any] = {"edge": 21.04, "dt": 10, **units.ARGON}
RING = 2**32
Thing = TypeVar("Thing")


def present(thing: Optional[Thing]) -> Thing:
    """What is there."""
    assert thing is not None
    return thing


def process_of(user: Any) -> int:
    """The number of the program that a user has for itself."""
    pid: int = user._wire._transport.pid
    return pid


def python_blocks(path: Any) -> Any:
    """The examples in Python of a document."""
    return re.findall(r"```python\n(.*?)```", path.read_text(), re.S)


class Alone(unittest.TestCase):
    """Tests with a program of their own."""

    user: User

    def setUp(self) -> None:
        self.user = run(PROGRAM)
        self.addCleanup(self.user.close)


def folder_of(case: unittest.TestCase) -> pathlib.Path:
    """A folder that is there until a test ends."""
    folder = tempfile.TemporaryDirectory()
    case.addCleanup(folder.cleanup)
    return pathlib.Path(folder.name)


def dimer(user: Any, name: str = "a", **words: Any) -> Any:
    """A session of two atoms 1.5 sigma apart, whose motion is known by hand."""
    return user.load(name, DIMER, **{**DIMER_SCALE, **words})


def listed(places: Any) -> List[Any]:
    """Places as a list of tuples of whole numbers, whether they came as an array or not."""
    return [tuple(int(part) for part in place) for place in places]


def go_on_alike(case: Any, one: Any, other: Any) -> None:
    """Holds that two sessions are alike in all that can be seen of them, and go on alike, forth and back."""
    for _ in range(2):
        case.assertEqual(listed(one.places()), listed(other.places()))
        case.assertEqual(one.measure(), other.measure())
        case.assertEqual(one.dump(), other.dump())
        case.assertEqual((one.advance(20), one.reverse()), (other.advance(20), other.reverse()))
    case.assertEqual(listed(one.places()), listed(other.places()))


@contextlib.contextmanager
def interruptible() -> Iterator[None]:
    """Has an interrupt raise KeyboardInterrupt. Where tests run in the background it is ignored from the start."""
    before = signal.signal(signal.SIGINT, signal.default_int_handler)
    try:
        yield
    finally:
        signal.signal(signal.SIGINT, before)


def heed_signals() -> None:
    """Heeds the signals that are ignored in a program which runs in the background, or under nohup."""
    for number in (signal.SIGINT, signal.SIGHUP):
        signal.signal(number, signal.SIG_DFL)


def free_port() -> Any:
    """A port that is free, and below those that Linux gives to connections, which would take it before it is listened on."""
    while True:
        with contextlib.suppress(OSError), socket.socket() as taken:
            taken.bind(("127.0.0.1", 10_000 + secrets.randbelow(22_768)))
            return taken.getsockname()[1]


def wait_until(holds: Any) -> None:
    """Waits until this holds."""
    end = time.monotonic() + SECONDS
    while not holds():
        assert time.monotonic() < end
        time.sleep(0.01)


@contextlib.contextmanager
def interrupted_when(holds: Any) -> Iterator[None]:
    """What is done within is interrupted as soon as this holds, and ends by KeyboardInterrupt."""

    def interrupt() -> None:
        wait_until(holds)
        os.kill(os.getpid(), signal.SIGINT)

    thread = threading.Thread(target=interrupt, daemon=True)
    with interruptible(), pytest.raises(KeyboardInterrupt):
        thread.start()
        yield
    thread.join()


def joined(port: int, timeout: Any = SECONDS) -> Any:
    """The user `ann`, at a server on this port."""
    return connect("127.0.0.1", port, "ann", TOKEN, timeout=timeout)


class Server:
    """`ljserve serve` on a free port of 127.0.0.1, for users whose token is `TOKEN`, or for those of a file's lines."""

    def __init__(
        self, users: Any = ("ann",), connections: int = 100, quota: Any = (8, 16384, 16), lines: Any = None, pool: str = "lock"
    ) -> None:
        self.port = free_port()
        with tempfile.NamedTemporaryFile("w") as file:
            file.write(lines or "".join("{} {} {} {} {}\n".format(name, TOKEN, *quota) for name in users))
            file.flush()
            words = ["--listen", f"127.0.0.1:{self.port}", "--users", file.name]
            words += ["--workers", "2", "--connections", str(connections), "--pool", pool]
            self.child = subprocess.Popen(
                [PROGRAM, "serve", *words], stdin=subprocess.DEVNULL, stdout=subprocess.DEVNULL, stderr=subprocess.DEVNULL
            )
            self.wait_until_it_listens()

    def wait_until_it_listens(self) -> None:
        """One connection is made and closed, which is among those that the server counts."""
        end = time.monotonic() + SECONDS
        while time.monotonic() < end:
            if self.child.poll() is not None:
                break
            try:
                socket.create_connection(("127.0.0.1", self.port), SECONDS).close()
                return
            except OSError:
                time.sleep(0.01)
        self.end()
        raise AssertionError("the server does not listen")

    def end(self) -> None:
        if self.child.poll() is None:
            self.child.kill()
        self.child.wait(SECONDS)

    @contextlib.contextmanager
    def stopped(self) -> Iterator[Any]:
        """The server does nothing within the block."""
        self.child.send_signal(signal.SIGSTOP)
        os.waitid(os.P_PID, self.child.pid, os.WSTOPPED)
        try:
            yield
        finally:
            self.child.send_signal(signal.SIGCONT)

    def __enter__(self) -> Any:
        return self

    def __exit__(self, *_: Any) -> None:
        self.end()


@contextlib.contextmanager
def peer(talk: Any, port: int = 0, host: str = "127.0.0.1") -> Iterator[Any]:
    """The port of a peer, a free one if none is said, that talks in its own way to the one connection that it accepts."""
    listener = socket.create_server((host, port))
    listener.settimeout(SECONDS)
    stop = threading.Event()
    faults = []

    def serve() -> None:
        try:
            connection, _ = listener.accept()
            connection.settimeout(SECONDS)
            with connection:
                talk(connection, stop)
        except OSError as error:
            faults.append(error)

    thread = threading.Thread(target=serve, daemon=True)
    thread.start()
    try:
        yield listener.getsockname()[1]
    finally:
        stop.set()
        thread.join(SECONDS)
        listener.close()
        if thread.is_alive():
            raise AssertionError("the peer still talks")


def read_line(connection: Any) -> Any:
    """The next line of a connection, byte by byte."""
    line = b""
    while not line.endswith(b"\n"):
        byte = connection.recv(1)
        if not byte:
            return line
        line += byte
    return line


def says(*replies: Any, then: Any = None) -> Any:
    """A peer that answers HELLO, and says that there is no session, and then answers each line with the next of these replies; at
    last it does something else."""

    def talk(connection: Any, stop: Any) -> None:
        for reply in (b"OK HELLO ann\n", b"OK LIST 0\n"):
            read_line(connection)
            connection.sendall(reply)
        for reply in replies:
            read_line(connection)
            connection.sendall(reply)
        if then:
            then(connection, stop)

    return talk


def stays(connection: Any, stop: Any) -> None:
    """The peer says nothing more, and does not go."""
    stop.wait(SECONDS)


def children_of(process: Any) -> List[Any]:
    """The numbers of the processes that this one has started."""
    return [int(path.parent.name) for path in pathlib.Path("/proc").glob("[0-9]*/stat") if parent_of(path) == process]


def parent_of(stat: Any) -> Any:
    """The number of the process that has started the one of this file of /proc. None if that has ended meanwhile."""
    try:
        return int(stat.read_text().rpartition(")")[2].split()[1])
    except OSError:
        return None


def is_running(pid: Any) -> Any:
    """Whether there is a process of this number, one that has ended and was not waited for included."""
    return os.path.exists(f"/proc/{pid}")
