"""Starts the program as `run` and as a server, and talks to it, for measurements."""
from __future__ import annotations

import os
import re
import shutil
import signal
import socket
import subprocess
import sys
import tempfile
import time
from collections import Counter
from typing import BinaryIO, Callable, Dict, List, NamedTuple, Optional, Sequence, Tuple, TypeVar

from shared.loads import liquid
from shared.program import USUAL, end_of, status_of, wait_until
from shared.serving import begun, options_of, user_line
from shared.sockets import connected

TOKEN = "0" * 32
SECONDS = 120
WORKERS = 4
# The sessions of a user who has several.
SESSIONS = [f"s{number}" for number in range(8)]
Child = subprocess.Popen[bytes]
Of = TypeVar("Of")


class Talk(NamedTuple):
    """A conversation by lines: `send` takes bytes, and `lines` has the replies."""

    send: Callable[[bytes], object]
    lines: BinaryIO

    def say(self, data: bytes) -> None:
        self.send(data)

    def ask(self, data: bytes, reply: bytes) -> None:
        self.send(data)
        self.hear(reply)

    def hear(self, reply: bytes) -> None:
        line = self.lines.readline()
        if line != reply:
            sys.exit(f"{os.path.basename(sys.argv[0])}: {line!r} in place of {reply!r}")


def talk_to(stream: socket.socket) -> Talk:
    return Talk(stream.sendall, stream.makefile("rb"))


def run_alone(program: str) -> Tuple[Child, Talk]:
    child = subprocess.Popen([program, "run"], stdin=subprocess.PIPE, stdout=subprocess.PIPE, bufsize=0)
    assert child.stdin is not None and child.stdout is not None
    return child, Talk(child.stdin.write, os.fdopen(os.dup(child.stdout.fileno()), "rb"))


def serve(program: str, kind: str, workers: int, users: int = 1) -> Tuple[Child, List[socket.socket]]:
    """A server with this number of users and kind of pool, and a connection for each user."""
    lines = b"".join(user_line(f"user{number}", TOKEN, USUAL) for number in range(users))
    child, port = begun(program, lines, options_of(workers, users, kind))
    streams = [connected(port, SECONDS) for _ in range(users)]
    for number, stream in enumerate(streams):
        talk_to(stream).ask(f"HELLO user{number} {TOKEN}\n".encode(), f"OK HELLO user{number}\n".encode())
    return child, streams


def crowd_of(program: str, kind: str, users: int, atoms: int, workers: int = WORKERS) -> Tuple[Child, List[Talk]]:
    """A server and its users, each with a session of `atoms` atoms."""
    child, streams = serve(program, kind, workers, users)
    return child, [loaded(talk_to(stream), atoms) for stream in streams]


def sessions_of(program: str, kind: str, atoms: int, workers: int = WORKERS) -> Tuple[Child, List[Talk]]:
    """A server and its user, who has several sessions of `atoms` atoms."""
    child, (stream,) = serve(program, kind, workers)
    talk = talk_to(stream)
    for name in SESSIONS:
        talk.ask(liquid(atoms, name), f"OK LOAD {name} 0 {atoms}\n".encode())
    return child, [talk]


def loaded(talk: Talk, atoms: int) -> Talk:
    talk.ask(liquid(atoms), f"OK LOAD a 0 {atoms}\n".encode())
    return talk


def end(child: Child, talks: Sequence[Talk]) -> None:
    """Says BYE on each connection, after which the program ends."""
    for talk in talks:
        talk.ask(b"BYE\n", b"OK BYE\n")
        talk.lines.close()
    end_of(child, seconds=SECONDS)


def seconds(work: Callable[..., object], *words: object) -> float:
    start = time.perf_counter()
    work(*words)
    return time.perf_counter() - start


def advance(talks: Sequence[Talk], steps: int, step: int) -> None:
    """Advances all sessions at once."""
    for talk in talks:
        talk.send(f"ADVANCE a {steps}\n".encode())
    for talk in talks:
        talk.hear(f"OK ADVANCE a {step}\n".encode())


def start_sessions(talks: Sequence[Talk], steps: int, step: int) -> None:
    """Starts all sessions of a user, and waits for each."""
    lines = [f"START {name} {steps}" for name in SESSIONS] + [f"ADVANCE {name} 0" for name in SESSIONS]
    talks[0].send("".join(f"{line}\n" for line in lines).encode())
    for line in lines:
        command, name, _ = line.split()
        talks[0].hear(f"OK {command} {name} {step}\n".encode())


def spent(path: str) -> float:
    """The processor time of a thread in seconds, from its file `schedstat`, which counts nanoseconds."""
    with open(f"{path}/schedstat", encoding="utf-8") as file:
        return int(file.read().split()[0]) / 1e9


def processor_seconds(child: Child) -> float:
    """The processor time in seconds of a program's threads, ended ones included, from its file `stat`."""
    with open(f"/proc/{child.pid}/stat", encoding="utf-8") as file:
        words = file.read().rpartition(")")[2].split()
    return (int(words[11]) + int(words[12])) / os.sysconf("SC_CLK_TCK")


class Use(NamedTuple):
    """The processor time of a thread in seconds, and how often it gave up its processor."""

    seconds: float
    switches: float


def threads_of(child: Child) -> List[str]:
    """The /proc folders of a program's threads, in the order in which they started."""
    folder = f"/proc/{child.pid}/task"
    return sorted((f"{folder}/{thread}" for thread in os.listdir(folder)), key=beginning_of)


def beginning_of(thread: str) -> Tuple[int, int]:
    """When a thread started, in clock ticks, and its number, which orders threads of the same tick."""
    with open(f"{thread}/stat", encoding="utf-8") as file:
        return int(file.read().rpartition(")")[2].split()[19]), int(os.path.basename(thread))


def by_kind(threads: Sequence[Of], connections: int) -> Dict[str, Sequence[Of]]:
    """Values of each thread of a server, by kind: the program's own thread starts first, then workers, then connections."""
    last = max(1, len(threads) - connections)
    return {"program": threads[:1], "workers": threads[1:last], "connections": threads[last:]}


def uses(child: Child) -> List[Use]:
    """The `Use` of each thread of a program, in the order in which they started."""
    return [Use(spent(thread), status_of(thread, "voluntary_ctxt_switches")) for thread in threads_of(child)]


class Calls(NamedTuple):
    """How often a thread called futex to wait (holds), and to wake others."""

    holds: float
    wakes: float


def calls_of(child: Child, work: Callable[[], object]) -> Optional[List[Calls]]:
    """The calls of each thread of a program during `work`, by strace, in the order in which the threads started. None if strace is
    not on the PATH, or cannot follow the program."""
    if shutil.which("strace") is None:
        return None
    threads = threads_of(child)
    with tempfile.NamedTemporaryFile("r", encoding="utf-8") as file:
        words = ["strace", "-f", "-qq", "-e", "trace=futex", "-e", "signal=none", "-o", file.name, "-p", str(child.pid)]
        tracer = subprocess.Popen(words, stderr=subprocess.DEVNULL)
        wait_until(lambda: tracer.poll() is not None or all(status_of(thread, "TracerPid") for thread in threads))
        is_followed = tracer.poll() is None
        work()
        tracer.send_signal(signal.SIGINT)
        tracer.wait()
        told = calls_in(file.read())
    return [told.get(int(os.path.basename(thread)), Calls(0, 0)) for thread in threads] if is_followed else None


def calls_in(told: str) -> Dict[int, Calls]:
    """The calls of each thread, by its number, in the output of strace."""
    counts = Counter(re.findall(r"^(\d+) +futex\(\w+, FUTEX_(WAIT|WAKE)", told, re.M))
    return {int(thread): Calls(counts[thread, "WAIT"], counts[thread, "WAKE"]) for thread, _ in counts}
