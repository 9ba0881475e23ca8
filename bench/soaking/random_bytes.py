"""Random streams of bytes for `run`, each in its own process with a limit of memory and of time."""
import argparse
import os
import re
import resource
import subprocess
import tempfile
import time
from multiprocessing.connection import Connection as Pipe

from shared.program import NO_MEMORY, USUAL, Ended, end_of, status_of
from shared.texts import shown
from soaking.account import Account, documented
from soaking.alone import Alone
from soaking.processes import started, tell_faults
from soaking.streams import Streams
from soaking.words import PATIENCE, Fault, reply_end

FIGURES = ["streams", "bytes", "replies", "replies of no memory", "ends without memory", "most milliseconds"]
# A process stops after more faults than this.
MOST_FAULTS = 20


def idle_memory(program: str) -> int:
    """How much memory an idle run has, in kilobytes."""
    alone = Alone(program, USUAL)
    alone.ask(b"LIST\n")
    size = status_of(f"/proc/{alone.child.pid}", "VmSize")
    alone.close()
    return size


def run_bounded(program: str, data: bytes, kilobytes: int) -> Ended:
    """How a run over these bytes ends, with a limit of memory."""
    words = [program, "run"]
    with subprocess.Popen(words, stdin=subprocess.PIPE, stdout=subprocess.PIPE, stderr=subprocess.PIPE) as child:
        resource.prlimit(child.pid, resource.RLIMIT_AS, (kilobytes << 10, kilobytes << 10))
        return end_of(child, data, PATIENCE)


def check_run(data: bytes, ended: Ended) -> None:
    """Raises a fault if a run did not end as documented."""
    if ended == NO_MEMORY:
        return
    status, out, err = ended
    if (status, err) != (0, b""):
        raise Fault(f"status {status}, {shown(err)}")
    at, account = 0, Account()
    for number, wanted in enumerate(documented(data, account)):
        end = reply_end(out, at)
        if end < 0 or not re.fullmatch(wanted, out[at:end]):
            raise Fault(f"item {number} is told {shown(out[at:end] if end >= 0 else out[at:])} in place of {shown(wanted)}")
        account.is_told(out[at:end])
        at = end
    if at < len(out):
        raise Fault(f"{shown(out[at:])} at the end")


def try_streams(options: argparse.Namespace, first: int, folder: str, deadline: float, pipe: Pipe) -> None:
    """One of n processes, which tries every n-th stream."""
    streams, idle = Streams(options.seed), idle_memory(options.program)
    figures = dict.fromkeys(FIGURES, 0)
    faults: list[str] = []
    for number in range(options.first + first, options.first + options.streams, options.processes):
        if time.monotonic() > deadline or len(faults) > MOST_FAULTS:
            break
        data, room = streams.stream(number)
        start = time.monotonic()
        ended = run_bounded(options.program, data, idle + room)
        spent = round(1e3 * (time.monotonic() - start))
        try:
            check_run(data, ended)
        except Fault as fault:
            faults.append(f"stream {number} with {room} kB: {fault}")
            keep(folder, number, data, ended[1])
        seen = [1, len(data), len(re.findall(rb"^(?:OK|ERR) ", ended[1], re.M)), ended[1].count(b"ERR 90 "), ended[0] == 3]
        figures.update({name: figures[name] + more for name, more in zip(FIGURES, seen)})
        figures["most milliseconds"] = max(figures["most milliseconds"], spent)
    pipe.send((figures, faults))


def keep(folder: str, number: int, data: bytes, told: bytes) -> None:
    """Stores the stream of a fault, and its replies, in files."""
    for name, kept in [("in", data), ("out", told)]:
        with open(os.path.join(folder, f"stream_{number}.{name}"), "wb") as file:
            file.write(kept)


def soak_bytes(options: argparse.Namespace) -> bool:
    """Tries random streams. Returns whether a fault was found."""
    folder = options.keep or tempfile.mkdtemp(prefix="soak_")
    os.makedirs(folder, exist_ok=True)
    print(f"seed {options.seed}, streams from {options.first} on", flush=True)
    start = time.monotonic()
    shares = [(options, first, folder, start + options.seconds) for first in range(options.processes)]
    found = [pipe.recv() for pipe in started(try_streams, shares)]
    for word in FIGURES:
        told = [figures[word] for figures, _ in found]
        print(f"{word}: {max(told) if word.startswith('most') else sum(told)}")
    print(f"seconds: {time.monotonic() - start:.0f}")
    return tell_faults([fault for _, faults in found for fault in faults], f"streams in {folder}")
