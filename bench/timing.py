"""Best-of-n timing: rounds in turn, the best of each way, results as JSON besides the printed table, and streams to time.

A reported figure is the best of some rounds; in each round all ways run once. `--json FILE` stores each figure with its rounds, the
command, the program with the hashes of its sources (bin/measured.py), and the machine: its processor and cores, the load before and
after, and the time that the host took away.
"""
from __future__ import annotations

import argparse
import json
import os
import platform
import re
import resource
import shlex
import subprocess
import sys
import time
from typing import Any, Callable, Dict, Hashable, List, Mapping, NamedTuple, Optional, Sequence, TypeVar

from shared.loads import liquid_stream
from shared.program import TOP

sys.path.append(os.path.join(TOP, "bin"))
from measured import what_is_measured  # noqa: E402

Name = TypeVar("Name", bound=Hashable)
Value = TypeVar("Value")


class Run(NamedTuple):
    """The output of a program, and its time in seconds."""

    replies: bytes
    seconds: float


def of_a_user(program: str, folder: str) -> Dict[str, str]:
    """The environment of a user who starts the client, with the paths of client and program and a folder for compiled modules."""
    kept = {name: value for name, value in os.environ.items() if name != "PYTHONDONTWRITEBYTECODE"}
    path = os.path.join(TOP, "clients", "python")
    own = {"LJSERVE": program, "PYTHONPATH": path, "PYTHONPYCACHEPREFIX": folder, "LJCLIENT_HISTORY": os.path.join(folder, "typed")}
    return {**kept, **own}


class Host(NamedTuple):
    """The clock ticks of all processors so far, and those that the host took away."""

    ticks: int
    stolen: int

    @classmethod
    def now(cls) -> Host:
        with open("/proc/stat", encoding="utf-8") as file:
            ticks = [int(word) for word in file.readline().split()[1:9]]
        return cls(sum(ticks), ticks[7])

    def stolen_since(self) -> float:
        """The part of all time since then that the host took away."""
        now = Host.now()
        return (now.stolen - self.stolen) / max(now.ticks - self.ticks, 1)


def add_words(parser: argparse.ArgumentParser, rounds: int) -> None:
    """The options of a measurement, with this default number of rounds."""
    parser.add_argument("--rounds", metavar="N", type=at_least_one, default=rounds, help=f"number of rounds (default: {rounds})")
    add_file(parser)


def add_file(parser: argparse.ArgumentParser) -> None:
    """The option of a measurement that stores its figures."""
    parser.add_argument("--json", metavar="FILE", help="a file for the figures, with the command and the machine")


def at_least_one(word: str) -> int:
    """The number in a word."""
    if not word.isdecimal() or int(word) < 1:
        raise argparse.ArgumentTypeError(f"must be a whole number from 1 on, got {word}")
    return int(word)


def in_turn(ways: Mapping[Name, Callable[[], Value]], rounds: int, to_and_fro: bool = False) -> Dict[Name, List[Value]]:
    """The results of each way, by round. Each round runs each way once; with `to_and_fro` every second round runs in reverse."""
    given: Dict[Name, List[Value]] = {name: [] for name in ways}
    for number in range(rounds):
        for name in list(ways)[:: -1 if to_and_fro and number % 2 else 1]:
            given[name].append(ways[name]())
    return given


class Findings:
    """Figures of a program, and the state of the machine from construction on."""

    def __init__(self, program: str) -> None:
        self.program = what_is_measured(program, os.path.relpath(os.path.realpath(sys.argv[0]), TOP))
        self.host, self.load = Host.now(), os.getloadavg()[0]
        self.began = time.strftime("%Y-%m-%dT%H:%M:%SZ", time.gmtime())
        self.figures: List[Dict[str, Any]] = []

    def add(self, name: str, unit: str, value: float, rounds: Sequence[float] = ()) -> None:
        """Adds a figure, and the values of its rounds in the same unit if it is the best of some."""
        self.figures.append({"name": name, "unit": unit, "value": value, **({"rounds": list(rounds)} if rounds else {})})

    def add_best(self, name: str, unit: str, rounds: Sequence[float]) -> float:
        """Adds the least of some rounds, and returns it."""
        self.add(name, unit, min(rounds), rounds)
        return min(rounds)

    def machine(self) -> Dict[str, Any]:
        return {
            "processor": processor(),
            "cores": cores(),
            "load_before": self.load,
            "load_after": os.getloadavg()[0],
            "steal": self.host.stolen_since(),
        }

    def about_machine(self) -> str:
        """The load, the cores and the steal, for the last line of a table."""
        told = self.machine()
        return (
            f"load average {told['load_before']:.1f} before and {told['load_after']:.1f} after, {told['cores']} cores, "
            f"steal {100 * told['steal']:.1f} %"
        )

    def write(self, path: Optional[str]) -> None:
        """Writes everything as JSON, if a file is named."""
        if path is not None:
            told = {"command": shlex.join(sys.argv), "began": self.began, "program": self.program, "machine": self.machine()}
            with open(path, "w", encoding="utf-8") as file:
                json.dump({**told, "figures": self.figures}, file, indent=2)
                file.write("\n")


def cores() -> int:
    """How many processors may be used."""
    return len(os.sched_getaffinity(0))


def processor() -> str:
    """The name of the machine's processor."""
    with open("/proc/cpuinfo", encoding="utf-8") as file:
        found = re.search(r"^model name\s*: (.*)$", file.read(), re.M)
    return found[1] if found else platform.processor() or platform.machine()


def stream(atoms: int | str, steps: int | str, words: Sequence[str] = ()) -> bytes:
    """LOAD or LOADMIX of a liquid named a, ADVANCE by `steps`, and SHOW of some atoms."""
    return liquid_stream(atoms, "--name", "a", "--steps", str(steps), *words)


def twin(name: str, folder: str) -> List[str]:
    """The plain C twin of this name, built in a folder."""
    path = os.path.join(folder, name)
    subprocess.run(["cc", "-O3", "-march=native", "-o", path, os.path.join(TOP, "bench", f"{name}.c")], check=True)
    return [path]


def replies_of(command: Sequence[str], data: bytes) -> bytes:
    return subprocess.run(command, input=data, check=True, stdout=subprocess.PIPE, stderr=subprocess.DEVNULL).stdout


def clocked(command: Sequence[str], data: bytes) -> Run:
    """One run of a program over a stream, by the clock."""
    start = time.perf_counter()
    replies = replies_of(command, data)
    return Run(replies, time.perf_counter() - start)


def run(command: List[str], data: bytes) -> Run:
    """One run of a program over a stream, by processor time, user plus system: only their sum is exact."""
    before = seconds_of_children()
    replies = replies_of(command, data)
    return Run(replies, seconds_of_children() - before)


def seconds_of_children() -> float:
    usage = resource.getrusage(resource.RUSAGE_CHILDREN)
    return usage.ru_utime + usage.ru_stime
