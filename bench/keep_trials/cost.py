"""The times of a front and of a server: commands one at a time, and many users at once."""
import contextlib
import pathlib
import socket
import statistics
import sys
import tempfile
import time
from concurrent.futures import ThreadPoolExecutor
from functools import partial
from typing import Callable, Dict, Iterator, List, Optional, Sequence

from keep_trials.cluster import Cluster, missing
from keep_trials.fronts import Fronts
from keep_trials.keeper import TOKEN, TOOL, USUAL, Keeper, until
from serving import processor_seconds
from shared.loads import LOAD, LOADED
from shared.program import end_of
from shared.serving import begun, options_of, user_line
from timing import Findings, in_turn

NAMES = [f"user{number}" for number in range(62)]
SECONDS_OF_A_LESSON = 10
ADVANCES_A_SECOND = 5
COMMANDS = {"SHOW a 0": b"SHOW a 0\n", "ADVANCE a 1": b"ADVANCE a 1\n", "TUG a 0 1 0 0": b"TUG a 0 1 0 0\n"}
Ways = Dict[str, Callable[[], Dict[str, float]]]


class Talk:
    """A conversation of a connected user, with two atoms."""

    def __init__(self, stream: socket.socket, name: str):
        self._stream, self._lines = stream, stream.makefile("rb")
        self.hear(f"OK HELLO {name}\n".encode())
        self.ask(LOAD, LOADED)

    def ask(self, item: bytes, reply: bytes) -> None:
        self._stream.sendall(item)
        self.hear(reply)

    def hear(self, reply: bytes) -> None:
        if (line := self._lines.readline()) != reply:
            raise SystemExit(f"keep: {line!r} in place of {reply!r}")

    def time_of(self, item: bytes) -> float:
        """How long one reply takes, in microseconds."""
        start = time.perf_counter()
        self._stream.sendall(item)
        self._lines.readline()
        return (time.perf_counter() - start) * 1e6

    def end(self) -> None:
        self.ask(b"BYE\n", b"OK BYE\n")
        self._lines.close()
        self._stream.close()


def ways_of(program: str, syncs: Sequence[str], folder: pathlib.Path, commands: int, before: Optional[str]) -> Ways:
    """The function that measures each way to a server; `before` is another `tools/keep`."""
    ways: Ways = {"without the tool": partial(of_server, program, commands)}
    tools = {"": TOOL, **({", before": (sys.executable, before)} if before else {})}
    for sync in syncs:
        for which, tool in tools.items():
            ways[f"--sync {sync}{which}"] = partial(of_folder, program, sync, tool, folder, commands)
    if not missing():
        ways["over PostgreSQL"] = partial(of_database, program, folder, commands)
    return ways


def cost(found: Findings, ways: Ways, rounds: int) -> Iterator[str]:
    """Measures all ways in turn, and stores and yields the least of each figure."""
    for way, measured in in_turn(ways, rounds, to_and_fro=True).items():
        for name in measured[0]:
            unit = "ms" if name.startswith("a lesson") else "us"
            least = found.add_best(f"{way}, {name}", unit, [each[name] for each in measured])
            yield f"{way}: {name} {least:.{2 if unit == 'ms' else 0}f} {unit}"


def of_folder(program: str, sync: str, tool: Sequence[str], folder: pathlib.Path, commands: int) -> Dict[str, float]:
    """A front over a folder."""
    with tempfile.TemporaryDirectory(dir=folder) as top:
        with Keeper(pathlib.Path(top), program, dict.fromkeys(NAMES, USUAL), ["--sync", sync], tool) as keeper:
            return of_keeper(keeper, commands)


def of_database(program: str, folder: pathlib.Path, commands: int) -> Dict[str, float]:
    """A front over a PostgreSQL of its own."""
    with tempfile.TemporaryDirectory(dir=folder) as top, contextlib.closing(Cluster()) as cluster:
        with Fronts(pathlib.Path(top), cluster, program, dict.fromkeys(NAMES, USUAL), count=1) as fronts:
            return of_keeper(fronts.each[0], commands)


def of_keeper(keeper: Keeper, commands: int) -> Dict[str, float]:
    """Commands one at a time, the front's processor time for each, and the waits of users who work at the same time."""
    until(keeper.is_ready)
    talk = Talk(keeper.raw(NAMES[0]), NAMES[0])
    before = processor_seconds(keeper.child)
    told = of_talk(talk, commands)
    told["processor time of a command"] = (processor_seconds(keeper.child) - before) / commands / len(COMMANDS) * 1e6
    talk.ask(b"DROP a\n", b"OK DROP a\n")
    talk.end()
    return {**told, **of_lesson(keeper, NAMES)}


def of_server(program: str, commands: int) -> Dict[str, float]:
    """The same commands without a front."""
    child, port = begun(program, user_line("user0", TOKEN, USUAL), options_of(2, 1, None))
    with contextlib.closing(socket.create_connection(("127.0.0.1", port))) as stream:
        stream.setsockopt(socket.IPPROTO_TCP, socket.TCP_NODELAY, 1)
        stream.sendall(f"HELLO user0 {TOKEN}\n".encode())
        talk = Talk(stream, "user0")
        told = of_talk(talk, commands)
        talk.end()
    end_of(child)
    return told


def of_talk(talk: Talk, commands: int) -> Dict[str, float]:
    """The median time of each command, in microseconds."""
    return {name: statistics.median(talk.time_of(item) for _ in range(commands)) for name, item in COMMANDS.items()}


def times_of_a_lesson(talk: Talk, begin: float) -> List[float]:
    """The time of each ADVANCE of one user, who sends them at a steady rate."""
    times = []
    for turn in range(SECONDS_OF_A_LESSON * ADVANCES_A_SECOND):
        time.sleep(max(begin + turn / ADVANCES_A_SECOND - time.monotonic(), 0))
        times.append(talk.time_of(b"ADVANCE a 1\n"))
    return times


def of_lesson(keeper: Keeper, names: Sequence[str]) -> Dict[str, float]:
    """Milliseconds of replies while all users send ADVANCEs at the same rate, each user at different times."""
    talks = [Talk(keeper.raw(name), name) for name in names]
    begin = time.monotonic() + 1
    with ThreadPoolExecutor(len(names)) as threads:
        begins = [begin + number / len(names) / ADVANCES_A_SECOND for number in range(len(names))]
        times = [each / 1000 for told in threads.map(times_of_a_lesson, talks, begins) for each in told]
        list(threads.map(Talk.end, talks))
    return {"a lesson, median": statistics.median(times), "a lesson, 99 of 100": statistics.quantiles(times, n=100)[-1]}
