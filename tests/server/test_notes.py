"""The notes of a server about its connections, and a server that closes while a connection waits.

The program's notes are off, and it closes early only if 4,096 results were not awaited. So this makes a copy of the sources:
its notes go to standard error, and a read that fails closes the server. The copy is built by `rt try`, which proves nothing,
and serves with both kinds of pool.
"""
import os
import shutil
import socket
import subprocess
from dataclasses import dataclass
from pathlib import Path
from typing import Callable, Dict, List, Tuple

import pytest
from shared.program import TOP, wait_until
from shared.serving import POOLS, options_of
from shared.sockets import connected, free_port, is_listened_on, reset
from visits import COME_AND_GO, HELLO, USERS

BUILD_SECONDS = 900
# Texts that the sources have once each, and their replacements in the copy.
EDITS = (
    ("ljserve/src/main.rt", "use log::sink::Discard;", "use log::sink::Console;"),
    ("ljserve/src/main.rt", "LevelFilter::Off, Discard", "LevelFilter::Info, Console(rt)"),
    ("lj_visit/src/visiting.rt", "Served::TooManyStrays", "Served::ReadFault"),
)
NOTED = (
    "] connection 0: from 127.0.0.1:",
    "] connection 0: A is in",
    "] connection 0: A has left, Bye",
    "] connection 1: from 127.0.0.1:",
    "] connection 1: A is in",
    "] connection 1: A has left, End",
    "] connection 2: from 127.0.0.1:",
    "] connection 2: denied",
    "] connection 3: from 127.0.0.1:",
    "] connection 3: ended before a line",
)
TASKS_NOTED = {
    "lock": "] the book: 4 tasks posted, 4 fetched, 0 withdrawn",
    "queue": "] the queue: 4 tasks posted, 4 taken, 0 left",
}

# All cases are served by one build.
pytestmark = [
    pytest.mark.xdist_group("notes"),
    pytest.mark.skipif(shutil.which("rt") is None, reason="rt is not on the PATH"),
]


def rest(client: socket.socket) -> bytes:
    """All replies until the end, and a mark if no end comes."""
    told = b""
    try:
        while piece := client.recv(1 << 16):
            told += piece
    except socket.timeout:
        told += b" and no end"
    return told


def told(client: socket.socket, count: int) -> bytes:
    """The first `count` bytes of replies."""
    return client.recv(count, socket.MSG_WAITALL)


def come_and_go(port: int) -> List[bytes]:
    """Makes successive connections. Four tasks are computed for the second. Returns the replies to each."""
    seen = []
    for visit in COME_AND_GO:
        with connected(port) as client:
            client.sendall(visit.said)
            client.shutdown(socket.SHUT_WR)
            seen.append(rest(client))
    return seen


def close_while_one_waits(port: int) -> List[bytes]:
    """One connection of A is in, another waits, and B's is reset, which closes the server. The one that waits is closed without
    a byte, and the first stays. Returns the first replies to A and B, the replies to the one that waits, and the rest to the first."""
    with connected(port) as first, connected(port) as second, connected(port) as third:
        first.sendall(HELLO)
        seen = [told(first, len(b"OK HELLO A\n"))]
        second.sendall(HELLO)
        third.sendall(HELLO.replace(b"A", b"B").replace(b"a", b"b"))
        seen.append(told(third, len(b"OK HELLO B\n")))
        reset(third)
        seen.append(rest(second))
        first.sendall(b"LIST\nBYE\n")
        return [*seen, rest(first)]


@dataclass(frozen=True)
class Case:
    """Connections to a server with a pool, and their replies. The cases are served in the order of their names."""

    name: str
    pool: str
    connect: Callable[[int], List[bytes]]
    wanted: Tuple[bytes, ...]
    connections: int


COMES = tuple(visit.told for visit in COME_AND_GO)
CLOSES = (b"OK HELLO A\n", b"OK HELLO B\n", b"", b"OK LIST 0\nOK BYE\n")
CASES = (
    Case("1_notes", "lock", come_and_go, COMES, len(COMES)),
    Case("2_notes", "queue", come_and_go, COMES, len(COMES)),
    Case("3_closing", "lock", close_while_one_waits, CLOSES, 3),
    Case("4_closing", "queue", close_while_one_waits, CLOSES, 3),
)


@dataclass
class Served:
    """The replies to the connections of each case, and the output of the server."""

    told: Dict[str, List[bytes]]
    printed: Dict[str, str]


def copy_edited(folder: Path) -> None:
    """Copies the crates, with the edits."""
    shutil.copytree(os.path.join(TOP, "crates"), folder / "crates", ignore=shutil.ignore_patterns("out"))
    for name in ("crates.txt", "HANDLES"):
        shutil.copy(os.path.join(TOP, name), folder)
    for name, old, new in EDITS:
        path = folder / "crates" / name
        path.write_text(path.read_text().replace(old, new))


def write_cases(folder: Path) -> Dict[str, int]:
    """Writes a file of users and one of arguments for each case, for `rt try --cases`. Returns their ports."""
    chosen = {}
    for case in CASES:
        chosen[case.name] = free_port()
        words = ["serve", "--listen", f"127.0.0.1:{chosen[case.name]}", "--users", "{}", *options_of(2, case.connections, case.pool)]
        (folder / case.name).write_bytes(USERS)
        (folder / f"{case.name}.args").write_text("\n".join(words) + "\n")
    return chosen


def parts_of(output: str) -> Dict[str, str]:
    """The output for each case."""
    parts = {}
    for part in output.split("== ")[1:]:
        name, _, text = part.partition("\n")
        parts[name] = text
    return parts


def is_there(port: int, builder: "subprocess.Popen[bytes]") -> bool:
    """Whether a server listens on a port before the build ends."""
    wait_until(lambda: is_listened_on(port) or builder.poll() is not None, BUILD_SECONDS)
    return is_listened_on(port)


@pytest.fixture(scope="module")
def served(tmp_path_factory: pytest.TempPathFactory) -> Served:
    """Serves each case in turn, by one build of the copy."""
    copy, cases, log = (tmp_path_factory.mktemp(name) for name in ("copy", "cases", "log"))
    copy_edited(copy)
    chosen = write_cases(cases)
    seen = {}
    with open(log / "log", "wb") as stream:
        words = ["rt", "try", "--cases", str(cases)]
        builder = subprocess.Popen(words, cwd=copy / "crates" / "ljserve", stdin=subprocess.DEVNULL, stdout=stream, stderr=stream)
        try:
            for case in CASES:
                port = chosen[case.name]
                assert is_there(port, builder), (log / "log").read_text(errors="replace")
                seen[case.name] = case.connect(port)
            builder.wait(BUILD_SECONDS)
        finally:
            builder.kill()
    return Served(seen, parts_of((log / "log").read_text(errors="replace")))


@pytest.mark.parametrize("name, old", [(name, old) for name, old, _ in EDITS])
def test_what_is_edited_stands_once(name: str, old: str) -> None:
    assert Path(TOP, "crates", name).read_text().count(old) == 1


@pytest.mark.parametrize("case", CASES, ids=lambda case: str(case.name))
def test_what_connections_are_told(served: Served, case: Case) -> None:
    assert served.told[case.name] == [*case.wanted]
    assert case.name in served.printed


@pytest.mark.parametrize("name, pool", [("1_notes", "lock"), ("2_notes", "queue")], ids=POOLS)
def test_what_is_noted(served: Served, name: str, pool: str) -> None:
    """The notes are these lines, without a token."""
    text = served.printed[name]
    assert [line for line in (*NOTED, TASKS_NOTED[pool]) if line not in text] == []
    assert text.count("] ") == len(NOTED) + 1
    assert "aaaa" not in text and "cccc" not in text
