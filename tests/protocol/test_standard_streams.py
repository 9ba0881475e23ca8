"""Streams of the program that end, what stands in the stored runs, and when replies appear."""
import os
import select
import socket
import subprocess
import time
from typing import Dict, Tuple

import pytest
from shared.loads import IN_PARTS, LOAD
from shared.processes import finished
from shared.program import SECONDS, Program, contents
from shared.texts import must_be

ENDS: Dict[str, Tuple[bytes, bytes]] = {
    "an empty input": (b"", b""),
    "an unfinished line": (b"LIST\nLIST", b"OK LIST 0\n"),
    "an unfinished body": (b"LIST\n" + LOAD[:-1], b"OK LIST 0\n"),
    "BYE": (b"BYE\nLIST\n", b"OK BYE\n"),
    "LOAD without a count": (b"LOAD a\nLIST\n", b"ERR 04 BODY\n"),
    "a line of 65,536 bytes": (b"x" * 65536 + b"\nLIST\n", b"ERR 05 LONG\n"),
}


@pytest.mark.parametrize("name", ENDS)
def test_what_ends_a_run(program: Program, name: str) -> None:
    data, reply = ENDS[name]
    assert program.run(["run"], data) == (0, reply, b"")


def test_a_million_items_are_answered(program: Program) -> None:
    status, out, err = program.run(["run"], b"\n" * 1000002)
    assert (status, err) == (0, b"")
    must_be(out, b"ERR 03 SYNTAX\n" * 1000000 + b"ERR 08 ENOUGH\n")


def test_the_stored_run(program: Program) -> None:
    assert program.run([], contents("crates", "ljserve", "stdin")) == (0, contents("crates", "ljserve", "stdout"), b"")


@pytest.mark.parametrize("name", ["every_command", "two_species"])
def test_the_examples(program: Program, name: str) -> None:
    assert program.run([], contents("examples", f"{name}.txt")) == (0, contents("examples", f"{name}.replies"), b"")


def read_line(output: int) -> bytes:
    """The next line that a child writes, as far as it comes within the time limit."""
    line, end = b"", time.monotonic() + SECONDS
    while not line.endswith(b"\n"):
        ready, _, _ = select.select([output], [], [], max(0, end - time.monotonic()))
        byte = os.read(output, 1) if ready else b""
        if not byte:
            break
        line += byte
    return line


def test_replies_come_before_more_is_asked_for(program: Program) -> None:
    child = subprocess.Popen([program.path], stdin=subprocess.PIPE, stdout=subprocess.PIPE, stderr=subprocess.PIPE, bufsize=0)
    assert child.stdin and child.stdout
    for item, replies in [*IN_PARTS, (b"BYE\n", b"OK BYE\n")]:
        child.stdin.write(item)
        for reply in replies.splitlines(keepends=True):
            assert read_line(child.stdout.fileno()) == reply
    # BYE ends the program while its input is open.
    assert finished(child) == (0, b"")
    child.stdin.close()


def test_many_lines_are_answered_by_few_writes(program: Program) -> None:
    ours, theirs = socket.socketpair(socket.AF_UNIX, socket.SOCK_SEQPACKET)
    ours.settimeout(SECONDS)
    read, write = os.pipe()
    os.write(write, b"LIST\n" * 1000)
    os.close(write)
    child = subprocess.Popen([program.path], stdin=read, stdout=theirs.fileno(), stderr=subprocess.PIPE)
    os.close(read)
    theirs.close()
    writes, out = 0, b""
    while piece := ours.recv(1 << 20):
        writes, out = writes + 1, out + piece
    assert finished(child) == (0, b"")
    must_be(out, b"OK LIST 0\n" * 1000)
    assert writes <= 2
