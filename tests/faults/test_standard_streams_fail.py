"""Streams of the program that are full, closed, no stream, or go away."""
import os
import subprocess
from typing import List

import pytest
from shared.processes import finished
from shared.program import READ_FAULT, TOP, WRITE_FAULT, Program
from shared.schedules import GREETING, USER

LISTED = USER + GREETING + b"arrive 1 LIST\nnext 1\n"


def close_output() -> None:
    os.close(1)


def close_input() -> None:
    os.close(0)


@pytest.mark.parametrize(
    "words, data",
    [(["run"], b"LIST\n"), ([], b"BYE\n"), (["run"], b"LIST\n" * 100000), (["--help"], b"")],
    ids=["run", "no word", "long", "help"],
)
def test_a_full_output(program: Program, words: List[str], data: bytes) -> None:
    with open("/dev/full", "wb") as full:
        status, _, err = program.run(words, data, stdout=full)
    assert (status, err) == (1, WRITE_FAULT)


def test_nothing_is_written_to_a_full_output(program: Program) -> None:
    with open("/dev/full", "wb") as full:
        status, _, err = program.run(["run"], b"", stdout=full)
    assert (status, err) == (0, b"")


def test_a_closed_output_that_is_not_written_to(program: Program) -> None:
    with open(os.devnull, "rb") as null:
        status, _, err = program.run(["run"], stdin=null, stdout=None, preexec_fn=close_output)
    assert (status, err) == (0, b"")


def test_a_closed_output(program: Program) -> None:
    status, _, err = program.run(["run"], b"LIST\n", stdout=None, preexec_fn=close_output)
    assert (status, err) == (1, WRITE_FAULT)


def test_an_output_that_goes_away(program: Program) -> None:
    child = subprocess.Popen([program.path, "run"], stdin=subprocess.PIPE, stdout=subprocess.PIPE, stderr=subprocess.PIPE)
    assert child.stdin and child.stdout
    child.stdin.write(b"LIST\n")
    child.stdin.flush()
    assert os.read(child.stdout.fileno(), 4) == b"OK L"
    child.stdout.close()
    try:
        child.stdin.write(b"LIST\n" * 20000)
        child.stdin.close()
    except BrokenPipeError:
        pass
    assert finished(child) == (1, WRITE_FAULT)


def test_a_folder_as_the_input(program: Program) -> None:
    folder = os.open(TOP, os.O_RDONLY)
    seen = program.run(["run"], stdin=folder)
    os.close(folder)
    assert seen == (1, b"", READ_FAULT)


def test_a_closed_input(program: Program) -> None:
    assert program.run(["run"], stdin=None, preexec_fn=close_input) == (1, b"", READ_FAULT)


def test_a_replay_to_a_full_output(program: Program) -> None:
    with open("/dev/full", "wb") as full:
        status, _, err = program.replay_of(LISTED, stdout=full)
    assert (status, err) == (1, WRITE_FAULT)


def test_a_replay_to_a_closed_output(program: Program) -> None:
    status, _, err = program.replay_of(LISTED, stdout=None, preexec_fn=close_output)
    assert (status, err) == (1, WRITE_FAULT)
