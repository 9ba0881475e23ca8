"""Words of the command line, and what is told of them."""
from typing import List, Sequence, Union

import pytest
from shared.launching import newest_version
from shared.loads import LOAD
from shared.program import Program

TAKEN: List[List[str]] = [[], ["run"], ["run", "--sessions", "64", "--atoms", "65536", "--branches", "256"], ["run", "--atoms=0"]]

QUOTAS = [
    (["run", "--sessions", "0"], LOAD, b"ERR 20 QUOTA_SESSIONS\n"),
    (["run", "--atoms", "1"], LOAD, b"ERR 21 QUOTA_ATOMS\n"),
    (["run", "--branches", "0"], LOAD + b"BRANCH a k\n", b"OK LOAD a 0 2\nERR 22 QUOTA_BRANCHES\n"),
    (["run", "--branches", "1", "--sessions", "1"], LOAD + b"BRANCH a k\n", b"OK LOAD a 0 2\nOK BRANCH a k 0\n"),
    ([], LOAD + b"BRANCH a k\n" * 2, b"OK LOAD a 0 2\nOK BRANCH a k 0\nERR 13 BRANCH_EXISTS\n"),
]

REFUSED: List[Sequence[Union[str, bytes]]] = [
    *(["run", option, limit] for option, limit in [("--sessions", "65"), ("--atoms", "65537"), ("--branches", "257")]),
    *(["run", "--sessions", number] for number in ["x", "", "-1", "1.5", "1e3", "18446744073709551616", " 1"]),
    *(["other"], ["run", "other"], ["run", "run"], ["--sessions", "3"], ["run", "--session-count", "3"]),
    *(["run", "--sessions"], ["run", "--sessions", "3", "--sessions", "4"], ["-x"]),
    ["run", b"\xff"],
    [b"\xff"],
]


@pytest.mark.parametrize("words", TAKEN, ids=" ".join)
def test_words_are_taken(program: Program, words: List[str]) -> None:
    assert program.run(words, b"LIST\n") == (0, b"OK LIST 0\n", b"")


@pytest.mark.parametrize("words, data, reply", QUOTAS)
def test_quotas(program: Program, words: List[str], data: bytes, reply: bytes) -> None:
    assert program.run(words, data) == (0, reply, b"")


@pytest.mark.parametrize("words", REFUSED, ids=repr)
def test_usage_faults(program: Program, words: Sequence[Union[str, bytes]]) -> None:
    status, out, err = program.run(words, b"LIST\n")
    assert (status, out) == (2, b"") and err.startswith(b"error: "), (status, out, err)


def test_a_usage_fault_names_the_word(program: Program) -> None:
    err = program.run(["run", "--sessions", "65"])[2]
    assert b"'65'" in err and b"--sessions <N>" in err


@pytest.mark.parametrize("words", [["--help"], ["-h"], ["run", "--help"]], ids=" ".join)
def test_help(program: Program, words: List[str]) -> None:
    status, out, err = program.run(words, b"LIST\n")
    assert (status, err) == (0, b"") and b"Usage: ljserve" in out, (status, out, err)


@pytest.mark.parametrize("word", [b"--sessions <N>", b"--atoms <N>", b"--branches <N>", b"16384"])
def test_help_names_each_option(program: Program, word: bytes) -> None:
    assert word in program.run(["run", "--help"])[1]


@pytest.mark.parametrize("words", [["--version"], ["-V"]], ids=" ".join)
def test_the_version(program: Program, words: List[str]) -> None:
    assert program.run(words, b"LIST\n") == (0, f"ljserve {newest_version()}\n".encode(), b"")
