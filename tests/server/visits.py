"""Successive connections to a server: the replies to each, and how many tiles are computed."""
from dataclasses import dataclass
from typing import Tuple

from shared.loads import CHAIN, LOAD, load
from shared.serving import DENIED

HELLO = b"HELLO A " + b"a" * 32 + b"\n"
LOAD_CHAIN = load("c", CHAIN)
USERS = b"# name, token, sessions, atoms, branches\nA " + b"a" * 32 + b" 4 128 4\n\nB " + b"b" * 32 + b" 4 64 4\n"


@dataclass(frozen=True)
class Visit:
    """The bytes sent on a connection, its replies, and what fails of it, as in tests/fail_streams.c."""

    said: bytes
    told: bytes
    failing: str = "-"


@dataclass(frozen=True)
class Series:
    """Successive connections to one server, and how many tiles are computed for all of them."""

    name: str
    visits: Tuple[Visit, ...]
    tiles: int


def two_blocks(way: bytes, size: int) -> bytes:
    """A LOAD of `size` bytes: two full blocks, all atoms of each at one place, the second block `way` along x."""
    return b"LOAD f 256 1 131072 rest %d\n128\nfar\n" % size + b"X 0 0 0\n" * 64 + b"X %s 0 0\n" % way * 64


def one_visit(name: str, said: bytes, told: bytes, tiles: int) -> Series:
    return Series(name, (Visit(HELLO + said, b"OK HELLO A\n" + told),), tiles)


# One says BYE, one ends after four tiles were computed, one is denied, and one says nothing.
COME_AND_GO = (
    Visit(HELLO + b"BYE\n", b"OK HELLO A\nOK BYE\n"),
    Visit(
        HELLO + LOAD_CHAIN + b"ADVANCE c 1\nMEASURE c\n",
        b"OK HELLO A\nOK LOAD c 0 65\nOK ADVANCE c 1\nOK MEASURE c 1 65 0 0 0 693842 -342445638\n",
    ),
    Visit(b"HELLO A " + b"c" * 32 + b"\n", DENIED),
    Visit(b"", b""),
)

SERIES = (
    one_visit("a connection is served", LOAD + b"ADVANCE a 1\nBYE\n", b"OK LOAD a 0 2\nOK ADVANCE a 1\nOK BYE\n", 1),
    # The connection after one that fails finds no ticket of the user before its own, and the state unchanged.
    Series(
        "connections fail before they are let in, or as they are told so",
        (
            Visit(b"", b""),
            Visit(b"", b"", "r1"),
            Visit(HELLO[:-1], b""),
            Visit(HELLO[:-1], b"", "r2"),
            Visit(b"HELLO A " + b"b" * 32 + b"\n", DENIED),
            Visit(b"HELLO A " + b"b" * 32 + b"\n", b"", "w1"),
            Visit(
                HELLO + LOAD + b"TUG a 0 5 0 0\nBYE\n",
                b"OK HELLO A\nOK LOAD a 0 2\nOK TUG a 0 0\nOK BYE\n",
            ),
            Visit(HELLO + b"DROP a\nBYE\n", b"", "w1"),
            Visit(HELLO + b"REVERSE a\n", b"", "w1"),
            Visit(
                HELLO + b"LIST\nREVERSE a\nSHOW a 0\nBYE\n",
                b"OK HELLO A\nOK LIST 1\na 0 2 0\nOK REVERSE a -1\nOK SHOW a -1 0 4294967291 0 0\nOK BYE\n",
            ),
        ),
        0,
    ),
    Series("nothing is noted of connections", COME_AND_GO, 4),
    # A full block, and one atom alone beside it: one tile of the full block, and one of both.
    one_visit("an atom alone has no tile", LOAD_CHAIN + b"ADVANCE c 1\n", b"OK LOAD c 0 65\nOK ADVANCE c 1\n", 2),
    one_visit(
        "blocks out of reach have no tile of both",
        two_blocks(b"100", 1160) + b"ADVANCE f 1\nMEASURE f\n",
        b"OK LOAD f 0 128\nOK ADVANCE f 1\nOK MEASURE f 1 128 0 0 0 0 14412589418304\n",
        4,
    ),
    # At the cutoff of 2.5 sigma no pair interacts, and just below it each pair across the two does.
    one_visit(
        "blocks at the cutoff",
        two_blocks(b"2.5", 1160) + b"ADVANCE f 1\n",
        b"OK LOAD f 0 128\nOK ADVANCE f 1\n",
        2,
    ),
    one_visit(
        "blocks below the cutoff",
        two_blocks(b"2.49999995", 1608) + b"ADVANCE f 1\n",
        b"OK LOAD f 0 128\nOK ADVANCE f 1\n",
        3,
    ),
)


def has_failing(series: Series) -> bool:
    return any(visit.failing != "-" for visit in series.visits)
