"""The client in JavaScript of the examples, over the pipes of the program and over a server of it."""
import os
import pathlib
import shutil
import subprocess
from typing import Any, Dict, List, Tuple

import pytest

from ljclient import connect, run
from support import DIMER, EXAMPLES, PROGRAM, SECONDS, TOKEN, Server, peer, read_line, says

CLIENT = EXAMPLES / "small_client.mjs"
ARGON = [str(EXAMPLES / "argon_256.xyz"), "21.04", "3.4", "3706"]
THERE_AND_BACK = """\
OK ADVANCE run 2: atom 0 at 1774 0 0, kinetic number 2808450, potential -5399727
OK REVERSE run 1: atom 0 at 589 0 0, kinetic number 2808450, potential -5399727
OK ADVANCE run -1: atom 0 at 0 0 0, kinetic number 0, potential -5349132
OK REVERSE run 0: atom 0 at 0 0 0, kinetic number 0, potential -5349132
all 2 atoms are where they began
"""

pytestmark = pytest.mark.skipif(shutil.which("node") is None, reason="node is not installed")


def told(*words: Any, token: Any = TOKEN) -> Tuple[Any, Any, Any]:
    """The status of the client, and what it writes."""
    environment: Dict[str, Any] = {**os.environ, "LJSERVE_TOKEN": token}
    streams: Dict[str, Any] = {"stdin": subprocess.DEVNULL, "capture_output": True, "text": True}
    done = subprocess.run(["node", CLIENT, *map(str, words)], env=environment, timeout=4 * SECONDS, **streams)
    return done.returncode, done.stdout, done.stderr


@pytest.fixture
def pair(tmp_path: pathlib.Path) -> List[Any]:
    """The words for two atoms whose motion is known by hand: the kinetic number at step 2 is 2 * (1774 - 589)^2."""
    path = tmp_path / "dimer.xyz"
    path.write_text(DIMER)
    return [path, 256, 1, 131072, 2]


def test_over_the_pipes_of_a_program(pair: Any) -> None:
    assert told(PROGRAM, *pair) == (0, THERE_AND_BACK, "")


def test_over_a_server_where_nothing_is_left(pair: Any) -> None:
    with Server() as server:
        assert told(f"127.0.0.1:{server.port}", "ann", *pair) == (0, THERE_AND_BACK, "")
        with connect("127.0.0.1", server.port, "ann", TOKEN) as user:
            assert user.sessions() == []


def test_a_crystal_of_argon() -> None:
    """The place of atom 0 is that of docs/api/examples.md."""
    status, out, _ = told(PROGRAM, *ARGON, 100)
    assert status == 0 and "OK ADVANCE run 100: atom 0 at 638484 804537 4294921034," in out
    assert out.endswith("all 256 atoms are where they began\n")


def test_thousands_of_replies_at_once() -> None:
    words = [EXAMPLES / "argon_4000.xyz", 55, 3.4, 1000, 0]
    with Server() as server:
        for place in ([PROGRAM], [f"127.0.0.1:{server.port}", "ann"]):
            assert told(*place, *words)[1].endswith("all 4000 atoms are where they began\n")


def test_numbers_that_a_double_does_not_hold(tmp_path: pathlib.Path) -> None:
    """The kinetic number is that of the Python client, whose whole numbers have no end."""
    path = tmp_path / "close.xyz"
    path.write_text("2\nclose\nAr 0 0 0\nAr 0.8 0 0\n")
    with run(PROGRAM) as user, pytest.warns(UserWarning):
        session = user.load("a", path, edge=10, sigma=1, h=2**24)
        session.advance(1)
        kinetic = session.measure().kinetic
    assert kinetic > 2**53 and float(kinetic) != kinetic
    assert f", kinetic number {kinetic}, " in told(PROGRAM, path, 10, 1, 2**24, 1)[1]


@pytest.mark.parametrize(
    "words, cause",
    [
        (["/no/such/program", *ARGON, "1"], "spawn /no/such/program ENOENT"),
        ([PROGRAM, "/no/such.xyz", "1", "1", "1", "1"], "ENOENT: no such file or directory, open '/no/such.xyz'"),
        ([PROGRAM, *ARGON, "x"], "ERR 03 SYNTAX"),
        ([PROGRAM, *ARGON[:3], "0", "1"], "ERR 38 STEP_FACTOR"),
        (["127.0.0.1", "ann", *ARGON, "1"], "127.0.0.1 is no HOST:PORT"),
        ([*ARGON], "say HOST:PORT NAME or PROGRAM, then FILE.xyz EDGE SIGMA STEPFACTOR STEPS"),
    ],
    ids=["program", "file", "word", "factor", "address", "words"],
)
def test_what_is_at_fault_is_told_in_a_line(words: Any, cause: Any) -> None:
    assert told(*words) == (1, "", f"small_client: {cause}\n")


def test_a_wrong_token_is_denied_and_not_shown(pair: Any) -> None:
    with Server() as server:
        assert told(f"127.0.0.1:{server.port}", "ann", *pair, token="b" * 32) == (1, "", "small_client: ERR 01 DENIED\n")


def test_a_server_that_ends(pair: Any) -> None:
    with peer(says(b"OK LOAD run 0 2\n")) as port:
        assert told(f"127.0.0.1:{port}", "ann", *pair) == (1, "", "small_client: the connection has ended\n")


def test_a_reply_that_comes_in_pieces(pair: Any) -> None:
    """A line is whole at its end, wherever the pieces end, and the body has as many bytes as its line says."""

    def talk(connection: Any, stop: Any) -> None:
        read_line(connection)
        for byte in b"OK HELLO ann\n":
            connection.sendall(bytes([byte]))
        head = read_line(connection)
        assert head == b"LOAD run 256 1 131072 rest 28\n"
        assert b"".join(read_line(connection) for _ in range(4)) == DIMER.encode()
        connection.sendall(b"ERR 20 QUOTA_SESS")
        connection.sendall(b"IONS\n")

    with peer(talk) as port:
        assert told(f"127.0.0.1:{port}", "ann", *pair) == (1, "", "small_client: ERR 20 QUOTA_SESSIONS\n")
