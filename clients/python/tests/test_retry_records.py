"""Records of sessions over links that are lost and made again: each command stands there once, with its reply."""
import pathlib
import subprocess
import sys
from typing import Any, List, Tuple

import pytest

from cut_links import NEVER, Cut, Server, no_waits
from ljclient import Undecided
from ljclient.record import Mark
from ljclient.record_file import RecordFile
from support import PROGRAM, SECONDS, TOP, dimer
from test_retry import cuts_of

pytestmark = pytest.mark.usefixtures("state")
ENTRIES = [Mark.REPLY, Mark.OUTSIDE, Mark.UNANSWERED]


def recorded(server: Server, path: pathlib.Path, cuts: List[Cut]) -> Tuple[int, int]:
    """A session from its load to its end, over links that are cut so. Returns how many bytes went each way."""
    with server.connected() as user:
        link = server.links[-1]
        before = link.heard, link.said
        server.cut_next(cuts[0] if cuts else Cut())
        server.cuts = list(cuts[1:])
        session = dimer(user, record=path, watch=False)
        session.advance(2, piece=1)
        session.tug(0, (5, 0, 0))
        session.branch("k")
        session.reverse()
        session.places()
        session.measure()
        session.restore("k")
        session.drop()
        assert user.sessions() == []
        return link.heard - before[0], link.said - before[1]


def entries(path: pathlib.Path) -> Tuple[List[Any], int]:
    """The commands of a record with their replies, and how often a connection was begun. Raises an error if it may not stand so."""
    file = RecordFile(path)
    read = list(file.entries())
    assert file.is_ended and file.cut is None
    told = [(each.mark, each.line, each.body, each.first, each.more) for each in read if each.mark in ENTRIES]
    return told, sum(each.mark is Mark.CONNECTION for each in read)


def test_a_record_has_each_command_once(tmp_path: pathlib.Path) -> None:
    sizes = recorded(Server(), tmp_path / "whole", [])
    wanted, count = entries(tmp_path / "whole")
    assert count == 0 and [line.split()[0] for _, line, *_ in wanted].count(b"SHOW") == 2
    assert {mark for mark, *_ in wanted} == {Mark.REPLY}
    with no_waits():
        for cut in (cuts := cuts_of(sizes))[:: len(cuts) // 200 + 1]:
            recorded(Server(), tmp_path / "cut", [cut])
            found, count = entries(tmp_path / "cut")
            assert found == wanted, cut
            assert count <= 1


@pytest.mark.parametrize("cut", [Cut(90, 0), Cut(NEVER, 40), Cut(110, NEVER)])
def test_a_record_over_a_loss_can_be_played(tmp_path: pathlib.Path, cut: Cut) -> None:
    with no_waits():
        recorded(Server(), tmp_path / "cut", [cut, Cut(300)])
    words = [sys.executable, "-m", "ljclient", "verify", "--quiet", "--program", PROGRAM, str(tmp_path / "cut")]
    done = subprocess.run(words, cwd=TOP / "clients" / "python", capture_output=True, text=True, timeout=SECONDS)
    assert done.returncode == 0, done.stdout + done.stderr
    assert "1 trajectory" in done.stdout and "0 commands were not played" in done.stdout


def test_where_nobody_can_tell_the_record_ends_with_the_error(tmp_path: pathlib.Path) -> None:
    server = Server()
    with no_waits(), server.connected() as user:
        session = dimer(user, record=tmp_path / "ended", watch=False)
        session.advance(1, piece=1)
        server.cut_next(Cut(0))
        server.answers(b"ADVANCE a 3\n")
        with pytest.raises(Undecided, match="whether `ADVANCE a 2` was done cannot be told: a is at step 4"):
            session.advance(2, piece=2)
    told, _ = entries(tmp_path / "ended")
    assert [line for _, line, *_ in told][1:] == [b"ADVANCE a 1", b"ADVANCE a 2"]
    assert [mark for mark, *_ in told] == [Mark.REPLY, Mark.REPLY, Mark.UNANSWERED]
