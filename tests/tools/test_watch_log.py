"""The log of `tools/watch --log`, a line of JSON for each event."""
import json
import pathlib
import re
import subprocess
import sys
import time
from typing import Any, List

import pytest

from ljclient import connect, refusals
from support import SECONDS, TOKEN, TOP, Server, dimer, free_port, present
from test_watch import WATCH, Watcher, read_all

sys.path.append(str(TOP / "tools"))
from ljtools import event_log  # noqa: E402

CLOCK = re.compile(r"\d{4}-\d\d-\d\dT\d\d:\d\d:\d\d\.\d{3}Z")


def lines_of(path: Any) -> Any:
    """The lines of a log, none if it is not there yet."""
    return path.read_text().splitlines() if path.exists() else []


def events(path: Any, count: Any) -> List[Any]:
    """The events of a log, when there are `count`."""
    end = time.monotonic() + SECONDS
    while len(lines := lines_of(path)) < count and time.monotonic() < end:
        time.sleep(0.02)
    assert len(lines) == count
    return [json.loads(line) for line in lines]


def test_what_a_user_did(tmp_path: pathlib.Path) -> None:
    path = tmp_path / "log"
    path.write_text('{"event": "before"}\n')
    with Server() as server, Watcher(server.port, "--log", path) as watcher:
        with connect("127.0.0.1", watcher.port, "ann", TOKEN, timeout=SECONDS) as user:
            dimer(user).advance(2)
            with pytest.raises(refusals.NoAtom):
                user.ask("SHOW a 2")
        before, listens, let_in, ended = events(path, 4)
        assert re.match("TIME in ann ", watcher.lines(1)[0])
    assert before == {"event": "before"}
    assert {"event": "listens", "at": f"127.0.0.1:{watcher.port}", "server": f"127.0.0.1:{server.port}"}.items() <= listens.items()
    assert (let_in["event"], let_in["user"], let_in["commands"]) == ("in", "ann", 0)
    # LOAD, ADVANCE, SHOW and BYE
    assert {"event": "ended", "user": "ann", "commands": 5, "steps": 2, "refusal": "ERR 14 NO_ATOM"}.items() <= ended.items()
    assert re.fullmatch(r"127\.0\.0\.1:\d+", ended["from"]) and ended["seconds"] >= let_in["seconds"]
    assert all(CLOCK.fullmatch(each["time"]) for each in (listens, let_in, ended))


def test_who_is_denied_without_a_token(tmp_path: pathlib.Path) -> None:
    path, wrong = tmp_path / "log", "b" * 32
    with Server() as server, Watcher(server.port, "--log", path) as watcher:
        for words in (f"ann {wrong}", f"{TOKEN} ann"):
            with watcher.connected() as stream:
                stream.sendall(f"HELLO {words}\n".encode())
                assert read_all(stream) == b"ERR 01 DENIED\n"
        _, first, second = events(path, 3)
    assert {(each["event"], each.get("user")) for each in (first, second)} == {("denied", "ann"), ("denied", None)}
    assert TOKEN not in path.read_text() and wrong not in path.read_text()


def test_on_standard_output_alone() -> None:
    with Server() as server:
        words = [*WATCH, "--log", "-", "--metrics", "127.0.0.1:0", "127.0.0.1:0", f"127.0.0.1:{server.port}"]
        child = subprocess.Popen(words, stdin=subprocess.DEVNULL, stdout=subprocess.PIPE, text=True)
        listens = json.loads(present(child.stdout).readline())
        assert re.fullmatch(r"127\.0\.0\.1:\d+", listens["metrics"])
        with connect("127.0.0.1", int(listens["at"].rpartition(":")[2]), "ann", TOKEN, timeout=SECONDS) as user:
            user.ask("LIST")
        told = [json.loads(present(child.stdout).readline()) for _ in range(2)]
        child.terminate()
        out, err = child.communicate(timeout=SECONDS)
        assert out == "" and err is None
    assert [(each["event"], each["commands"]) for each in told] == [("in", 0), ("ended", 3)]


def test_a_log_that_was_moved_is_begun_anew(tmp_path: pathlib.Path) -> None:
    path, moved = tmp_path / "log", tmp_path / "log.1"
    with Server() as server, Watcher(server.port, "--log", path) as watcher:
        events(path, 1)
        path.rename(moved)
        watcher.connected().close()
        assert watcher.lines(1)
        assert [each["event"] for each in events(path, 1)] == ["not in"]
    assert [each["event"] for each in events(moved, 1)] == ["listens"]


def test_a_log_that_cannot_be_begun(tmp_path: pathlib.Path) -> None:
    words = ["--log", str(tmp_path / "none" / "log"), "127.0.0.1:0", f"127.0.0.1:{free_port()}"]
    done = subprocess.run([*WATCH, *words], capture_output=True, text=True, timeout=SECONDS)
    assert (done.returncode, done.stdout) == (1, "")
    assert done.stderr == f"watch: cannot write {words[1]}: No such file or directory\n"


def test_a_fault_of_writing_stops_nothing(tmp_path: pathlib.Path, capfd: pytest.CaptureFixture[str]) -> None:
    """As on a disk that is full."""
    log = event_log.EventLog(str(tmp_path / "log"))
    handler: Any = log._handler
    handler.stream.close()
    log.note("in")
    assert capfd.readouterr() == ("", "")


def test_what_is_logged_is_one_line_whatever_it_has(tmp_path: pathlib.Path) -> None:
    log = event_log.EventLog(str(tmp_path / "log"))
    log.note("in", user='a"\n%s', refusal=None)
    (line,) = (tmp_path / "log").read_text().splitlines()
    told = json.loads(line)
    assert CLOCK.fullmatch(told.pop("time")) and told == {"event": "in", "user": 'a"\n%s'}
