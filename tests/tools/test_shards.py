"""`tools/shards` spreads users over servers, and writes the files that these and HAProxy need."""
import hashlib
import pathlib
import re
import shutil
import ssl
import stat
import subprocess
import sys
from typing import Any, Dict, Tuple

import pytest

from support import SECONDS, TOKEN, TOP

SHARDS = [sys.executable, str(TOP / "tools" / "shards")]


def told(folder: Any, *words: Any) -> Tuple[Any, Any, Any]:
    """The status and outputs of `shards` in a folder."""
    done = subprocess.run([*SHARDS, *map(str, words)], cwd=folder, capture_output=True, text=True, timeout=SECONDS)
    return done.returncode, done.stdout, done.stderr


def token(number: Any) -> str:
    return f"{number:032}"


@pytest.fixture
def users(tmp_path: pathlib.Path) -> Any:
    """Writes a file of `count` users, and returns its path."""

    def write(count: Any, first: int = 0) -> Any:
        lines = [f"user{number} {token(number)} 8 16384 16\n" for number in range(first, first + count)]
        (tmp_path / "users").write_text("# secret\n\n" + "".join(lines))
        return tmp_path / "users"

    return write


def spread(folder: Any) -> Dict[Any, Any]:
    """The names of the users of each server, by its number."""
    found = {path: re.fullmatch(r"users(\d+)", path.name) for path in (folder / "shards").iterdir()}
    files = {int(number[1]): path for path, number in found.items() if number}
    return {number: [line.split()[0] for line in files[number].read_text().splitlines()] for number in sorted(files)}


def test_each_user_is_at_one_server(users: Any, tmp_path: pathlib.Path) -> None:
    status, out, error = told(tmp_path, users(130), 3)
    assert (status, error) == (0, "")
    sizes = {1: 44, 2: 43, 3: 43}
    assert out.splitlines() == [f"server {number} at 127.0.0.1:410{number}: {size} users" for number, size in sizes.items()]
    names = [name for at in spread(tmp_path).values() for name in at]
    assert sorted(names) == sorted(f"user{number}" for number in range(130))
    line = f"user7 {token(7)} 8 16384 16"
    assert [line in (tmp_path / "shards" / f"users{number}").read_text().splitlines() for number in (1, 2, 3)].count(True) == 1


def test_users_of_several_servers_who_come_by_tls(tmp_path: pathlib.Path) -> None:
    """tools/users makes as many users as several servers take, with slips for the way through HAProxy."""
    by = [sys.executable, str(TOP / "tools" / "users"), "130", "--server", "class.example:4443", "--out", "users", "--slips", "slips"]

    def made(*words: Any) -> Tuple[Any, Any]:
        done = subprocess.run([*by, *words], cwd=tmp_path, capture_output=True, text=True, timeout=SECONDS)
        return done.returncode, done.stderr.splitlines()[-1:]

    assert made() == (2, ["users: the number of users of a server must be from 1 to 64, got 130"])
    assert made("--servers", "2") == (2, ["users: the number of users of 2 servers must be from 1 to 128, got 130"])
    assert made("--servers", "1001") == (2, ["users: --servers must be from 1 to 1000, got 1001"])
    assert made("--servers", "3", "--ca", "class.crt") == (2, ["users: --ca must come with --tls"])
    assert made("--servers", "3", "--tls", "--ca", "class.crt") == (0, [])
    slips = (tmp_path / "slips").read_text()
    assert slips.count("\n    python3 -m ljclient class.example:4443 student130 --tls --ca class.crt\n") == 1
    calls = re.findall(r'connect\("class.example", 4443, "(student\d+)",\n +"[\w ]{39}", tls=True, ca="class.crt"\)\n', slips)
    assert calls == [f"student{number:02}" for number in range(1, 131)]
    assert told(tmp_path, "users", 3)[0] == 0
    assert sorted(map(len, spread(tmp_path).values())) == [43, 43, 44]


def test_the_map_has_hashes_and_no_token(users: Any, tmp_path: pathlib.Path) -> None:
    told(tmp_path, users(5), 2)
    folder = tmp_path / "shards"
    rows = dict(line.split() for line in (folder / "users.map").read_text().splitlines())
    for number, names in spread(tmp_path).items():
        for name in names:
            key = hashlib.sha256(f"{name}:{token(int(name[4:]))}".encode()).hexdigest()
            assert rows.pop(key) == f"server{number}"
    assert not rows
    for path in ("users.map", "servers.cfg", "server1.env"):
        assert not any(token(number) in (folder / path).read_text() for number in range(5))
    assert {stat.S_IMODE(path.stat().st_mode) for path in folder.iterdir()} == {0o600}
    assert stat.S_IMODE(folder.stat().st_mode) == 0o700


def test_the_words_of_a_server(users: Any, tmp_path: pathlib.Path) -> None:
    told(tmp_path, users(5), 2, "--host", "10.0.0.5", "--port", 5000, "--workers", 4)
    folder = tmp_path / "shards"
    words = dict(line.split("=") for line in (folder / "server2.env").read_text().splitlines())
    assert words == {"LISTEN": "10.0.0.5:5001", "USERS": str(folder / "users2"), "WORKERS": "4", "CONNECTIONS": "1000000"}
    assert "    server server2 10.0.0.5:5001 maxconn 62 check\n" in (folder / "servers.cfg").read_text()


def test_who_has_a_server_stays_there(users: Any, tmp_path: pathlib.Path) -> None:
    told(tmp_path, users(6), 2)
    before = spread(tmp_path)
    status, out, _ = told(tmp_path, users(9, first=1), 3)
    after = spread(tmp_path)
    assert status == 0 and "moves" not in out
    for number, names in before.items():
        assert set(names) - {"user0"} <= set(after[number])
    assert not any("user0" in names for names in after.values())
    assert sorted(map(len, after.values())) == [3, 3, 3]


def test_who_moves_is_told_and_how(users: Any, tmp_path: pathlib.Path) -> None:
    path = users(6)
    told(tmp_path, path, 3)
    name = spread(tmp_path)[1][0]
    status, out, _ = told(tmp_path, path, 3, "--move", f"{name}=2")
    assert status == 0 and f"\n{name} moves from server 1 to server 2\n" in out
    assert out.count("moves from") == 1 and "session.save(PATH)" in out and "user.load_saved(PATH)" in out
    assert name in spread(tmp_path)[2]


def test_a_server_that_is_no_more(users: Any, tmp_path: pathlib.Path) -> None:
    path = users(6)
    told(tmp_path, path, 3)
    gone = spread(tmp_path)[3]
    status, out, _ = told(tmp_path, path, 2)
    assert status == 0 and set(re.findall(r"^(\w+) moves from server 3", out, re.M)) == set(gone)
    assert list(spread(tmp_path)) == [1, 2] and not (tmp_path / "shards" / "server3.env").exists()


def texts(folder: Any) -> Dict[Any, Any]:
    """The files that were written."""
    return {path.name: path.read_text() for path in (folder / "shards").iterdir()}


def test_what_was_written_by_hand_stays(users: Any, tmp_path: pathlib.Path) -> None:
    """For example, the addresses of a server on another machine. A new server has the given address."""
    told(tmp_path, users(6), 2)
    env, config = tmp_path / "shards" / "server2.env", tmp_path / "shards" / "servers.cfg"
    env.write_text(env.read_text().replace("127.0.0.1:4102", "0.0.0.0:4000").replace("WORKERS=1", "WORKERS=8") + "METRICS=0.0.0.0:9402\n")
    by_hand = "    server server2 10.0.0.5:4000 maxconn 62 check\n    retries 5\n"
    config.write_text(re.sub("    server server2 .*\n", by_hand, config.read_text()))
    status, out, _ = told(tmp_path, users(9), 3, "--host", "10.0.0.6", "--port", 5000)
    assert status == 0
    assert re.findall("^server . at ([^ ]+):", out, re.M) == ["127.0.0.1:4101", "10.0.0.5:4000", "10.0.0.6:5002"]
    words = dict(line.split("=") for line in env.read_text().splitlines())
    assert (words["LISTEN"], words["WORKERS"], words["METRICS"]) == ("0.0.0.0:4000", "8", "0.0.0.0:9402")
    assert words["USERS"] == str(tmp_path / "shards" / "users2")
    assert config.read_text().endswith(
        "\nbackend server1\n    server server1 127.0.0.1:4101 maxconn 62 check\n"
        f"\nbackend server2\n{by_hand}"
        "\nbackend server3\n    server server3 10.0.0.6:5002 maxconn 62 check\n"
    )
    before = texts(tmp_path)
    assert told(tmp_path, users(9), 3)[0] == 0 and texts(tmp_path) == before
    told(tmp_path, users(9), 3, "--workers", 2)
    assert [texts(tmp_path)[f"server{number}.env"].count("WORKERS=2\n") for number in (1, 2, 3)] == [1, 1, 1]


def test_what_would_be_is_told_and_not_written(users: Any, tmp_path: pathlib.Path) -> None:
    path = users(6)
    assert told(tmp_path, path, 2, "--dry-run")[0] == 0 and not (tmp_path / "shards").exists()
    told(tmp_path, path, 3)
    before = texts(tmp_path)
    status, out, _ = told(tmp_path, path, 2, "--dry-run")
    assert status == 0 and out.count(" moves from server 3 to server ") == 2 and texts(tmp_path) == before
    assert told(tmp_path, path, 2)[1] == out


def test_a_server_that_is_taken_out(users: Any, tmp_path: pathlib.Path) -> None:
    """The others keep their numbers and their users."""
    path = users(9)
    told(tmp_path, path, 3)
    before = spread(tmp_path)
    status, out, _ = told(tmp_path, path, 3, "--without", 2)
    after = spread(tmp_path)
    assert status == 0 and re.findall("^server (.) at", out, re.M) == ["1", "3"]
    assert set(re.findall(r"^(\w+) moves from server 2", out, re.M)) == set(before[2])
    assert list(after) == [1, 3] and set(before[1]) <= set(after[1]) and set(before[3]) <= set(after[3])
    assert not (tmp_path / "shards" / "server2.env").exists()
    assert re.findall("^backend (.*)$", texts(tmp_path)["servers.cfg"], re.M) == ["server1", "server3"]
    assert " server2\n" not in texts(tmp_path)["users.map"]


@pytest.mark.parametrize(
    "count, servers, words, cause",
    [
        (129, 2, [], "cannot spread 129 users: 2 servers have room for 128; use more servers"),
        (129, 3, ["--without", "1"], "cannot spread 129 users: 2 servers have room for 128; use more servers"),
        (2, 3, [], "server 3 must have 1 to 64 users, got 0; use other moves, or another COUNT"),
        (3, 2, ["--move", "eve=1"], "cannot move eve: there is no such user"),
        (
            66,
            2,
            ["--move", *(f"user{number}=1" for number in range(65))],
            "server 1 must have 1 to 64 users, got 65; use other moves, or another COUNT",
        ),
    ],
)
def test_no_room_changes_nothing(users: Any, tmp_path: pathlib.Path, count: Any, servers: Any, words: Any, cause: Any) -> None:
    told(tmp_path, users(4), 2)
    before = {path.name: path.read_text() for path in (tmp_path / "shards").iterdir()}
    assert told(tmp_path, users(count), servers, *words) == (1, "", f"shards: {cause}\n")
    assert {path.name: path.read_text() for path in (tmp_path / "shards").iterdir()} == before


@pytest.mark.parametrize(
    "text, cause",
    [
        ("ann short 8 16384 16\n", "line 1: a token must have 32 characters, got 5"),
        (f"ann {TOKEN} 8 16384 16\nann {TOKEN} 8 16384 16\n", "line 2: each name must come once, got ann twice"),
        ("# none\n", "a file must have at least one user, got none"),
    ],
)
def test_a_file_that_is_none_of_users(tmp_path: pathlib.Path, text: Any, cause: Any) -> None:
    (tmp_path / "users").write_text(text)
    status, out, error = told(tmp_path, "users", 2)
    assert (status, out, error) == (1, "", f"shards: users: {cause}\n")
    assert TOKEN not in error and not (tmp_path / "shards").exists()


@pytest.mark.parametrize(
    "words",
    [
        [],
        ["users"],
        ["users", "0"],
        ["users", "x"],
        ["users", "2", "--workers", "17"],
        ["users", "2", "--port", "65535"],
        ["users", "2", "--host", "here"],
        ["users", "2", "--move", "ann"],
        ["users", "2", "--move", "ann=3"],
        ["users", "2", "--move", "ann=2", "--without", "2"],
        ["users", "2", "--without", "3"],
        ["users", "2", "--without", "1", "2"],
        ["--certificate", "a", "--dry-run"],
        ["--certificate", "a b"],
    ],
)
def test_words_that_are_none(tmp_path: pathlib.Path, words: Any) -> None:
    status, out, error = told(tmp_path, *words)
    assert (status, out, error.count("\n")) == (2, "", 1) and error.startswith("shards: ")


def test_help() -> None:
    status, out, error = told(TOP, "--help")
    assert (status, error) == (0, "") and "usage: shards USERS COUNT" in out


@pytest.mark.skipif(shutil.which("openssl") is None, reason="openssl is not installed")
def test_a_certificate_of_a_class(tmp_path: pathlib.Path) -> None:
    """Clients that trust it accept it, for the names that it has."""
    status, out, error = told(tmp_path, "--certificate", "class.example", "192.0.2.10")
    assert (status, error) == (0, "") and out == "shards/class.pem is for HAProxy, and shards/class.crt for those who connect\n"
    pem, crt = tmp_path / "shards" / "class.pem", tmp_path / "shards" / "class.crt"
    assert stat.S_IMODE(pem.stat().st_mode) == 0o600 and "PRIVATE KEY" not in crt.read_text()
    ssl.create_default_context(cafile=crt)
    ssl.SSLContext(ssl.PROTOCOL_TLS_SERVER).load_cert_chain(pem)
    first = pem.read_text()
    status, _, error = told(tmp_path, "--certificate", "class.example")
    assert status == 1 and "it exists already" in error and pem.read_text() == first
    assert told(tmp_path, "--certificate", "class.example", "--replace")[0] == 0 and pem.read_text() != first
