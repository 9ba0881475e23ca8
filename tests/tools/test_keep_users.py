"""Users of a store of `tools/keep`, who are added, changed and removed by `tools/users --store` while a front runs."""
import contextlib
import json
import pathlib
import re
import subprocess
import sys
from argparse import Namespace
from typing import Any, Dict, Iterator, Tuple

import pytest

from keepers import LOAD, LOADED, TOKEN, TOP, USUAL, Fronts, Keeper, first_line, until
from support import PROGRAM, SECONDS

sys.path.append(str(TOP / "tools"))
from ljtools.keeping.accounts import Account, changes_behind  # noqa: E402
from ljtools.keeping.items import Told  # noqa: E402
from ljtools.keeping.maintenance import opened  # noqa: E402
from ljtools.keeping.place import place_of  # noqa: E402
from ljtools.keeping.store import Change, Store  # noqa: E402

DENIED = b"ERR 01 DENIED\n"
# Of the two atoms after two steps: docs/PROTOCOL.md, "A step in half a page".
SHOW, SHOWN = b"SHOW a 0\n", b"OK SHOW a 2 0 1774 0 0\n"


def hello(name: str) -> bytes:
    return f"OK HELLO {name}\n".encode()


def users(*words: Any) -> Tuple[Any, Any, Any]:
    """The status of tools/users, and what it prints."""
    tool = [sys.executable, str(TOP / "tools" / "users")]
    done = subprocess.run([*tool, *map(str, words)], capture_output=True, text=True, timeout=SECONDS)
    return done.returncode, done.stdout, done.stderr


def changed(front: Any, *words: Any) -> None:
    """Changes the users of a front's store."""
    assert users("--store", front.store, *words)[0] == 0


def tokens_of(front: Any, slips: Any, *words: Any) -> Dict[str, str]:
    """The tokens of users who are added to the store of a front, or changed there, by name."""
    assert users(*words, "--store", front.store, "--slips", slips, "--replace") == (0, "", "")
    found = re.findall("^(\\S+) at .*\n\n    token   (.*)$", slips.read_text(), re.M)
    return {name: token.replace(" ", "") for name, token in found}


@contextlib.contextmanager
def begun(kind: str, folder: Any, request: Any) -> Iterator[Any]:
    """A front over a store of a kind, whose file of users has ann and ben."""
    if kind == "folder":
        with Keeper(folder, users=("ann", "ben")) as front:
            yield front
    else:
        with Fronts(folder, request.getfixturevalue("cluster"), PROGRAM, {"ann": USUAL, "ben": USUAL}, count=1) as fronts:
            yield fronts.each[0]


@pytest.fixture(params=["folder", "database"])
def front(request: Any, tmp_path: pathlib.Path) -> Iterator[Any]:
    with begun(request.param, tmp_path, request) as front:
        until(front.is_ready)
        yield front


def lets_in(front: Any, name: str, token: str) -> None:
    """Waits until a user who has nothing may come in."""
    until(lambda: front.told(b"LIST\n", name, token) == hello(name) + b"OK LIST 0\n")


def test_who_is_added_may_come_in_at_once_and_users_of_the_file_no_more(front: Any, tmp_path: pathlib.Path) -> None:
    with front.raw("ann") as ann, front.raw("ben") as ben:
        ann.sendall(LOAD + b"ADVANCE a 1\n")
        assert [first_line(ann) for _ in range(3)] == [hello("ann"), LOADED, b"OK ADVANCE a 1\n"]
        assert first_line(ben) == hello("ben")
        ann_alone = tmp_path / "ann_alone"
        ann_alone.write_text(f"ann {TOKEN} 8 16384 16\n")
        changed(front, "--from", ann_alone)
        assert first_line(ben) == b"" and front.told(b"", "ben") == DENIED
        token = tokens_of(front, tmp_path / "slips", "cleo", "dora")["cleo"]
        lets_in(front, "cleo", token)
        assert front.told(b"", "cleo") == DENIED
        ann.sendall(b"ADVANCE a 1\n" + SHOW)
        assert (first_line(ann), first_line(ann)) == (b"OK ADVANCE a 2\n", SHOWN)
    front.kill()
    front.begin()
    assert front.told(SHOW, "ann") == hello("ann") + SHOWN
    assert front.told(b"LIST\n", "cleo", token) == hello("cleo") + b"OK LIST 0\n" and front.told(b"", "ben") == DENIED
    listed = "ann 8 16384 16\ncleo 8 16384 16\ndora 8 16384 16\n"
    assert users("--store", front.store, "--list") == (0, listed, "")


def test_what_a_removed_user_had_is_put_aside_and_a_new_one_has_nothing(front: Any, tmp_path: pathlib.Path) -> None:
    changed(front, "--from", front.users)
    until(lambda: front.told(b"LIST\n", "ann") == hello("ann") + b"OK LIST 0\n")
    with front.raw("ann") as stream:
        stream.sendall(LOAD + b"ADVANCE a 2\n")
        assert [first_line(stream) for _ in range(3)] == [hello("ann"), LOADED, b"OK ADVANCE a 2\n"]
        changed(front, "ann", "--remove")
        token = tokens_of(front, tmp_path / "slips", "ann")["ann"]
        assert first_line(stream) == b""
    lets_in(front, "ann", token)
    assert front.told(b"", "ann") == DENIED
    assert front.told(LOAD, "ann", token) == hello("ann") + LOADED
    (aside,) = front.events("put aside")
    listed = f"ann 8 16384 16\nben 8 16384 16\n{aside['name']} is put aside\n"
    assert re.fullmatch(r"ann\.\d{4}-\d\d-\d\dT\d\d:\d\d:\d\d\.\d{6}", aside["name"])
    until(lambda: users("--store", front.store, "--list") == (0, listed, ""))
    # It may be imported again for a user who has nothing.
    done = subprocess.run([*front.tool, front.store, "--export", aside["name"]], capture_output=True, text=True, timeout=SECONDS)
    assert done.returncode == 0 and json.loads(done.stdout)["name"] == "ann"
    changed(front, "ann", "--remove")
    token = tokens_of(front, tmp_path / "slips", "ann")["ann"]
    lets_in(front, "ann", token)
    assert front.end() == 0
    (tmp_path / "told").write_text(done.stdout)
    taken = subprocess.run([*front.tool, front.store, "--import-user", str(tmp_path / "told")], timeout=SECONDS)
    assert taken.returncode == 0
    front.begin()
    assert front.told(SHOW, "ann", token) == hello("ann") + SHOWN


def test_who_is_removed_while_no_front_is_there(front: Any, tmp_path: pathlib.Path) -> None:
    changed(front, "--from", front.users)
    until(lambda: front.told(LOAD, "ann") == hello("ann") + LOADED)
    front.kill()
    changed(front, "ann", "ben", "--remove")
    token = tokens_of(front, tmp_path / "slips", "ann")["ann"]
    changed(front, "ann", "--remove")
    front.begin()
    until(lambda: front.events("put aside"))
    assert front.told(b"", "ann") == front.told(b"", "ann", token) == DENIED
    status, out, err = users("--store", front.store, "--list")
    assert re.fullmatch(r"ann\.\S+ is put aside\n", out) and (status, err) == (0, "")


def test_a_new_token_ends_connections_of_the_old_one(front: Any, tmp_path: pathlib.Path) -> None:
    changed(front, "--from", front.users)
    until(lambda: front.told(LOAD, "ann") == hello("ann") + LOADED)
    with front.raw("ann") as stream, front.raw("ann") as second:
        assert first_line(stream) == hello("ann")
        token = tokens_of(front, tmp_path / "slips", "ann", "--renew")["ann"]
        assert first_line(stream) == b"" and first_line(second) == DENIED
    assert front.told(b"", "ann") == DENIED
    assert front.told(b"LIST\n", "ann", token) == hello("ann") + b"OK LIST 1\na 0 2 0\n"


def test_another_quota_counts_with_the_user_connected(front: Any, tmp_path: pathlib.Path) -> None:
    changed(front, "--from", front.users)
    token = tokens_of(front, tmp_path / "slips", "cleo", "--quota", "1", "2", "1")["cleo"]
    lets_in(front, "cleo", token)
    with front.raw("cleo", token) as stream, front.raw("ben") as other:
        stream.sendall(LOAD + b"BRANCH a k\nADVANCE a 1\n" + LOAD.replace(b"LOAD a", b"LOAD b"))
        told = [hello("cleo"), LOADED, b"OK BRANCH a k 0\n", b"OK ADVANCE a 1\n", b"ERR 20 QUOTA_SESSIONS\n"]
        assert [first_line(stream) for _ in told] == told and first_line(other) == hello("ben")
        changed(front, "cleo", "--change", "--quota", "2", "4", "2")

        def is_loaded() -> Any:
            stream.sendall(LOAD.replace(b"LOAD a", b"LOAD b"))
            return first_line(stream) == b"OK LOAD b 0 2\n"

        assert until(is_loaded)
        stream.sendall(b"BRANCH a l\nADVANCE a 1\n" + SHOW)
        assert [first_line(stream) for _ in range(3)] == [b"OK BRANCH a l 1\n", b"OK ADVANCE a 2\n", SHOWN]
        other.sendall(b"LIST\n")
        assert first_line(other) == b"OK LIST 0\n"


WRONG = {
    "no such user": (["cleo", "--remove"], 1, "has no user cleo"),
    "one of two is none": (["ann", "cleo", "--change", "--quota", "1", "1", "1"], 1, "has no user cleo"),
    "one of two is there": (["cleo", "ann"], 1, "has a user ann already"),
    "no new token": (["cleo", "--renew"], 1, "has no user cleo"),
    "no quota": (["ann", "--change"], 2, "--change must come with --quota, and --renew, --remove, --list and --from without"),
    "a quota too large": (["ann", "--change", "--quota", "65", "1", "1"], 2, "the sessions of a user must be from 0 to 64, got 65"),
    "two changes": (
        ["ann", "--remove", "--renew"],
        2,
        "--store must come without --out, --servers and --check, and with at most one of --renew",
    ),
    "no name": (["--remove"], 2, "the users must be given once; use COUNT, NAME.."),
    "slips of no token": (["ann", "--remove", "--slips", "x"], 2, "--slips must come with new tokens"),
    "a name that is none": (["a.b"], 2, "a name must be 1 to 16 of A-Z a-z 0-9 _ -, got 'a.b'"),
}


@pytest.fixture(scope="module", params=["folder", "database"])
def store(request: Any, tmp_path_factory: pytest.TempPathFactory) -> Any:
    """A store with one user."""
    folder = tmp_path_factory.mktemp("store")
    address = str(folder / "kept") if request.param == "folder" else request.getfixturevalue("cluster").new()
    (folder / "users").write_text(f"ann {TOKEN} 8 16384 16\n")
    assert users("--store", address, "--from", folder / "users") == (0, "", "")
    return address


@pytest.mark.parametrize("words, status, why", WRONG.values(), ids=WRONG)
def test_what_is_wrong_is_told_and_changes_nothing(store: Any, words: Any, status: Any, why: Any) -> None:
    code, out, err = users("--store", store, *words)
    assert (code, out) == (status, "") and err.startswith("users: ") and why in err and err.count("\n") == 1
    assert users("--store", store, "--list") == (0, "ann 8 16384 16\n", "")


def test_slips_that_cannot_be_written_add_nobody(store: Any, tmp_path: pathlib.Path) -> None:
    (tmp_path / "slips").write_text("precious")
    for path, why in ((tmp_path / "slips", "it exists already"), (tmp_path / "none" / "slips", "No such file or directory")):
        status, out, err = users("cleo", "--store", store, "--slips", path)
        assert (status, out) == (1, "") and why in err
    assert (tmp_path / "slips").read_text() == "precious"
    assert users("--store", store, "--list")[1] == "ann 8 16384 16\n"


def test_a_file_with_a_fault_adds_nobody(store: Any, tmp_path: pathlib.Path) -> None:
    (tmp_path / "users").write_text(f"cleo {TOKEN} 1 1 1\nben short 1 1 1\n")
    status, out, err = users("--store", store, "--from", tmp_path / "users")
    assert (status, out) == (1, "") and "line 2: a token must have 32 characters, got " in err
    assert users("--store", store, "--list")[1] == "ann 8 16384 16\n"


def test_a_store_that_is_not_there(tmp_path: pathlib.Path) -> None:
    none = tmp_path / "none"
    assert users("--store", none, "--list")[0] == 1 and not none.exists()
    status, _, err = users("--store", "postgresql://127.0.0.1:1/none", "--list")
    assert status == 1 and err.startswith("users: ")
    assert users("--list") == (2, "", "users: --renew, --change, --remove, --list and --from must come with --store STORE\n")


def test_putting_aside_moves_nothing_of_who_is_a_user_anew(store: Any, tmp_path: pathlib.Path, monkeypatch: pytest.MonkeyPatch) -> None:
    """Damaged records are put aside too. A store that puts aside too late, by what it read before, moves nothing."""
    record = Told(b"REVERSE a\n", b"OK REVERSE a -1\n")
    tokens_of(Namespace(store=store), tmp_path / "slips", "emil")
    with contextlib.closing(place_of(store, True)) as place:
        place.begin("127.0.0.1:1", False)
        one, late = Store(place.base), Store(place.base)
        assert place.claim("emil") is None and one.put_aside("emil") == "" and one.read("emil").records == []
        one.write([Change("emil", [record, record])])
        place.base.write([("delete from record where name = ? and seq = 1", ("emil",))])
        changed(Namespace(store=store), "emil", "--remove")
        (row,) = place.base.rows("select removed from account where name = 'emil'")
        assert one.put_aside("emil") == f"emil.{row[0]}" and one.put_aside("emil") == ""
        assert one.read("emil").records == []
        one.write([Change("emil", [record])])
        monkeypatch.setattr(place.base, "rows", lambda *_: [row])
        late.put_aside("emil")
        monkeypatch.undo()
        assert late.read("emil").records == [record] and f"emil.{row[0]}" in one.names()
        place.base.write([("delete from record", ())])


def test_changes_are_read_by_their_numbers(store: Any, tmp_path: pathlib.Path) -> None:
    with opened(store) as one:
        before = changes_behind(one.base, 0)
        token = tokens_of(Namespace(store=store), tmp_path / "slips", "fay", "gil")["fay"]
        added = changes_behind(one.base, before.number)
        assert added.accounts.keys() == {"fay", "gil"} and added.accounts["fay"] == Account(token.encode(), "8 16384 16")
        changed(Namespace(store=store), "fay", "gil", "--remove")
        removed = changes_behind(one.base, added.number)
        assert (removed.accounts, sorted(removed.gone), sorted(removed.aside)) == ({}, ["fay", "gil"], ["fay", "gil"])
        assert changes_behind(one.base, removed.number) == (removed.number, {}, [], [])


def test_a_front_needs_users_of_a_store_or_of_a_file(tmp_path: pathlib.Path) -> None:
    tool = [sys.executable, str(TOP / "tools" / "keep"), "127.0.0.1:0", str(tmp_path / "kept"), "--", PROGRAM, "serve"]
    done = subprocess.run(tool, capture_output=True, text=True, timeout=SECONDS)
    assert done.returncode == 2 and "has no users; use `tools/users --store" in done.stderr and not list(tmp_path.iterdir())
