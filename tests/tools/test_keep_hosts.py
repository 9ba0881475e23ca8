"""Servers of `tools/keep` whose names are lent to users: to all users of a store, each at a server of its quota."""
import contextlib
import os
import pathlib
import signal
import subprocess
import sys
from typing import Any, Iterator, List


from keepers import LOAD, LOADED, TOKEN, TOP, USUAL, Fronts, Keeper, first_line, patched, until
from support import PROGRAM, SECONDS
from test_keep_users import changed, hello

# Of the two atoms after two steps: docs/PROTOCOL.md, "A step in half a page".
SHOW, SHOWN = b"SHOW a 0\n", b"OK SHOW a 2 0 1774 0 0\n"
SMALL = (1, 2, 1)


def names(count: int, words: str = "") -> List[str]:
    """The tool whose servers have `count` names to lend, and which waits for one that is soon free, patched by some Python."""
    few = f"from ljtools.keeping import hosts, server; del server.NAMES[{count}:]; hosts.SECONDS_TO_WAIT = 60"
    return patched(f"{few}; {words}")


@contextlib.contextmanager
def kept(folder: Any, count: int, users: Any, words: str = "", *options: Any) -> Iterator[Any]:
    """A front whose servers have `count` names."""
    with Keeper(folder, *options, users=dict.fromkeys(users, SMALL), tool=names(count, words)) as keeper:
        yield keeper


def servers(keeper: Any) -> Any:
    """The quota of each running server, and how many users have its names."""
    return [(each["quota"], each["users"]) for each in keeper.known()["servers"] if each["process"]]


def come_in(keeper: Any, stack: Any, name: str, sent: bytes = b"", count: int = 0) -> Any:
    """A connection that is let in, and the next `count` lines of its replies."""
    stream = stack.enter_context(keeper.raw(name))
    stream.sendall(sent)
    assert first_line(stream) == hello(name)
    return stream, [first_line(stream) for _ in range(count)]


def test_each_quota_in_use_has_a_server(tmp_path: pathlib.Path) -> None:
    users = {"ann": USUAL, "ben": SMALL, "cleo": USUAL, "dora": (1, 1, 1)}
    with Keeper(tmp_path, users=users) as keeper, contextlib.ExitStack() as stack:
        two = LOAD + LOAD.replace(b"LOAD a", b"LOAD b")
        told = {name: come_in(keeper, stack, name, two, 2)[1] for name in ("ann", "ben", "cleo")}
        assert told["ann"] == told["cleo"] == [LOADED, b"OK LOAD b 0 2\n"] and told["ben"] == [LOADED, b"ERR 20 QUOTA_SESSIONS\n"]
        until(lambda: servers(keeper) == [("8 16384 16", 2), ("1 2 1", 1)])
        status, text = keeper.status()
        processes = ", ".join(str(each["process"]) for each in keeper.known()["servers"])
        assert status == 0 and f"server: process {processes}, begun 2 times\n" in text


def test_names_are_lent_to_one_after_the_other_who_goes_on_where_it_was(tmp_path: pathlib.Path) -> None:
    """Each user may have only one session, so the session of the previous user of the name is gone."""
    users = ["ann", "ben", "cleo", "dora", "emil"]
    with kept(tmp_path, 2, users) as keeper:
        for name in users:
            told = b"OK LIST 0\n" + LOADED + b"OK ADVANCE a 1\n"
            assert keeper.told(b"LIST\n" + LOAD + b"ADVANCE a 1\n", name) == hello(name) + told
            until(lambda: keeper.kept(name) == [])
        for name in users:
            told = b"OK LIST 1\na 1 2 0\nOK BRANCH a k 1\nOK ADVANCE a 2\n"
            assert keeper.told(b"LIST\nBRANCH a k\nADVANCE a 1\n", name) == hello(name) + told
            until(lambda: keeper.kept(name) == [])
        assert servers(keeper) == [("1 2 1", 2)] and len(keeper.events("server begun")) == 1
        keeper.kill()
        keeper.begin()
        for name in reversed(users):
            told = SHOWN + b"OK RESTORE a k 1\nOK ADVANCE a 2\n" + SHOWN
            assert keeper.told(SHOW + b"RESTORE a k\nADVANCE a 1\n" + SHOW, name) == hello(name) + told


def test_a_further_server_is_begun_when_all_names_are_taken(tmp_path: pathlib.Path) -> None:
    users = ["ann", "ben", "cleo", "dora", "emil"]
    with kept(tmp_path, 2, users) as keeper, contextlib.ExitStack() as stack:
        streams = [come_in(keeper, stack, name, LOAD + b"ADVANCE a 1\n", 2)[0] for name in users]
        until(lambda: servers(keeper) == [("1 2 1", 2), ("1 2 1", 2), ("1 2 1", 1)])
        # Only its users notice the end of a server, as a pause.
        os.kill(keeper.known()["servers"][1]["process"], signal.SIGKILL)
        for stream in streams:
            stream.sendall(b"ADVANCE a 1\n" + SHOW)
            assert (first_line(stream), first_line(stream)) == (b"OK ADVANCE a 2\n", SHOWN)
        assert len(keeper.events("server begun")) == 4
        # HUP restarts all servers, with users connected.
        keeper.child.send_signal(signal.SIGHUP)
        until(lambda: len(keeper.events("server begun")) == 7)
        for stream in streams:
            stream.sendall(SHOW)
            assert first_line(stream) == SHOWN
        streams[0].close()
        until(lambda: keeper.kept("ann") == [])


def test_who_leaves_with_steps_pending_keeps_its_name(tmp_path: pathlib.Path) -> None:
    with kept(tmp_path, 1, ["ann", "ben"]) as keeper:
        assert keeper.told(LOAD + b"START a 2\n", "ann") == hello("ann") + LOADED + b"OK START a 2\n"
        assert keeper.told(LOAD, "ben") == hello("ben") + LOADED
        until(lambda: servers(keeper) == [("1 2 1", 1)] * 2)
        assert [item for _, item, _ in keeper.kept("ann")] == [LOAD, b"START a 2\n"]
        assert keeper.told(SHOW, "ann") == hello("ann") + SHOWN


def test_a_name_is_lent_again_when_the_steps_of_who_is_away_are_done(tmp_path: pathlib.Path) -> None:
    users = ["ann", "ben", "cleo"]
    with kept(tmp_path, 1, users, "hosts.SECONDS_AWAY = 0.0") as keeper, contextlib.ExitStack() as stack:
        assert keeper.told(LOAD + b"START a 2\n", "ann") == hello("ann") + LOADED + b"OK START a 2\n"
        come_in(keeper, stack, "ben", LOAD, 1)
        until(lambda: keeper.kept("ann") == [])
        come_in(keeper, stack, "cleo", LOAD, 1)
        until(lambda: servers(keeper) == [("1 2 1", 1)] * 2 and keeper.known()["users"].keys() == {"ben", "cleo"})
        assert len(keeper.events("server begun")) == 2
        stack.close()
        assert keeper.told(SHOW, "ann") == hello("ann") + SHOWN


def test_what_takes_its_time_is_put_back_before_its_user_comes(tmp_path: pathlib.Path) -> None:
    with kept(tmp_path, 1, ["ann", "ben", "cleo"]) as keeper:
        for name in ("ann", "ben", "cleo"):
            with keeper.raw(name) as stream:
                stream.sendall(LOAD + b"START a 2\n")
                assert [first_line(stream) for _ in range(3)] == [hello(name), LOADED, b"OK START a 2\n"]
        keeper.kill()
        keeper.change("delete from record where name = 'ben' and seq = 1")
        keeper.begin()
        until(lambda: keeper.is_ready() and servers(keeper) == [("1 2 1", 1)] * 2)
        states = {name: each["state"] for name, each in keeper.known()["users"].items()}
        assert states == {"ann": "ready", "ben": "stopped", "cleo": "ready"}
        assert keeper.told(b"", "ben") == b"ERR 01 DENIED\n"
        assert keeper.told(SHOW, "cleo") == hello("cleo") + SHOWN


def test_a_user_who_was_stopped_gives_its_name_back(tmp_path: pathlib.Path) -> None:
    """It is tried again by HUP, after a quota that was too small."""
    with kept(tmp_path, 1, ["ann", "ben"]) as keeper:
        changed(keeper, "--from", keeper.users)
        until(lambda: keeper.told(LOAD, "ann") == hello("ann") + LOADED)
        until(lambda: keeper.kept("ann") == [])
        changed(keeper, "ann", "ben", "--change", "--quota", "1", "1", "1")
        until(lambda: keeper.known()["users"].get("ann", {}).get("state") == "stopped")
        assert keeper.told(b"", "ann") == b"ERR 01 DENIED\n"
        until(lambda: ("1 1 1", 0) in servers(keeper))
        assert keeper.told(b"LIST\n", "ben") == hello("ben") + b"OK LIST 0\n" and len(servers(keeper)) == 2
        changed(keeper, "ann", "--change", "--quota", "1", "2", "1")
        until(lambda: keeper.known()["users"]["ann"]["state"] == "ready")
        assert keeper.told(b"LIST\n", "ann") == hello("ann") + b"OK LIST 1\na 0 2 0\n"


def test_steps_of_a_day_outlast_that_the_name_is_lent_to_others(tmp_path: pathlib.Path) -> None:
    with kept(tmp_path, 1, ["ann", "ben"], "", "--steps-a-day", "10") as keeper:
        assert keeper.told(LOAD + b"ADVANCE a 10\n", "ann") == hello("ann") + LOADED + b"OK ADVANCE a 10\n"
        until(lambda: keeper.kept("ann") == [])
        assert keeper.told(b"LIST\n", "ben") == hello("ben") + b"OK LIST 0\n"
        until(lambda: keeper.known()["users"].keys() == {"ben"} and keeper.known()["today"]["ann"]["steps"] == 10)
        assert keeper.told(b"ADVANCE a 1\n", "ann") == hello("ann")
        keeper.kill()
        keeper.begin()
        assert keeper.told(b"ADVANCE a 1\n", "ann") == hello("ann")


def test_names_are_lent_at_each_of_two_fronts(tmp_path: pathlib.Path, cluster: Any) -> None:
    """A user who was forgotten still belongs to the same front, and comes in by both."""
    users = dict.fromkeys(["ann", "ben", "cleo"], SMALL)
    with Fronts(tmp_path, cluster, PROGRAM, users, (), names(1)) as both:
        until(both.is_ready)
        one, other = both.each
        for name in users:
            assert one.told(LOAD + b"ADVANCE a 1\n", name) == hello(name) + LOADED + b"OK ADVANCE a 1\n"
            until(lambda: one.known()["users"].get(name, {}).get("records") == 0)
        for name in users:
            assert other.told(b"ADVANCE a 1\n" + SHOW, name) == hello(name) + b"OK ADVANCE a 2\n" + SHOWN
        assert other.known()["users"] == {} and [len(each.events("server begun")) for each in both.each] == [1, 1]
        one.kill()
        assert [until(lambda: other.told(SHOW, name)) for name in users] == [hello(name) + SHOWN for name in users]


def test_a_store_has_many_users(tmp_path: pathlib.Path) -> None:
    many = tmp_path / "many"
    many.write_text("".join(f"user{number} {TOKEN} 1 2 1\n" for number in range(3000)))
    with kept(tmp_path, 62, ["ann"]) as keeper, contextlib.ExitStack() as stack:
        changed(keeper, "--from", many)
        until(lambda: keeper.told(b"LIST\n", "user2999") == hello("user2999") + b"OK LIST 0\n")
        streams = [come_in(keeper, stack, f"user{number}")[0] for number in range(0, 3000, 40)]
        until(lambda: [users for _, users in servers(keeper)] == [62, 13])
        for stream in streams:
            stream.sendall(LOAD + b"ADVANCE a 2\n" + SHOW)
        assert {tuple(first_line(stream) for _ in range(3)) for stream in streams} == {(LOADED, b"OK ADVANCE a 2\n", SHOWN)}


def test_more_users_than_a_store_may_have(tmp_path: pathlib.Path) -> None:
    many = tmp_path / "many"
    many.write_text("".join(f"user{number} {TOKEN} 1 2 1\n" for number in range(100_000)))
    tool = [sys.executable, str(TOP / "tools" / "users"), "--store", str(tmp_path / "kept")]
    assert subprocess.run([*tool, "--from", str(many)], timeout=SECONDS).returncode == 0
    done = subprocess.run([*tool, "ann"], capture_output=True, text=True, timeout=SECONDS)
    assert done.returncode == 1 and "has 100000 users, and may have 100000: remove some first\n" in done.stderr
    with many.open("a") as file:
        file.write(f"ann {TOKEN} 1 2 1\n")
    done = subprocess.run([*tool, "--from", str(many)], capture_output=True, text=True, timeout=SECONDS)
    assert done.returncode == 1 and "line 100001: a store must have at most 100000 users, got more" in done.stderr
