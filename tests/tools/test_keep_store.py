"""The store of `tools/keep`, in either database: reads return what was written, all of it or none; the commands of an operator;
and old journals, which are taken over."""
import contextlib
import itertools
import os
import pathlib
import sqlite3
import stat
import subprocess
import sys
from typing import Any, Iterator, List

import pytest

from keepers import STATUS_OF_BEFORE, journal
from support import SECONDS, TOP

sys.path.append(str(TOP / "tools"))
from ljtools.keeping.items import Told  # noqa: E402
from ljtools.keeping.journal import take_over_all, whole_records  # noqa: E402
from ljtools.keeping.place import FILE, place_of, shown_place  # noqa: E402
from ljtools.keeping.sqlite import Sqlite  # noqa: E402
from ljtools.keeping.store import Change, Damaged, Kept, Part, Snapshot, Store, StoreFault  # noqa: E402

RECORDS = [
    Told(b"LOAD a 256 1 1 rest 12\n1\nc\nX 0 0 \xff\n", b"OK LOAD a 0 1\n"),
    Told(b"REVERSE a\n", b"OK REVERSE a -1\n"),
    Told(b"TUG a 0 1 0 0\n", b"OK TUG a 0 -1\n"),
]


PARTS = [
    Part(1, 0, b"LOAD a 256000000000e-9 1000000000e-9 1 pair", -7, 1, b"1 0 0 0 0 0", b"X", bytes(range(24))),
    Part(3, 1, b"k", 5, -1, frames=bytes(24)),
    Part(4, 0, b"LOAD b 256000000000e-9 1000000000e-9 1 pair", 2, 1, b"1 0 0 0 0 0", b"\xff", bytes(24)),
]
SNAPSHOT = Change("ann", RECORDS[1:], Snapshot(9, PARTS, [1, 3, 4]))


def heads(parts: Any) -> List[Any]:
    return [part._replace(symbols=b"", frames=b"") for part in parts]


class InSqlite:
    """A folder with a store."""

    def __init__(self, folder: pathlib.Path) -> None:
        folder.mkdir(mode=0o700)
        self.place = str(folder)

    def base(self, sync_each: bool = True) -> Any:
        return Sqlite(pathlib.Path(self.place, FILE), sync_each)

    reader = base

    def change(self, words: str, *values: Any) -> None:
        with contextlib.closing(sqlite3.connect(pathlib.Path(self.place, FILE), isolation_level=None)) as base:
            assert base.execute(words, values).rowcount


class InPostgres:
    """A database with a store."""

    def __init__(self, cluster: Any) -> None:
        self.cluster, self.place = cluster, cluster.new()
        self.base().close()

    def base(self, sync_each: bool = True) -> Any:
        """The base of a front that has started."""
        base = place_of(self.place, sync_each)
        base.begin(f"127.0.0.1:{next(NUMBERS)}", False)
        return base

    def reader(self) -> Any:
        return place_of(self.place, True)

    def change(self, words: str, *values: Any) -> None:
        assert self.cluster.ask(self.place, words.replace("?", "%s"), values) != [0]


NUMBERS = itertools.count(1)


KINDS = ("sqlite", "postgresql")


@pytest.fixture(params=KINDS)
def where(request: Any, tmp_path: pathlib.Path) -> Any:
    """Each kind of store in turn."""
    return place_of_kind(request.param, request, tmp_path / "kept")


def place_of_kind(kind: Any, request: Any, folder: pathlib.Path) -> Any:
    return InSqlite(folder) if kind == "sqlite" else InPostgres(request.getfixturevalue("cluster"))


@contextlib.contextmanager
def opened(where: Any, sync_each: bool = True) -> Iterator[Any]:
    with contextlib.closing(where.base(sync_each)) as base:
        yield Store(base)


@pytest.fixture(params=[True, False], ids=["group", "second"])
def store(request: Any, where: Any) -> Iterator[Any]:
    with opened(where, request.param) as store:
        yield store


def written(store: Any, name: str = "ann", records: Any = RECORDS) -> None:
    assert store.read(name) == Kept(0, [], [])
    for record in records:
        store.write([Change(name, [record])])


def whole(where: Any, name: str = "ann") -> Any:
    """A user as another store reads it."""
    with contextlib.closing(where.reader()) as other:
        return Store(other).read_whole(name)


def again(where: Any, name: str = "ann") -> Any:
    return whole(where, name).records


def test_what_was_written_is_read(store: Any, where: Any) -> None:
    written(store)
    written(store, "ben", RECORDS[:1])
    assert again(where) == RECORDS and again(where, "ben") == RECORDS[:1] and again(where, "cleo") == []
    assert store.names() == ["ann", "ben"]


@pytest.mark.parametrize("sync_each", [True, False])
def test_when_it_is_on_the_disk(where: Any, sync_each: Any) -> None:
    with opened(where, sync_each) as store:
        if isinstance(where, InSqlite):
            assert store.base.rows("pragma synchronous") == [(2 if sync_each else 1,)]
        else:
            assert store.base._writing.ask("show synchronous_commit") == [("on" if sync_each else "off",)]


def test_a_snapshot_is_in_place_of_the_records_that_it_counts_for(store: Any, where: Any) -> None:
    written(store)
    written(store, "ben")
    store.write([SNAPSHOT])
    assert store.read("ann") == Kept(9, heads(PARTS), RECORDS[1:]) and whole(where) == Kept(9, PARTS, RECORDS[1:])
    assert store.part("ann", 3) == PARTS[1] and again(where, "ben") == RECORDS
    # The parts that are left, with one of them changed.
    anew = PARTS[0]._replace(step=8, frames=bytes(24))
    store.write([Change("ann", RECORDS[:1], Snapshot(11, [anew], [1, 3]))])
    assert whole(where) == Kept(11, [anew, PARTS[1]], RECORDS[:1])
    store.write([Change("ann", (), Snapshot(12, [], []))])
    assert whole(where) == Kept(12, [], []) and store.names() == ["ann", "ben"]


PART_CHANGES = {
    "places": ("update part set frames = hash where id = 1", "what record 1 made was changed"),
    "a step": ("update part set step = 6 where id = 3", "what record 3 made was changed"),
    "a symbol": ("update part set symbols = 'Y' where id = 4", "what record 4 made was changed"),
    "a part that is missing": ("delete from part where id = 3", "its snapshot was changed"),
    "a snapshot that is missing": ("delete from snapshot where seq = 9", "its snapshot was changed"),
    "the number of a snapshot": ("update snapshot set seq = 8", "its snapshot was changed"),
    "a record behind it": ("delete from record where seq = 10", "record 10 was changed or is missing"),
}


@pytest.mark.parametrize("words, why", PART_CHANGES.values(), ids=PART_CHANGES)
def test_each_change_of_a_snapshot_is_damage(where: Any, words: Any, why: Any) -> None:
    with opened(where) as store:
        store.read("ann")
        store.write([SNAPSHOT])
    where.change(words)
    with pytest.raises(Damaged, match=why):
        whole(where)


def test_changes_are_written_all_or_none(store: Any, where: Any) -> None:
    written(store)
    store.read("ben")
    with pytest.raises(StoreFault):
        store.base.write([("delete from record where seq = ?", (1,)), ("insert into snapshot values (?)", (1,))])
    assert again(where) == RECORDS
    store.write([Change("ann", RECORDS[:1]), Change("ben", RECORDS)])
    assert again(where) == [*RECORDS, RECORDS[0]] and again(where, "ben") == RECORDS


CHANGES = {
    "an item": ("update record set item = ? where seq = 2", b"REVERSE b\n"),
    "a reply": ("update record set reply = ? where seq = 2", b"OK REVERSE a -2\n"),
    "a hash": ("update record set chain = ? where seq = 2", bytes(16)),
    "a row that is missing": ("delete from record where seq = ?", 2),
    "the first one is missing": ("delete from record where seq = ?", 1),
    "a number": ("update record set seq = ? where seq = 3", 4),
    "another user's": ("update record set name = 'ann' where name = 'ben' and seq = ?", 4),
}


@pytest.mark.parametrize("words, value", CHANGES.values(), ids=CHANGES)
def test_each_change_is_damage_of_its_user_alone(where: Any, words: Any, value: Any) -> None:
    with opened(where) as store:
        written(store)
        written(store, "ben", [*RECORDS, RECORDS[1]])
    where.change(words if "ben" in words else f"{words} and name = 'ann'", value)
    with pytest.raises(Damaged, match=f"^record {4 if 'ben' in words else min(value, 3) if 'number' in words else '.'} was"):
        again(where)
    assert len(again(where, "ben")) == (3 if "ben" in words else 4)


def test_what_a_kill_within_a_transaction_leaves(tmp_path: pathlib.Path) -> None:
    """A process that was killed with half of a transaction written."""
    where = InSqlite(tmp_path / "kept")
    code = (
        "import os, pathlib, signal, sys\n"
        "from ljtools.keeping.items import Told; from ljtools.keeping.sqlite import *; from ljtools.keeping.store import *\n"
        "store = Store(Sqlite(pathlib.Path(sys.argv[1], 'kept.sqlite')))\n"
        "store.read('ann'); store.write([Change('ann', [Told(b'1', b'')])])\n"
        "class Kill(bytes):\n    __conform__ = lambda *_: os.kill(os.getpid(), signal.SIGKILL)\n"
        "store.write([Change('ann', [Told(b'2', b''), Told(Kill(b'3'), b'')])])\n"
    )
    words = [sys.executable, "-c", code, where.place]
    assert subprocess.run(words, env={**os.environ, "PYTHONPATH": str(TOP / "tools")}, timeout=SECONDS).returncode == -9
    assert again(where) == [Told(b"1", b"")]


def test_a_disk_that_is_full(tmp_path: pathlib.Path) -> None:
    where = InSqlite(tmp_path / "kept")
    with opened(where) as store:
        written(store)
        store.base.rows("pragma max_page_count=12")
        with pytest.raises(StoreFault, match="cannot write .*kept.sqlite: database or disk is full"):
            store.write([Change("ann", [Told(bytes(100_000), b"")])])
        assert again(where) == RECORDS
        store.write([Change("ann", RECORDS)])
    assert again(where) == RECORDS * 2


def test_a_file_that_is_no_store(tmp_path: pathlib.Path) -> None:
    (tmp_path / FILE).write_text("none" * 1000)
    with pytest.raises(StoreFault, match="cannot use .*: file is not a database"):
        Sqlite(tmp_path / FILE)


def test_a_store_of_another_format(where: Any) -> None:
    where.base().close()
    where.change("pragma user_version=9" if isinstance(where, InSqlite) else "update format set number = 9")
    with pytest.raises(StoreFault, match="must have format 3, got 9"):
        where.base()


# Old journals.


def taken(data: bytes) -> List[Any]:
    return list(whole_records(data, "ann"))


def test_what_a_kill_or_a_power_cut_may_leave_of_a_journal_is_left_out() -> None:
    data, first = journal("ann", RECORDS[:2]), len(journal("ann", RECORDS[:1]))
    for end in range(len(data)):
        assert taken(data[:end]) == (RECORDS[:1] if end >= first else [])
    for end in range(len(data) - 40, len(data)):
        assert taken(data[:end] + bytes(len(data) - end)) == RECORDS[:1]


@pytest.mark.parametrize("bit", [1, 0x80])
def test_each_changed_byte_of_a_journal_is_damage(bit: Any) -> None:
    data = journal("ann", RECORDS[:2])
    for at in range(len(data)):
        with pytest.raises(Damaged):
            taken(data[:at] + bytes([data[at] ^ bit]) + data[at + 1 :])
    with pytest.raises(Damaged):
        list(whole_records(data, "bob"))


def test_journals_are_taken_over_once_and_moved(tmp_path: pathlib.Path) -> None:
    where, folder = InSqlite(tmp_path / "kept"), tmp_path / "kept"
    refused: List[Any] = []
    with opened(where) as store:
        (folder / "ann.journal").write_bytes(journal("ann", RECORDS))
        (folder / "ben.journal").write_bytes(journal("ben", RECORDS).replace(b"REVERSE", b"REVERSF"))
        assert take_over_all(folder, store, lambda *words: refused.append(words)) == ["ann"]
        assert again(where) == RECORDS and again(where, "ben") == []
        assert refused == [("ben", "its journal is damaged: the record at byte 106 was changed")]
        assert sorted(os.listdir(folder / "before")) == ["ann.journal"] and (folder / "ben.journal").exists()
        # As if the move was interrupted, and as if another journal was put there.
        (folder / "ann.journal").write_bytes(journal("ann", RECORDS))
        (folder / "ben.journal").unlink()
        assert take_over_all(folder, store, lambda *words: refused.append(words)) == ["ann"]
        (folder / "ann.journal").write_bytes(journal("ann", RECORDS[:1]))
        assert take_over_all(folder, store, lambda *words: refused.append(words)) == []
        assert "the store has other records" in refused[-1][1] and again(where) == RECORDS


def test_a_status_of_before(tmp_path: pathlib.Path) -> None:
    (tmp_path / "status.json").write_text(STATUS_OF_BEFORE)
    done = keep("--status", tmp_path)
    cause = "its status is of an older keep, which may still run there; start this keep instead"
    assert (done.returncode, done.stdout, done.stderr) == (1, "", f"keep: cannot read {tmp_path}: {cause}\n")


# What an operator does.


def keep(*words: Any) -> Any:
    tool = [sys.executable, str(TOP / "tools" / "keep"), *map(str, words)]
    return subprocess.run(tool, capture_output=True, text=True, timeout=SECONDS)


@pytest.fixture
def full(where: Any) -> Any:
    """A store in which two users have something."""
    with opened(where) as store:
        written(store)
        written(store, "ben", RECORDS[:1])
    return where


def shown(where: Any) -> str:
    return shown_place(where.place)


def test_a_copy_of_the_store(full: Any, tmp_path: pathlib.Path) -> None:
    other = InSqlite(tmp_path / "other")
    copy = pathlib.Path(other.place, FILE)
    with opened(full) as store:
        store.read("ann")
        store.write([SNAPSHOT])
        done = keep(full.place, "--backup", copy)
    assert (done.returncode, done.stderr) == (0, "") and stat.S_IMODE(copy.stat().st_mode) == 0o600
    assert os.listdir(other.place) == [FILE]
    assert whole(other) == whole(full) and whole(other, "ben") == whole(full, "ben")
    done = keep(full.place, "--backup", copy)
    assert (done.returncode, done.stderr) == (1, f"keep: cannot write {copy}: it exists already; use another name\n")


def test_a_repair_says_what_goes_and_cuts_there(full: Any) -> None:
    full.change("update record set item = 'TUG a 0 2 0 0' where name = 'ann' and seq = 2")
    done = keep(full.place, "--repair", "ann")
    assert (done.returncode, done.stderr, done.stdout) == (
        0,
        "",
        "ann: record 2 was changed or is missing. What stays: 1 records\n"
        "  goes: TUG a 0 2 0 0: OK REVERSE a -1\n  goes: TUG a 0 1 0 0: OK TUG a 0 -1\n",
    )
    assert again(full) == again(full, "ben") == RECORDS[:1]
    assert keep(full.place, "--repair", "ann").stdout == "ann: nothing is damaged. What stays: 1 records\n"


def test_a_repair_of_a_snapshot(full: Any) -> None:
    """A changed session is removed, with its branches and all that was done since."""
    with opened(full) as store:
        store.read("ann")
        store.write([SNAPSHOT])
    full.change("update part set frames = hash where id = 1")
    done = keep(full.place, "--repair", "ann")
    assert (done.returncode, done.stdout) == (
        0,
        "ann: 1 sessions and branches stay, and 2 are removed: those of records [1, 3]\n"
        "ann: nothing else is damaged. What stays: 0 records\n"
        "  goes: REVERSE a: OK REVERSE a -1\n  goes: TUG a 0 1 0 0: OK TUG a 0 -1\n",
    )
    assert whole(full) == Kept(11, PARTS[2:], []) and again(full, "ben") == RECORDS[:1]


def test_a_repair_of_a_journal_of_before(tmp_path: pathlib.Path) -> None:
    where = InSqlite(tmp_path / "kept")
    path = pathlib.Path(where.place, "cleo.journal")
    path.write_bytes(journal("cleo", RECORDS).replace(b"OK TUG", b"OK TUX"))
    assert keep(where.place, "--repair", "cleo").stdout.endswith("was changed. What stays: 2 records\n")
    assert again(where, "cleo") == RECORDS[:2] and not path.exists()


@pytest.mark.parametrize("kind", KINDS)
@pytest.mark.parametrize("has_snapshot", [False, True])
def test_a_user_moves_to_another_store(full: Any, tmp_path: pathlib.Path, request: Any, has_snapshot: Any, kind: Any) -> None:
    with opened(full) as store:
        store.read("ann")
        store.write([SNAPSHOT] if has_snapshot else [])
        done = keep(full.place, "--export", "ann")
    assert done.returncode == 0
    file, other = tmp_path / "ann.json", place_of_kind(kind, request, tmp_path / "other")
    file.write_text(done.stdout)
    assert keep(other.place, "--import-user", file).stdout == f"{shown(other)} has ann now\n"
    assert whole(other) == whole(full)
    assert keep(other.place, "--export", "ann").stdout == done.stdout
    assert (
        keep(other.place, "--import-user", file).stderr == f"keep: cannot import ann: {shown(other)} has something of this user already\n"
    )


FILES = {
    "changed": lambda text: text.replace("REVERSE a", "REVERSE b"),
    "of another format": lambda text: text.replace("user 2", "user 3"),
    "of another user": lambda text: text.replace('"ann"', '"bob"'),
}


@pytest.mark.parametrize("changed", FILES.values(), ids=FILES)
def test_a_file_that_is_not_what_was_printed(full: Any, tmp_path: pathlib.Path, changed: Any) -> None:
    file = tmp_path / "ann.json"
    file.write_text(changed(keep(full.place, "--export", "ann").stdout))
    done = keep(tmp_path / "other", "--import-user", file)
    assert (done.returncode, done.stderr) == (1, f"keep: cannot import {file}: it was changed, or its format is not 'ljserve user 2'\n")
    file.write_text("{}")
    assert "it is not a file of --export" in keep(tmp_path / "other", "--import-user", file).stderr
    assert not (tmp_path / "other").exists()


def test_what_cannot_be_done(full: Any, tmp_path: pathlib.Path) -> None:
    assert keep(tmp_path, "--export", "ann").stderr.startswith(f"keep: cannot use {tmp_path}: it has no store")
    assert keep(full.place, "--export", "cleo").stderr == f"keep: cannot export cleo: {shown(full)} has nothing of this user\n"
    full.change("delete from record where name = 'ann' and seq = 1")
    why = "keep: cannot export ann: the store is damaged (record 1 was changed or is missing); use --repair ann\n"
    assert keep(full.place, "--export", "ann").stderr == why
    none = tmp_path / "none"
    assert keep(full.place, "--import-user", none).stderr == f"keep: cannot read {none}: No such file or directory\n"
