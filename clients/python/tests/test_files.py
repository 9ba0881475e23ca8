"""What stands where a file is to be written: only a regular file is replaced, behind symbolic links."""
import errno
import os
import pathlib
import stat
import subprocess
import sys
from typing import Any, Callable, Iterator, List

import pytest

from ljclient import files, run
from support import PROGRAM, TOP, dimer, interrupted_when, listed


@pytest.fixture
def a() -> Iterator[Any]:
    with run(PROGRAM) as user:
        yield dimer(user)


@pytest.fixture
def fifo(tmp_path: pathlib.Path) -> Any:
    os.mkfifo(tmp_path / "fifo")
    return tmp_path / "fifo"


def is_fifo(path: Any) -> Any:
    return stat.S_ISFIFO(os.lstat(path).st_mode)


def test_a_session_is_not_saved_in_place_of_a_fifo(a: Any, fifo: Any) -> None:
    with pytest.raises(ValueError, match="fifo: it is a FIFO"):
        a.save(fifo)
    assert is_fifo(fifo) and os.listdir(fifo.parent) == ["fifo"]
    assert a.advance(1) == 1


def test_a_link_to_a_fifo_stays_and_so_does_the_fifo(a: Any, fifo: Any) -> None:
    link = fifo.parent / "link"
    link.symlink_to("fifo")
    with pytest.raises(ValueError, match="link: it is a FIFO"):
        a.save(link)
    assert os.readlink(link) == "fifo" and is_fifo(fifo)


def test_a_folder_is_named(a: Any, tmp_path: pathlib.Path) -> None:
    with pytest.raises(ValueError, match="it is a directory"):
        a.save(tmp_path)
    assert os.listdir(tmp_path) == []


@pytest.mark.parametrize("is_there", [True, False])
def test_the_file_behind_links_is_written(a: Any, tmp_path: pathlib.Path, is_there: Any) -> None:
    (tmp_path / "far").mkdir()
    target, link = tmp_path / "far" / "a.saved", tmp_path / "link"
    if is_there:
        target.write_text("ljserve checkpoint 1\nolder\n")
    link.symlink_to("second")
    (tmp_path / "second").symlink_to("far/a.saved")
    a.save(link)
    assert link.is_symlink() and not target.is_symlink()
    assert target.read_text().startswith("ljserve checkpoint 1\n")
    assert sorted(os.listdir(tmp_path)) == ["far", "link", "second"] and os.listdir(tmp_path / "far") == ["a.saved"]


def test_a_file_that_cannot_be_written_whole_leaves_the_older_one(tmp_path: pathlib.Path, monkeypatch: pytest.MonkeyPatch) -> None:
    path = tmp_path / "file"
    path.write_text("older\n")

    def full(_: Any) -> None:
        raise OSError("no space left")

    monkeypatch.setattr(os, "fsync", full)
    with pytest.raises(OSError, match="no space left"):
        files.write_whole(path, b"newer\n")
    assert path.read_text() == "older\n" and os.listdir(tmp_path) == ["file"]


def test_the_folder_is_written_out_after_the_file(tmp_path: pathlib.Path, monkeypatch: pytest.MonkeyPatch) -> None:
    """What a crash of the machine leaves is one of the two files, whole: first its bytes are on the disk, then its name."""
    done: List[Any] = []

    def fsync(descriptor: int) -> None:
        done.append(("folder" if stat.S_ISDIR(os.fstat(descriptor).st_mode) else "file", os.listdir(tmp_path)))

    monkeypatch.setattr(os, "fsync", fsync)
    files.write_whole(tmp_path / "a", b"newer\n")
    (first, partial), last = done
    assert first == "file" and partial != ["a"] and last == ("folder", ["a"])


def test_a_folder_that_cannot_be_written_out_is_told(tmp_path: pathlib.Path, monkeypatch: pytest.MonkeyPatch) -> None:
    def fsync(descriptor: int) -> None:
        if stat.S_ISDIR(os.fstat(descriptor).st_mode):
            raise OSError(number, "as it is")

    monkeypatch.setattr(os, "fsync", fsync)
    number = errno.EIO
    with pytest.raises(OSError, match="as it is"):
        files.write_whole(tmp_path / "a", b"newer\n")
    number = errno.EINVAL  # a system of files that has no such thing
    files.write_whole(tmp_path / "a", b"newest\n")
    assert (tmp_path / "a").read_text() == "newest\n" and os.listdir(tmp_path) == ["a"]


@pytest.mark.parametrize("mode", [0o600, 0o640, 0o664, 0o444])
def test_a_file_has_the_mode_of_the_one_before(a: Any, tmp_path: pathlib.Path, mode: int) -> None:
    path = tmp_path / "a.saved"
    path.touch()
    path.chmod(mode)
    a.save(path)
    assert path.read_text().startswith("ljserve checkpoint 1\n") and stat.S_IMODE(path.stat().st_mode) == mode


@pytest.mark.parametrize("mask, mode", [(0o022, 0o644), (0o027, 0o640), (0o077, 0o600), (0o002, 0o664)])
def test_a_new_file_has_the_usual_mode(tmp_path: pathlib.Path, mask: int, mode: int) -> None:
    before = os.umask(mask)
    try:
        files.write_whole(tmp_path / "a", b"new\n")
        assert os.umask(mask) == mask
    finally:
        os.umask(before)
    assert stat.S_IMODE((tmp_path / "a").stat().st_mode) == mode


def test_nobody_knows_the_name_of_a_partial_file(a: Any, tmp_path: pathlib.Path) -> None:
    """A link by the name that it once had, in a folder that others can write to, leads nowhere."""
    (tmp_path / "victim").write_text("mine\n")
    (tmp_path / f"a.saved.{os.getpid()}.part").symlink_to("victim")
    a.save(tmp_path / "a.saved")
    assert (tmp_path / "victim").read_text() == "mine\n" and not (tmp_path / "a.saved").is_symlink()


OTHERS = [(TOP / "LICENSE").read_bytes(), b"x", b"ljserve record 1\n", b"ljserve checkpoin", b"\0" * 100]


@pytest.mark.parametrize("data", OTHERS, ids=["licence", "byte", "record", "cut", "zeros"])
def test_a_session_is_not_saved_in_place_of_something_else(a: Any, tmp_path: pathlib.Path, data: bytes) -> None:
    path = tmp_path / "a.saved"
    path.write_bytes(data)
    ways: List[Callable[[], object]] = [lambda: a.save(path), lambda: a.advance(5, save=path)]
    for way in ways:
        with pytest.raises(ValueError, match="cannot write .*a.saved: it exists and is not a saved session; use another name"):
            way()
    assert path.read_bytes() == data and os.listdir(tmp_path) == ["a.saved"] and a.get_step() == 0


OWN = [b"", b"ljserve checkpoint 1\n", b"ljserve checkpoint 2\nof a later version\n"]


@pytest.mark.parametrize("data", OWN, ids=["empty", "cut", "later"])
def test_a_saved_session_or_an_empty_file_is_replaced(a: Any, tmp_path: pathlib.Path, data: bytes) -> None:
    path = tmp_path / "a.saved"
    path.write_bytes(data)
    a.save(path)
    a.save(path)
    assert path.read_text().startswith("ljserve checkpoint 1\n") and path.read_text().endswith(" end\n")


def test_an_interrupt_saves_what_was_come_to(a: Any, tmp_path: pathlib.Path) -> None:
    path, seen = tmp_path / "a.saved", [0]
    with interrupted_when(lambda: seen[-1] > 0):
        a.advance(100_000_000, progress=lambda done, _: seen.append(done), save=path, seconds=3600)
    back = a._user.load_saved(path, "back")
    assert back.get_step() == a.get_step() > 0
    assert listed(back.places()) == listed(a.places())


def test_an_interrupt_of_the_interrupt_leaves_the_older_one(a: Any, tmp_path: pathlib.Path, monkeypatch: pytest.MonkeyPatch) -> None:
    path = tmp_path / "a.saved"
    a.save(path)
    whole = path.read_bytes()

    def interrupt(*_: Any) -> None:
        raise KeyboardInterrupt

    def tell(done: int, total: int) -> None:
        monkeypatch.setattr(os, "replace", interrupt)
        interrupt()

    with pytest.raises(KeyboardInterrupt):
        a.advance(5, progress=lambda done, total: tell(done, total) if done else None, save=path)
    assert (path.read_bytes(), os.listdir(tmp_path), a.get_step()) == (whole, ["a.saved"], 5)


def users(*words: Any) -> Any:
    return subprocess.run([sys.executable, str(TOP / "tools" / "users"), "ann", *words], capture_output=True, text=True, timeout=60)


def test_users_leaves_a_fifo_as_it_is(fifo: Any) -> None:
    told = users("--out", str(fifo.parent / "users"), "--slips", str(fifo), "--replace")
    assert (told.returncode, is_fifo(fifo), os.listdir(fifo.parent)) == (1, True, ["fifo"])
    assert "fifo: it is not a regular file (nothing was changed); use another name" in told.stderr


def test_users_writes_the_file_behind_a_link(tmp_path: pathlib.Path) -> None:
    link, target = tmp_path / "link", tmp_path / "users.txt"
    target.write_text("older\n")
    link.symlink_to("users.txt")
    assert users("--out", str(link), "--replace").returncode == 0
    assert link.is_symlink() and " 8 16384 16\n" in target.read_text()
    assert stat.S_IMODE(target.stat().st_mode) == 0o600


def test_users_and_slips_are_not_one_file_behind_a_link(tmp_path: pathlib.Path) -> None:
    (tmp_path / "link").symlink_to("users.txt")
    told = users("--out", str(tmp_path / "link"), "--slips", str(tmp_path / "users.txt"), "--replace")
    assert (told.returncode, os.listdir(tmp_path)) == (2, ["link"])
