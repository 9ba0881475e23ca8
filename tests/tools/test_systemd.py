"""The units of systemd: they parse, they say how much memory a service has, and root follows no link in a service's folder."""
import os
import pathlib
import re
import shutil
import subprocess
from typing import Any, Dict, List, Tuple

import pytest

from support import SECONDS, TOP

PACKAGING = TOP / "packaging"
UNITS = [
    "ljserve.service",
    "ljserve-keep.service",
    "haproxy/ljserve@.service",
    "haproxy/ljserve-keep@.service",
    "debian/ljserve.service",
    "debian/ljserve.ljserve-keep.service",
]
KEEPING = [unit for unit in UNITS if "keep" in unit]
SERVICE = 61234  # a user and a group that own nothing
USERS = "ann annExampleToken00000000000000001 8 16384 16\n"


def sections(unit: str) -> Dict[str, str]:
    """The text of each section of a unit."""
    parts = re.split(r"^\[(\w+)\]\n", (PACKAGING / unit).read_text(), flags=re.M)
    return dict(zip(parts[1::2], parts[2::2]))


@pytest.mark.parametrize("unit", UNITS)
def test_a_service_begins_anew_however_often_it_ended_and_has_a_limit_of_memory(unit: str) -> None:
    text = sections(unit)
    assert "\nStartLimitIntervalSec=0\n" in text["Unit"]
    assert "\nRestart=always\n" in text["Service"] and "\nOOMPolicy=continue\n" in text["Service"]
    ((taken, most),) = re.findall(
        r"^# 64 users .* take (\d+) MB.*\n(?:# .*\n)*OOMPolicy=continue\nMemoryMax=(\d+)G$", text["Service"], re.M
    )
    assert int(taken) < 1000 * int(most) / 2


@pytest.mark.parametrize("unit", UNITS)
def test_systemd_takes_each_line_of_a_unit(unit: str, tmp_path: pathlib.Path) -> None:
    if shutil.which("systemd-analyze") is None:
        pytest.skip("systemd is not installed")
    stand_in = tmp_path / "stand_in"
    stand_in.write_text("#!/bin/sh\n")
    stand_in.chmod(0o755)
    name = pathlib.Path(unit).name.replace("ljserve.ljserve-keep", "ljserve-keep")
    text = re.sub(r"(?:/opt/ljserve/(?:bin|tools)|/usr/bin)/(?:ljserve\S*|keep|users)", str(stand_in), (PACKAGING / unit).read_text())
    (tmp_path / name).write_text(text)
    words = ["systemd-analyze", "verify", "--man=no", str(tmp_path / name.replace("@", "@1"))]
    done = subprocess.run(words, capture_output=True, text=True, timeout=2 * SECONDS)
    assert (done.stdout, done.stderr) == ("", "")


def copying(unit: str) -> List[str]:
    """The lines of a unit that root runs, as the shell takes them."""
    lines = re.findall(r"^Exec(?:StartPre|Reload)=\+(/bin/sh .*)$", (PACKAGING / unit).read_text(), re.M)
    named = re.sub(r"(--re[ug]id|-o) ljserve", rf"\1 {SERVICE}", "\n".join(lines)).replace("%%", "%").replace("%i", "1")
    return named.splitlines()


class Folder:
    """A service's own folder, the users that only root can read, and what another owner has: a folder with a file."""

    def __init__(self, path: pathlib.Path) -> None:
        self.path, self.own, self.theirs = path, path / "own", path / "theirs"
        self.own.mkdir(mode=0o700)
        os.chown(self.own, SERVICE, SERVICE)
        self.theirs.mkdir(mode=0o700)
        self.users = path / "users"
        for file, text in ((self.users, USERS), (self.theirs / "file", "theirs")):
            file.write_text(text)
            file.chmod(0o600)
        self.copy = self.own / "users"

    def run(self, line: str) -> int:
        """The status of a line of a unit, run by root."""
        line = re.sub(r"/etc/ljserve/(shards/)?users1?", str(self.users), line)
        environment = {"PATH": "/usr/sbin:/usr/bin:/sbin:/bin", "RUNTIME_DIRECTORY": str(self.own)}
        return subprocess.run(["sh", "-c", line], env=environment, stderr=subprocess.DEVNULL, timeout=SECONDS).returncode

    def what_is_theirs(self) -> List[Tuple[Any, ...]]:
        """Names, owners, modes and texts of what the other owner has."""
        paths = sorted(self.theirs.rglob("*"))
        states = [(path, path.lstat()) for path in [self.theirs, *paths]]
        return [(path.name, state.st_uid, state.st_mode, path.read_text() if path in paths else "") for path, state in states]


@pytest.fixture
def folder(tmp_path: pathlib.Path) -> Folder:
    if os.geteuid() != 0:
        pytest.skip("only root can begin a service of another user")
    return Folder(tmp_path)


@pytest.mark.parametrize("target", ["", "file", ".", "new", "../users"])
@pytest.mark.parametrize("unit", KEEPING)
def test_root_follows_no_link_in_the_folder_of_a_service(unit: str, target: str, folder: Folder) -> None:
    """A link of the service to another owner's file or folder is replaced by the copy, and its target stays as it was."""
    before = folder.what_is_theirs()
    for line in copying(unit):
        folder.copy.unlink(missing_ok=True)
        if target:
            folder.copy.symlink_to(folder.theirs / target)
        assert folder.run(line) == 0
        assert folder.what_is_theirs() == before and folder.users.read_text() == USERS
        state = folder.copy.lstat()
        assert (state.st_uid, oct(state.st_mode), folder.copy.read_text()) == (SERVICE, "0o100400", USERS)
    assert len(copying(unit)) == 2 and folder.users.lstat().st_uid == 0


@pytest.mark.parametrize("unit", KEEPING)
def test_what_is_written_in_the_folder_of_a_service_is_written_with_its_rights(unit: str, folder: Folder) -> None:
    """Where the service may not write, nothing is written. So no link that it makes in the meantime can use the rights of root."""
    folder.own.chmod(0o500)
    for line in copying(unit):
        assert folder.run(line) != 0
        assert list(folder.own.iterdir()) == []


@pytest.mark.parametrize("unit", KEEPING)
def test_users_that_cannot_be_read_leave_the_copy_as_it_is(unit: str, folder: Folder) -> None:
    for line in copying(unit):
        assert folder.run(line) == 0
        folder.users.rename(folder.path / "away")
        assert folder.run(line) != 0 and folder.copy.read_text() == USERS
        (folder.path / "away").rename(folder.users)


@pytest.mark.parametrize("unit", KEEPING)
def test_users_with_a_fault_are_not_taken(unit: str, folder: Folder) -> None:
    """systemd skips all commands after one that fails: the copy, and the signal to the service."""
    check, *others = re.findall(r"^ExecReload=\+?(.*)$", (PACKAGING / unit).read_text(), re.M)
    assert [each.split()[0] for each in others] == ["/bin/sh", "/bin/kill"]
    check = re.sub("/usr/bin/ljserve-|/opt/ljserve/tools/", f"{TOP}/tools/", check).replace("%i", "1")
    assert folder.run(check) == 0
    folder.users.write_text(USERS + USERS)
    assert folder.run(check) == 1
