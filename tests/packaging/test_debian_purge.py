"""The purge of the Debian package: it takes what docs/SERVER.md has an operator make, and says so before."""
import pathlib
import re
import subprocess
from typing import List, Set

import pytest

from support import SECONDS, TOP

SCRIPT = (TOP / "packaging" / "debian" / "ljserve.postrm").read_text()
SERVER = (TOP / "docs" / "SERVER.md").read_text()
UNITS = "/etc/systemd/system"
# `systemctl edit` and `systemctl enable` make the last ones.
MADE = [
    *sorted(set(re.findall(r"/etc/ljserve/\w+|/var/lib/ljserve(?:-\d)?", SERVER))),
    *(f"{UNITS}/{name}.service.d/override.conf" for name in ("ljserve", "ljserve-keep", "ljserve-keep@2")),
    *(f"{UNITS}/{name}" for name in ("ljserve@.service", "ljserve-keep@.service", "multi-user.target.wants/ljserve-keep@1.service")),
]
OF_SEVERAL = [path for path in MADE if re.search(r"/all|/shards|-\d$|@", path)]


def files_in(folder: pathlib.Path) -> Set[str]:
    """The files in a folder that stands for the machine's root."""
    return {f"/{path.relative_to(folder)}" for path in folder.rglob("*") if path.is_file()}


def make(folder: pathlib.Path, *paths: str) -> None:
    """Makes these files; a path that is a folder has a file of its own."""
    for path in paths:
        is_folder = re.search("/var/lib/|/run/|shards$", path)
        file = folder / path[1:] / "file" if is_folder else folder / path[1:]
        file.parent.mkdir(parents=True, exist_ok=True)
        file.write_text(path)


def purged(folder: pathlib.Path, word: str = "purge") -> List[str]:
    """The lines that the script prints, with a folder in place of the machine's root."""
    script = re.sub(r"(?<![\w*/])/(?=(?:etc|run|var)/)", f"{folder}/", SCRIPT)
    done = subprocess.run(["sh", "-c", script, "postrm", word], capture_output=True, text=True, timeout=SECONDS)
    assert (done.returncode, done.stderr) == (0, "")
    return done.stdout.replace(str(folder), "").splitlines()


def told(line: str) -> Set[str]:
    """The paths that a line names."""
    return set(re.findall(r"(?<=\s)/\S+", line))


def folder_of(path: str) -> str:
    """What is taken whole, where a file of it is made."""
    return path.replace("/override.conf", "")


def test_what_the_document_has_an_operator_make_is_told_and_taken(tmp_path: pathlib.Path) -> None:
    assert {"/etc/ljserve/users", "/etc/ljserve/slips", "/etc/ljserve/all", "/etc/ljserve/all_slips", "/etc/ljserve/shards"} < set(MADE)
    make(tmp_path, *MADE)
    (line,) = purged(tmp_path)
    assert line.startswith("ljserve: purge removes /") and told(line) == {folder_of(path) for path in MADE}
    assert files_in(tmp_path) == set() and not (tmp_path / "etc" / "ljserve").exists()
    assert purged(tmp_path) == []


def test_what_else_is_there_stays(tmp_path: pathlib.Path) -> None:
    others = ["/etc/ljserve/of_the_operator", "/var/lib/ljserver/of_another", f"{UNITS}/another.service", "/etc/default/haproxy"]
    make(tmp_path, *others, "/etc/ljserve/users")
    assert purged(tmp_path) == ["ljserve: purge removes /etc/ljserve/users"]
    assert {path.replace("/file", "") for path in files_in(tmp_path)} == set(others)


@pytest.mark.parametrize("running", ["/run/ljserve-keep-1", "/run/credentials/ljserve@1.service"])
def test_what_servers_that_run_have_stays(running: str, tmp_path: pathlib.Path) -> None:
    """Those are of a release that is unpacked beside the package."""
    make(tmp_path, *MADE, running)
    stays, goes = purged(tmp_path)
    assert stays.startswith("ljserve: a server of several runs, so these stay: /") and told(stays) == {
        folder_of(path) for path in OF_SEVERAL
    }
    assert told(goes) == {folder_of(path) for path in MADE if path not in OF_SEVERAL}
    assert len(files_in(tmp_path)) == len(OF_SEVERAL) + 1


def test_settings_of_haproxy_are_told(tmp_path: pathlib.Path) -> None:
    make(tmp_path, "/etc/default/haproxy")
    settings = re.findall(r"^    echo '(.*)' >> /etc/default/haproxy$", SERVER, re.M)
    assert len(settings) == 2
    (tmp_path / "etc/default/haproxy").write_text("\n".join(settings))
    (line,) = purged(tmp_path)
    assert line == "ljserve: /etc/default/haproxy still names a file in /etc/ljserve: take that line out"


@pytest.mark.parametrize("word", ["remove", "upgrade", "disappear"])
def test_a_removal_takes_nothing(word: str, tmp_path: pathlib.Path) -> None:
    make(tmp_path, *MADE)
    assert purged(tmp_path, word) == [] and len(files_in(tmp_path)) == len(MADE)
