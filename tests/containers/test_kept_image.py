"""The image of a front that keeps what users have, and the life of its containers. What is kept is in their volume alone.

LJSERVE_CONTAINERS names a folder with base.tar, which `packaging/container base FOLDER` has made; without it this is skipped. The
packages of packaging/deb may be there too, so that they are not made anew."""
from __future__ import annotations

import contextlib
import os
import re
import shlex
import shutil
import signal
import socket
import subprocess
import sys
from pathlib import Path
from typing import Any, Iterator, List

import ljclient
import pytest
from pods import TOP, USER, Container, Podman, made, needs, until
from test_manifests import compose
from test_server_image import settings_of

sys.path.append(str(TOP / "bench"))
from keep_trials.cluster import Cluster, missing  # noqa: E402

TOKEN = "a" * 32
USERS = f"ann {TOKEN} 8 16384 16\nben {TOKEN[1:]}b 8 16384 16\n"
BODY = b"2\ndimer\nAr 0 0 0\nAr 1.5 0 0\n"
LOAD = b"LOAD a 256 1 131072 rest %d\n%s" % (len(BODY), BODY)
# What is done in one container after the other.
PARTS = [
    LOAD + b"ADVANCE a 1\nBRANCH a b\nDUMP a\n",
    b"ADVANCE a 1\nMEASURE a\nDUMP a\n",
    b"LIST\nREVERSE a\nADVANCE a 2\nMEASURE a\nDUMP a\n",
]
CHECK = compose()["services"]["front1"]["healthcheck"]["test"][1:]
BASE = Path(os.environ.get("LJSERVE_CONTAINERS", "."), "base.tar")
pytestmark = pytest.mark.skipif(not BASE.is_file(), reason="LJSERVE_CONTAINERS names no folder with base.tar")
# The other program is begun in this one's place, so that the packages are made in half the time.
STAND_IN = '#!/bin/sh\nexec "$(dirname "$(readlink -f "$0")")/ljserve-v2" "$@"\n'


def expected(parts: List[bytes]) -> List[bytes]:
    """What the reference, another program, replies to each of some parts."""
    command = [sys.executable, str(TOP / "conformance" / "reference.py")]
    told = [b""]
    for count in range(len(parts)):
        done = subprocess.run(command, input=b"".join(parts[: count + 1]), capture_output=True, check=True, timeout=60)
        told.append(done.stdout)
    return [after[len(before) :] for before, after in zip(told, told[1:])]


@pytest.fixture(scope="module")
def packages(tmp_path_factory: pytest.TempPathFactory) -> Path:
    """The two packages: those that are there, or new ones of the program that is tried."""
    needs("dpkg-deb", "buildah")
    if [*BASE.parent.glob("*.deb")]:
        return BASE.parent
    needs("dpkg-buildpackage")
    told = subprocess.run(["dpkg-checkbuilddeps", TOP / "packaging" / "debian" / "control"], capture_output=True, text=True)
    if told.returncode:
        pytest.skip(told.stderr.strip().rpartition("error: ")[2])
    programs, folder = tmp_path_factory.mktemp("programs"), tmp_path_factory.mktemp("packages")
    shutil.copy(os.environ["LJSERVE"], programs / "ljserve-v2")
    (programs / "ljserve-v3").write_text(STAND_IN)
    (programs / "ljserve-v3").chmod(0o755)
    environment = {**os.environ, "SOURCE_DATE_EPOCH": "1700000000", "PYTHONDONTWRITEBYTECODE": "1"}
    subprocess.run([TOP / "packaging" / "deb", programs, folder], env=environment, check=True, capture_output=True, timeout=1200)
    return folder


def image_of(packages: Path, folder: Path, date: str) -> List[str]:
    """The archive and the id of an image of the packages, with a date."""
    (folder / "base.tar").symlink_to(BASE.resolve())
    return made("kept", packages, folder, date=date).split()


@pytest.fixture(scope="module")
def image(packages: Path, tmp_path_factory: pytest.TempPathFactory) -> List[str]:
    return image_of(packages, tmp_path_factory.mktemp("first"), "1700000000")


@pytest.fixture(scope="module")
def kept(podman: Podman, loaded: str, image: List[str]) -> str:
    """The id of the image, which podman has."""
    assert loaded
    podman.load(image[0])
    return image[1]


@pytest.fixture
def users(tmp_path: Path) -> str:
    """The option by which a container has its users."""
    (tmp_path / "users").write_text(USERS)
    (tmp_path / "users").chmod(0o444)
    return f"--volume={tmp_path / 'users'}:/etc/ljserve/users:ro"


@pytest.fixture
def volume(podman: Podman, tmp_path: Path) -> str:
    """The option by which a container has a volume of this test."""
    return f"--volume={tmp_path.name}:/var/lib/ljserve"


def is_well(container: Container) -> bool:
    """Whether the check of compose.yaml finds it well."""
    with contextlib.suppress(AssertionError):
        container.run(*CHECK)
        return True
    return False


@contextlib.contextmanager
def connected(container: Container, name: str = "ann") -> Iterator[Any]:
    """A connection of a user, who is let in."""
    until(lambda: is_well(container))
    token = {each.split()[0]: each.split()[1] for each in USERS.splitlines()}[name]
    with socket.create_connection((container.address(), 4000), 60) as stream:
        assert replies(stream, b"HELLO %s %s\n" % (name.encode(), token.encode()), 9 + len(name) + 1) == b"OK HELLO %s\n" % name.encode()
        yield stream


def replies(stream: Any, sent: bytes, length: int) -> bytes:
    """What is replied, up to so many bytes."""
    stream.sendall(sent)
    told = b""
    while len(told) < length and (more := stream.recv(length - len(told))):
        told += more
    return told


def server_of(container: Container) -> int:
    """The number of the process of the server in a container."""
    (number,) = [number for number, words in container.processes().items() if " serve " in words and "ljserve-keep" not in words]
    return number


def test_what_it_says_of_itself(image: List[str]) -> None:
    said = settings_of(image[0])["config"]
    assert (said["User"], said["ExposedPorts"], said["Volumes"]) == (f"{USER}:{USER}", {"4000/tcp": {}}, {"/var/lib/ljserve": {}})
    assert (said["Entrypoint"], said["StopSignal"]) == (["/usr/bin/ljserve-keep"], "SIGTERM")


def test_the_same_packages_base_and_date_give_the_same_bytes(image: List[str], packages: Path, tmp_path: Path) -> None:
    archive, number = image_of(packages, tmp_path, "1700000000")
    assert number == image[1] and Path(archive).read_bytes() == Path(image[0]).read_bytes()


def test_it_has_no_user_and_no_token(podman: Podman, kept: str) -> None:
    words = ["/etc/ljserve", "/var/lib/ljserve", "-printf", "%p %m %U\\n"]
    container = podman.container(kept, "--entrypoint=/usr/bin/find", words=words)
    until(lambda: container.status() is not None)
    listed = podman.run("logs", container.name)
    container.remove()
    assert listed == f"/etc/ljserve 755 0\n/var/lib/ljserve 700 {USER}\n"


def test_sessions_outlast_containers_and_images(podman: Podman, kept: str, users: str, volume: str, packages: Path, tmp_path: Path) -> None:
    """Ended by TERM, killed, and begun of a later image: each goes on with the same volume, as if it had been one."""
    wanted = expected(PARTS)
    container = podman.container(kept, users, volume)
    with connected(container) as stream:
        assert replies(stream, PARTS[0], len(wanted[0])) == wanted[0]
    container.stop()
    assert container.status() == 0
    container.start()
    with connected(container) as stream:
        assert replies(stream, PARTS[1], len(wanted[1])) == wanted[1]
        container.kill()
    assert container.status() == 137
    container.remove()
    (tmp_path / "later").mkdir()
    archive, later = image_of(packages, tmp_path / "later", "1700000001")
    podman.load(archive)
    assert later != kept
    container = podman.container(later, users, volume)
    with connected(container) as stream:
        assert replies(stream, PARTS[2], len(wanted[2])) == wanted[2]
    container.remove()


def words_of_the_document() -> List[str]:
    """How docs/SERVER.md begins a container, behind `podman`."""
    (line,) = re.findall(r"^    podman (run .*)$", (TOP / "docs" / "SERVER.md").read_text(), re.M)
    return shlex.split(line)


def test_the_container_of_the_document(podman: Podman, kept: str, users: str, volume: str) -> None:
    """With names, a port and users of this test in place of those there, and limits that this machine may set."""
    with socket.create_server(("127.0.0.1", 0)) as free:
        port = free.getsockname()[1]
    own = {"ljserve": volume.replace("/", "-").rpartition("=")[2].partition(":")[0], "ljserve:/var/lib/ljserve": volume.partition("=")[2]}
    own.update({"./users:/etc/ljserve/users:ro": users.partition("=")[2], "127.0.0.1:4000:4000": f"127.0.0.1:{port}:4000"})
    *words, image = [own.get(word, word) for word in words_of_the_document()]
    assert image == f"ljserve-kept:{ljclient.__version__}"
    podman.run(*words, *podman.limits, kept)
    container = Container(podman, own["ljserve"])
    until(lambda: is_well(container))
    with socket.create_connection(("127.0.0.1", port), 60) as stream:
        assert replies(stream, f"HELLO ann {TOKEN}\n".encode(), 13) == b"OK HELLO ann\n"
    assert container.inspect()["Config"]["StopTimeout"] == 30
    container.stop()
    assert container.status() == 0
    container.remove()


def test_the_check_fails_while_no_server_answers(podman: Podman, kept: str, users: str, volume: str) -> None:
    container = podman.container(kept, users, volume)
    until(lambda: is_well(container))
    server = server_of(container)
    os.kill(server, signal.SIGSTOP)
    until(lambda: not is_well(container))
    until(lambda: is_well(container))
    assert server_of(container) != server
    container.remove()


def test_it_has_no_rights_and_writes_to_its_volume_alone(podman: Podman, kept: str, users: str, volume: str) -> None:
    """With a root that it could write."""
    container = podman.container(kept, users, volume, "--read-only=false")
    (wanted,) = expected(PARTS[:1])
    with connected(container) as stream:
        assert replies(stream, PARTS[0], len(wanted)) == wanted
    assert {each for row in container.users() for each in row} == {"\t".join(4 * [str(USER)])}
    container.stop()
    changed = {line.split()[1] for line in podman.run("diff", container.name).splitlines()}
    # What podman puts there itself.
    assert changed <= {"/etc", "/etc/ljserve", "/etc/ljserve/users", "/var", "/var/lib", "/var/lib/ljserve", "/etc/mtab", "/run"}
    container.remove()


def test_one_without_users_says_so(podman: Podman, kept: str, volume: str) -> None:
    container = podman.container(kept, volume)
    until(lambda: container.status() is not None)
    assert container.status() == 2
    assert "/etc/ljserve/users" in subprocess.run(podman.words("logs", container.name), capture_output=True, text=True).stderr
    container.remove()


@pytest.fixture
def database() -> Iterator[Cluster]:
    """A PostgreSQL of this machine, which containers reach by its folder."""
    if why := missing():
        pytest.skip(why)
    with contextlib.closing(Cluster()) as cluster:
        cluster.folder.chmod(0o755)
        yield cluster


def test_users_go_over_to_another_front(podman: Podman, kept: str, users: str, database: Cluster) -> None:
    """Two fronts over a database: where one is killed, the other one has its users, bit for bit."""
    wanted = expected(PARTS[:2])
    words = compose()["services"]["front1"]["command"]
    address = database.new()
    fronts = []
    for number in (1, 2):
        at = f"10.88.94.{number}"
        own = [f"{at}:4000" if word.startswith("10.") else address if "://" in word else word for word in words]
        fronts.append(podman.container(kept, users, f"--ip={at}", f"--volume={database.folder}:{database.folder}", words=own))
    with connected(fronts[0]) as stream:
        assert replies(stream, PARTS[0], len(wanted[0])) == wanted[0]
    # The other front has it passed on.
    with connected(fronts[1]) as stream:
        assert replies(stream, b"LIST\n", 10 + 8) == b"OK LIST 1\na 1 2 1\n"
        fronts[0].kill()
    with connected(fronts[1]) as stream:
        assert replies(stream, PARTS[1], len(wanted[1])) == wanted[1]
    for front in fronts:
        front.remove()
