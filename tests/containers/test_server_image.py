"""The image of the server alone: its bytes, and a container of it."""
from __future__ import annotations

import json
import shutil
import socket
import tarfile
from pathlib import Path
from typing import Any, Dict

import pytest
from pods import USER, Podman, compiled, made, until


def settings_of(archive: str) -> Any:
    """The settings of an image, whose sum is its id."""
    with tarfile.open(archive) as files:

        def read(digest: str) -> Any:
            return json.load(files.extractfile(f"blobs/{digest.replace(':', '/')}") or pytest.fail(digest))

        (entry,) = json.load(files.extractfile("index.json") or pytest.fail("index.json"))["manifests"]
        return read(read(entry["digest"])["config"]["digest"])


def files_of(archive: str) -> Dict[str, tarfile.TarInfo]:
    """The files of an image that has one layer."""
    with tarfile.open(archive) as files:
        (entry,) = json.load(files.extractfile("index.json") or pytest.fail("index.json"))["manifests"]
        manifest = json.load(files.extractfile(f"blobs/{entry['digest'].replace(':', '/')}") or pytest.fail("manifest"))
        (layer,) = manifest["layers"]
        with tarfile.open(fileobj=files.extractfile(f"blobs/{layer['digest'].replace(':', '/')}")) as inside:
            return {each.name: each for each in inside}


def answer(address: str) -> bytes:
    """What a server at port 4000 replies to five bytes, or nothing."""
    try:
        with socket.create_connection((address, 4000), 5) as stream:
            stream.sendall(b"HELLO")
            return stream.recv(5)
    except OSError:
        return b""


def test_it_is_one_file(server_image: str, listener: Path) -> None:
    (program,) = files_of(server_image).values()
    assert (program.name, program.uid, program.gid, program.mode & 0o777) == ("ljserve", 0, 0, 0o755)
    assert (program.size, program.mtime) == (listener.stat().st_size, 1700000000)


def test_what_it_says_of_itself(server_image: str) -> None:
    settings = settings_of(server_image)
    said = settings["config"]
    assert (settings["architecture"], settings["os"]) == ("amd64", "linux")
    assert (said["User"], said["ExposedPorts"], said["StopSignal"]) == (f"{USER}:{USER}", {"4000/tcp": {}}, "SIGKILL")
    assert said["Entrypoint"] == ["/ljserve"] and said["Cmd"][:3] == ["serve", "--listen", "0.0.0.0:4000"]
    assert said["Labels"]["org.opencontainers.image.version"] == "1.2.3"


def test_the_same_program_and_date_give_the_same_bytes(server_image: str, listener: Path, tmp_path: Path) -> None:
    archive, image = made("server", listener, tmp_path / "again").split()
    assert Path(archive).read_bytes() == Path(server_image).read_bytes()
    assert made("server", listener, tmp_path / "later", date="1700000001").split()[1] != image


def test_an_image_for_arm64(tmp_path: Path) -> None:
    if shutil.which("qemu-aarch64") is None:
        pytest.skip("qemu-aarch64 is not installed, which asks the program for its version")
    program = compiled("aarch64-linux-gnu-gcc", tmp_path)
    archive, _ = made("server", program, tmp_path / "images").split()
    settings = settings_of(archive)
    assert (settings["architecture"], settings["os"]) == ("arm64", "linux") and archive.endswith("-arm64.oci.tar")
    assert settings["config"]["Labels"]["org.opencontainers.image.version"] == "1.2.3"
    assert files_of(archive)["ljserve"].size == program.stat().st_size


WRONG = {
    "no program": (b"#!/bin/sh\n", 70, "must be a program of Linux of 64 bits"),
    "another processor": (b"\x7fELF\x02\x01" + bytes(12) + b"\xf3\x00" + bytes(44), 70, "must be for x86-64 or arm64"),
}


@pytest.mark.parametrize("head, status, why", WRONG.values(), ids=WRONG)
def test_another_file_is_refused(head: bytes, status: int, why: str, tmp_path: Path) -> None:
    (tmp_path / "program").write_bytes(head)
    assert why in made("server", tmp_path / "program", tmp_path / "images", status=status)
    assert not [*(tmp_path / "images").iterdir()]


def test_a_program_that_needs_libraries_is_refused(tmp_path: Path) -> None:
    assert "must be linked statically" in made("server", "/bin/ls", tmp_path, status=70)


def test_a_container_serves_without_rights(podman: Podman, loaded: str) -> None:
    container = podman.container(loaded)
    assert until(lambda: answer(container.address())) == b"HELLO"
    assert container.users() == 2 * [["\t".join(4 * [str(USER)])]]
    container.remove()


def test_a_stop_waits_for_nothing(podman: Podman, loaded: str) -> None:
    container = podman.container(loaded)
    assert until(lambda: answer(container.address()))
    address = container.address()
    container.stop()
    assert container.status() == 137 and answer(address) == b""
    container.start()
    assert until(lambda: answer(container.address()))
    container.remove()
