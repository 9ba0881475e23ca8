"""Podman, and an image of a server that listens and does no more: a program that is compiled here."""
from __future__ import annotations

import contextlib
import os
import shutil
import tempfile
from pathlib import Path
from typing import Iterator

import pytest
from pods import Podman, compiled, made, needs, podman_at


@pytest.fixture(scope="session")
def listener(tmp_path_factory: pytest.TempPathFactory) -> Path:
    """Such a program for this machine."""
    return compiled("cc", tmp_path_factory.mktemp("listener"))


@pytest.fixture(scope="session")
def podman() -> Iterator[Podman]:
    """A podman that has containers here. Its folder has a short path, since sockets are in it."""
    needs("podman")
    if os.getuid():
        pytest.skip("containers with a network of their own are tried as root")
    with contextlib.ExitStack() as stack:
        folder = Path(tempfile.mkdtemp(prefix="pods-", dir="/var/tmp"))
        stack.callback(shutil.rmtree, folder, ignore_errors=True)
        yield stack.enter_context(podman_at(folder))


@pytest.fixture(scope="session")
def server_image(listener: Path, tmp_path_factory: pytest.TempPathFactory) -> str:
    """The archive of an image of the listener."""
    needs("buildah")
    archive, _ = made("server", listener, tmp_path_factory.mktemp("images")).split()
    return archive


@pytest.fixture(scope="session")
def loaded(podman: Podman, server_image: str) -> str:
    """The name of that image, of which podman has begun a container here."""
    try:
        name = podman.load(server_image)
        podman.container(name).remove()
    except AssertionError as error:
        pytest.skip(f"podman has no containers here: {error}")
    return name
