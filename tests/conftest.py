"""The program that is tried, its servers over each kind of pool, and the libraries by which memory, reads and writes fail."""
import os
import shutil
from typing import Iterator

import pytest
from shared import shims
from shared.program import Program
from shared.served import Servers
from shared.serving import POOLS


@pytest.fixture(scope="session")
def program() -> Program:
    return Program(os.environ["LJSERVE"])


@pytest.fixture(params=POOLS)
def pool(request: pytest.FixtureRequest) -> str:
    """Each kind of pool in turn."""
    kind: str = request.param
    return kind


@pytest.fixture
def serve(program: Program, pool: str) -> Iterator[Servers]:
    """Begins servers over each kind of pool, and ends those that go on."""
    servers = Servers(program, pool)
    yield servers
    servers.end()


def library(name: str, folders: pytest.TempPathFactory) -> str:
    """A library that is put before the program's own, if it can be."""
    if shims.is_static(os.environ["LJSERVE"]):
        pytest.skip("the program is linked statically")
    if shutil.which("cc") is None:
        pytest.skip("cc is not installed")
    return shims.built(name, folders.mktemp(name))


@pytest.fixture(scope="session")
def refuse_memory(tmp_path_factory: pytest.TempPathFactory) -> str:
    return library("refuse_memory", tmp_path_factory)


@pytest.fixture(scope="session")
def fail_streams(tmp_path_factory: pytest.TempPathFactory) -> str:
    return library("fail_streams", tmp_path_factory)
