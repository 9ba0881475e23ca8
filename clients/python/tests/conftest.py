"""What the tests of the client share: the package on the path, a program, a server, a relay that speaks TLS in front of it, and a
browser."""
import pathlib
import sys
from typing import Any, Iterator

import pytest

sys.path.insert(0, str(pathlib.Path(__file__).resolve().parents[1]))
from browsing import Browser  # noqa: E402
from cuts import Where, served  # noqa: E402
from ljclient import run  # noqa: E402
from relays import Relay, certificate  # noqa: E402
from support import PROGRAM, Server  # noqa: E402


@pytest.fixture
def user() -> Iterator[Any]:
    """The user of a program of its own."""
    with run(PROGRAM) as user:
        yield user


@pytest.fixture
def server() -> Iterator[Any]:
    """A server of the user `ann`."""
    with Server() as one:
        yield one


@pytest.fixture(scope="module", params=["lock", "queue", "keep"])
def where(request: Any, tmp_path_factory: pytest.TempPathFactory) -> Iterator[Where]:
    """A server over each pool, and one behind `tools/keep`, for connections that are cut."""
    with served(request.param, tmp_path_factory.mktemp("kept")) as where:
        yield where


@pytest.fixture
def state(tmp_path: pathlib.Path, monkeypatch: pytest.MonkeyPatch) -> pathlib.Path:
    """The folder of the client's notes, which is one of the test."""
    monkeypatch.setenv("XDG_STATE_HOME", str(tmp_path / "state"))
    return tmp_path / "state" / "ljclient"


@pytest.fixture(scope="session")
def good(tmp_path_factory: pytest.TempPathFactory) -> Any:
    """The certificate of the relay, which is its own issuer, and its key."""
    return certificate(tmp_path_factory.mktemp("good"), "good")


@pytest.fixture(scope="session")
def other(tmp_path_factory: pytest.TempPathFactory) -> Any:
    """A certificate of another issuer, and its key."""
    return certificate(tmp_path_factory.mktemp("other"), "other")


@pytest.fixture
def relay(server: Any, good: Any) -> Iterator[Any]:
    with Relay(server.port, good) as one:
        yield one


@pytest.fixture(scope="module")
def browser() -> Iterator[Any]:
    with Browser() as one:
        yield one
