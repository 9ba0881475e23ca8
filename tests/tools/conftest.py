"""Fixtures that the tests of the tools share: a server, and a PostgreSQL."""
import contextlib
from typing import Any, Iterator

import pytest
from keepers import Cluster, missing
from support import Server


@pytest.fixture
def server() -> Iterator[Any]:
    """A server of the user `ann`."""
    with Server() as one:
        yield one


@pytest.fixture(scope="session")
def cluster() -> Iterator[Any]:
    """A PostgreSQL of its own."""
    if why := missing():
        pytest.skip(why)
    with contextlib.closing(Cluster()) as one:
        yield one
