"""What all tests share: the program that they try, which LJSERVE names, or else the built one; and the options of pytest."""
import os
import platform
import sys
from pathlib import Path
from typing import List

import pytest
from shared.program import program_at

TOP = Path(__file__).resolve().parent
# Old names of the client, which a user of 1.1.0 may use, and nothing here: a warning of one is an error, in other processes too.
OLD_NAMES = [f"error:{kind}.:DeprecationWarning" for kind in ("ClientError", "Motion", "Order", "Session", "User", "units")]
BY_FILE = [TOP / "clients" / "python" / "tests", *(TOP / "tests" / name for name in ("conformance", "documents", "packaging", "tools"))]
AT_ONCE = TOP / "tests" / "wasm"


def pytest_addoption(parser: pytest.Parser) -> None:
    parser.addoption("--connections", type=int, default=10_000, help="how many short connections are made in turn (10,000)")
    parser.addoption("--students", type=int, default=7, help="how many students the trial of a class has (7); 20 make the whole of it")


def pytest_configure(config: pytest.Config) -> None:
    for line in OLD_NAMES:
        config.addinivalue_line("filterwarnings", line)
    os.environ.setdefault("PYTHONWARNINGS", ",".join(OLD_NAMES))


def pytest_report_header() -> str:
    return f"Python {platform.python_version()}: {sys.executable}"


@pytest.hookimpl(tryfirst=True)  # type: ignore[misc]
def pytest_sessionstart(session: pytest.Session) -> None:
    """The program is there before processes of pytest-xdist begin, so that they don't build it side by side."""
    if not session.config.option.collectonly:
        os.environ["LJSERVE"] = program_at(os.environ.get("LJSERVE"))


def pytest_collection_modifyitems(items: List[pytest.Item]) -> None:
    """A file of the client, the tools, the packages or the documents is tried in one process, and so are all files of other machines, since
    tests share what takes long to make."""
    for item in items:
        if item.path.is_relative_to(AT_ONCE):
            item.add_marker(pytest.mark.xdist_group(AT_ONCE.name))
        elif any(item.path.is_relative_to(folder) for folder in BY_FILE):
            item.add_marker(pytest.mark.xdist_group(item.path.name))
