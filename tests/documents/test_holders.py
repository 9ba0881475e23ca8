"""One name for who holds the rights and keeps the packages, wherever it stands."""
import re

import pytest

from blocks import TOP

NAME = "The ljserve developers"
PLACES = {
    "LICENSE": r"^Copyright \(c\) \d+ (.*)$",
    "CITATION.cff": r"^authors:\n  - name: (.*)$",
    "clients/python/pyproject.toml": r'^authors = \[\{name = "(.*)"\}\]$',
    "packaging/ljserve/pyproject.toml": r'^authors = \[\{name = "(.*)"\}\]$',
    "packaging/debian/control": r"^Maintainer: (.*) <.*>$",
    "docs/api/conf.py": r'^copyright = "(.*)"$',
}


@pytest.mark.parametrize("path", PLACES)
def test_the_name_is_one(path: str) -> None:
    assert re.findall(PLACES[path], (TOP / path).read_text(), re.M) == [NAME]
