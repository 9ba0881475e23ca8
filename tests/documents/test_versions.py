"""The version that each file tells is the newest of the list of changes."""
import pytest
from shared.launching import newest_version
from shared.program import contents

TOLD = {
    "CITATION.cff": f"version: {newest_version()}\n",
    "clients/python/ljclient/__init__.py": f'__version__ = "{newest_version()}"\n',
    "tools/ljtools/__init__.py": f'__version__ = "{newest_version()}"\n',
    "clients/javascript/package.json": f'"version": "{newest_version()}",\n',
    "clients/python/pyproject.toml": 'version = {attr = "ljclient.__version__"}\n',
    "tools/pyproject.toml": 'version = {attr = "ljtools.__version__"}\n',
}


@pytest.mark.parametrize("name", TOLD)
def test_the_newest_version_is_told(name: str) -> None:
    assert TOLD[name].encode() in contents(name)
