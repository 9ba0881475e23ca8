"""Modules that are imported when they are first used, since `import ljclient` would take twice as long with them."""
from __future__ import annotations

import importlib
from typing import Any


class Later:
    """A placeholder for a module of this package or of Python, until it is used. Type checkers see the module itself."""

    def __init__(self, name: str):
        self._name = name

    def __getattr__(self, name: str) -> Any:
        return getattr(importlib.import_module(self._name, __package__), name)
