"""Docstrings of public names: numpydoc finds nothing in them, but for what is written otherwise here."""
import importlib
import importlib.util
import inspect
import pathlib
import pkgutil
import re
import warnings
from typing import Any, Iterator, List, Tuple

import pytest

import ljclient
from ljclient.renamed import Renamed

pytest.importorskip("numpydoc", reason="numpydoc is not installed")
pytest.importorskip("numpy", reason="numpy is not installed")

CLIENT = pathlib.Path(ljclient.__file__).resolve().parent
# Findings that are none here, each with the reason.
LEFT_OUT = {
    "ES01": "one line is enough where it says all",
    "EX01": "an example stands where it helps",
    "SA01": "what else to see stands in backquotes in the text",
    "GL01": "the text begins beside the quotes, as PEP 257 has it",
    "GL02": "a docstring of one paragraph has its quotes beside it",
    "SS05": "the first line says what is done, not what to do",
}


def modules() -> Iterator[str]:
    """The modules that are public names of the package, and those that say themselves what is public."""
    for found in pkgutil.walk_packages([str(CLIENT)], "ljclient."):
        spec = importlib.util.find_spec(found.name)
        assert spec is not None and spec.origin is not None
        name = found.name.partition(".")[2]
        is_named = name in ljclient.__all__ and inspect.ismodule(getattr(ljclient, name))
        if is_named or "\n__all__ = " in pathlib.Path(spec.origin).read_text():
            yield found.name


def is_of_client(member: Any) -> bool:
    """Whether a member of a class is a function or a property of the client, and no name of before."""
    code = next((each for each in (getattr(member, name, None) for name in ("fget", "func", "__func__")) if each), member)
    return inspect.isfunction(code) and code.__module__.startswith("ljclient") and not isinstance(member, Renamed)


def members(kind: type) -> List[str]:
    """The public members of a class, but for what makes one of the numbers of a reply."""
    static = {name: inspect.getattr_static(kind, name) for name in dir(kind) if not name.startswith("_") and name != "of"}
    return [name for name, member in static.items() if is_of_client(member)]


def of_module(module: str) -> Iterator[str]:
    """The public names of a module: those that it says, or its own functions and classes."""
    values = vars(importlib.import_module(module))
    own = [name for name, value in values.items() if name[0] != "_" and getattr(value, "__module__", "") == module]
    for name in values.get("__all__", own):
        if name not in ljclient.__all__ and (inspect.isclass(values[name]) or inspect.isfunction(values[name])):
            yield f"{module}.{name}"
            yield from (f"{module}.{name}.{each}" for each in (members(values[name]) if inspect.isclass(values[name]) else []))


def names() -> List[str]:
    """All public names."""
    found = [f"ljclient.{name}" for name in ljclient.__all__ if not inspect.ismodule(getattr(ljclient, name))]
    classes = [(name, getattr(ljclient, name.partition(".")[2])) for name in found]
    found += [f"{name}.{each}" for name, kind in classes if inspect.isclass(kind) for each in members(kind)]
    for module in modules():
        try:
            found += of_module(module)
        except ModuleNotFoundError:
            continue
    return sorted(set(found))


def findings(name: str) -> List[Tuple[str, str]]:
    """What numpydoc says of a name. A class without `Parameters` is given to users, who do not make it, or has its `Attributes` alone."""
    validating: Any = importlib.import_module("numpydoc.validate")
    with warnings.catch_warnings():
        warnings.simplefilter("ignore")
        told = validating.validate(name)
    is_given = told["type"] == "type" and not re.search(r"^ *Parameters\n *-+$", told["docstring"], re.M)
    return [(code, text) for code, text in told["errors"] if code not in LEFT_OUT and not (is_given and code == "PR01")]


def test_docstrings_are_those_of_numpydoc() -> None:
    public = names()
    assert len(public) > 250 and {"ljclient.Session.n_atoms", "ljclient.reversal.echo", "ljclient.analysis.Rdf.result"} <= set(public)
    assert {name: found for name in public if (found := findings(name))} == {}


@pytest.mark.parametrize(
    ("text", "code"),
    [
        ("Goes on.", "PR01"),
        ("Goes on.\n\n    Parameters\n    ----------\n    n : int\n        how many.\n    ", "PR08"),
        ("Goes on.\n\n    Parameters\n    ----------\n    n\n        How many.\n    ", "PR04"),
        ("Goes on", "SS03"),
        (None, "GL08"),
    ],
)
def test_a_docstring_that_lacks_something_is_found(monkeypatch: pytest.MonkeyPatch, text: Any, code: str) -> None:
    monkeypatch.setattr(ljclient.Session.advance, "__doc__", text)
    assert code in [found for found, _ in findings("ljclient.Session.advance")]
