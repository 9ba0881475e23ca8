"""Names of functions in the client and the tools: what is named as a question or a statement gives an answer."""
from __future__ import annotations

import ast
import re
from pathlib import Path
from typing import Iterator, List

import pytest
from test_style import TOP, is_python

FOLDERS = ("clients/python/ljclient", "tools")
STATEMENT = re.compile(r"_?(?:(?:is|has|may|can)_|(?:says|tells)(?:_|$))")


def misnamed(text: str) -> List[str]:
    """The functions of a file that do something, and whose name asks or states something."""
    functions = [each for each in ast.walk(ast.parse(text)) if isinstance(each, (ast.FunctionDef, ast.AsyncFunctionDef))]
    told = [(each.lineno, each.name) for each in functions if isinstance(each.returns, ast.Constant) and each.returns.value is None]
    return [f"line {line}: {name}: say what it does, such as note_.." for line, name in sorted(told) if STATEMENT.match(name)]


def files() -> Iterator[Path]:
    for folder in FOLDERS:
        yield from (path for path in sorted((TOP / folder).rglob("*")) if is_python(path))


def test_what_does_something_is_named_by_an_imperative() -> None:
    found = {str(path.relative_to(TOP)): told for path in files() if (told := misnamed(path.read_text()))}
    assert len(list(files())) > 150 and found == {}


@pytest.mark.parametrize("name", ["is_let_in", "_has_ended", "may_go", "says", "_tells", "says_so"])
def test_a_statement_that_answers_nothing_is_found(name: str) -> None:
    head, none = f"def {name}(self)", f"line 2: {name}: say what it does, such as note_.."
    assert misnamed(f"class A:\n    {head} -> None: ...\n") == [none]
    assert misnamed(f"class A:\n    async {head} -> None: ...\n") == [none]
    assert misnamed(f"class A:\n    {head} -> bool: ...\n") == []


@pytest.mark.parametrize("name", ["note", "island", "hash", "say"])
def test_an_imperative_is_fine(name: str) -> None:
    assert misnamed(f"def {name}() -> None: ...\n") == []
