"""What the table of bins does to chaos is told where a user begins to look: in documents, examples and what help tells."""
import ast
from typing import Any, Dict

import pytest

import ljclient
from ljclient.prompt.helping import help_on
from support import EXAMPLES, TOP


def document(name: str) -> str:
    return (TOP / name).read_text()


def example(name: str) -> str:
    """What an example says of itself."""
    return ast.get_docstring(ast.parse((EXAMPLES / name).read_text())) or ""


TOLD: Dict[str, Any] = {
    "README.md": lambda: document("README.md"),
    "docs/ACCURACY.md": lambda: document("docs/ACCURACY.md"),
    "docs/api/examples.md": lambda: document("docs/api/examples.md"),
    "examples/butterfly.py": lambda: example("butterfly.py"),
    "examples/lyapunov.py": lambda: example("lyapunov.py"),
    "help(ljclient.Session.tug)": lambda: str(ljclient.Session.tug.__doc__),
    "help TUG": lambda: "\n".join(help_on("TUG")),
}


@pytest.mark.parametrize("place", TOLD)
def test_runs_nearer_than_a_bin_part_faster(place: str) -> None:
    text = " ".join(TOLD[place]().split())
    assert "two to three times as fast" in text and "1/256" in text and "Lyapunov exponent" in text
