"""numpy is imported when arrays are asked for, and not before: a prompt would begin with twice the wait."""
import subprocess
import sys
from typing import Any

import pytest

from support import ARGON, EXAMPLES, SECONDS
from terminals import environment

pytest.importorskip("numpy", reason="numpy is not installed")

PROMPT = "from ljclient.prompt import main; main([])"
PLACES = f"""\
from ljclient import run
with run() as user:
    argon = user.load("argon", {str(EXAMPLES / "argon_256.xyz")!r}, **{ARGON!r}, watch=False)
    argon.advance(2)
    print("numpy" in sys.modules)
    places = argon.places()
    print(places.shape, places.dtype)
"""


def last_words(text: Any, stream: str = "") -> Any:
    """What a script writes, which at last tells whether numpy was imported."""
    script = f"import sys\n{text}\nprint('numpy' in sys.modules)"
    words = [sys.executable, "-c", script]
    return subprocess.run(words, input=stream, capture_output=True, text=True, timeout=SECONDS, env=environment()).stdout


def test_a_prompt_does_without() -> None:
    assert last_words(PROMPT, "LIST\n") == "OK LIST 0\nFalse\n"


def test_a_run_does_without_until_places_are_asked_for() -> None:
    assert last_words(PLACES) == "False\n(256, 3) int64\nTrue\n"
