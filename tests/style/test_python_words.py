"""The words of texts in Python: no string or docstring of the client and the tools has a word that has a plainer one."""
from __future__ import annotations

import ast
import re
import subprocess
from pathlib import Path
from typing import Dict, Iterator, List, NamedTuple, Tuple

import pytest

TOP = Path(__file__).resolve().parents[2]
FOLDERS = ("clients/python/ljclient", "tools", "bin", "packaging", "bench")


class Plainer(NamedTuple):
    """A word that is not used: a pattern that finds it, what to write instead, and a text that has it."""

    pattern: str
    instead: str
    found_in: str


WORDS: Dict[str, Plainer] = {
    "anew": Plainer(r"anew", "again", "The atoms are loaded anew."),
    "at fault": Plainer(r"at fault", "wrong", "The status is 1 where something is at fault."),
    "heed": Plainer(r"heed(s|ed|ing)?", "obey", "A terminal heeds its bytes."),
    "held against": Plainer(r"held\s+against", "compared with", "Replies are held against the reference."),
    "is none": Plainer(r"(?<!there )(is|are)\s+(?-i:none)", "is not one, or what it must be", "The words are none."),
    "not said": Plainer(r"(not|nothing|none|nobody|else)\s+((is|are|was|were|has|have)\s+)?said", "by default", "20 where it is not said."),
    "otherwise than": Plainer(r"otherwise\s+than", "differently from", "It computes otherwise than the first one."),
    "passed over": Plainer(r"pass(es|ed)?\s+over", "skipped", "Lines without a word are passed over."),
    "whatever ends it": Plainer(r"whatever\s+ends", "however it ends", "It ends with its parent, whatever ends that."),
    "where it is not": Plainer(r"where\s+(it|they)\s+(is|are)\s+not", "if it is not", "It is made where it is not there."),
    "words are off": Plainer(r"words\s+are\s+(none|off)", "the command line is wrong", "Status 2: the words are off."),
}
# Strings that are no texts: names of events in a log, and a signature of the kit.
NO_TEXTS = ("begins anew", "not begun anew", "rtlib.Crate.build_rlib(self,flags,anew)")


def is_python(path: Path) -> bool:
    """Whether a file is Python, by its ending or its first line."""
    if path.suffix or not path.is_file():
        return path.suffix == ".py" and path.is_file()
    with path.open("rb") as file:
        return re.match(rb"#!.*\bpython3?$", file.readline(100).rstrip()) is not None


def python_files() -> List[str]:
    """The Python of these folders, also what is not committed yet; none if this is not a clone."""
    words = ["git", "-C", str(TOP), "ls-files", "-z", "--cached", "--others", "--exclude-standard", "--", *FOLDERS]
    done = subprocess.run(words, capture_output=True, text=True)
    return sorted(path for path in done.stdout.split("\0") if path and is_python(TOP / path))


def texts_of(code: str) -> Iterator[Tuple[int, str]]:
    """Each string of a file with the line where it begins: docstrings, and the parts of an f-string too."""
    for node in ast.walk(ast.parse(code)):
        if isinstance(node, ast.Constant) and isinstance(node.value, str) and node.value not in NO_TEXTS:
            yield node.lineno, node.value


def findings(name: str, code: str) -> List[str]:
    """What is found in a file: the place, the word, and what to write instead."""
    return [
        f"{name}:{line + text.count(chr(10), 0, found.start())}: `{' '.join(found[0].split())}`: write {word.instead}"
        for line, text in texts_of(code)
        for word in WORDS.values()
        for found in re.finditer(rf"\b(?:{word.pattern})\b", text, re.I)
    ]


def test_texts_have_plain_words() -> None:
    files = python_files()
    if not files:
        pytest.skip("this is no clone, by whose list of files Python is found")
    assert {"bench/ratio", "bin/kit.py", "packaging/deb", "tools/users", "clients/python/ljclient/names.py"} <= set(files)
    assert [line for path in files for line in findings(path, (TOP / path).read_text(encoding="utf-8"))] == []


@pytest.mark.parametrize("word", WORDS)
@pytest.mark.parametrize("code", ['"""{}"""\n', 'def f(x):\n    raise ValueError(f"{}, got {{x}}")\n', 'F = [\n    "{}",\n]\n'])
def test_a_word_is_found(word: str, code: str) -> None:
    plainer = WORDS[word]
    line = code[: code.index("{}")].count("\n") + 1
    said = findings("tools/a", code.format(plainer.found_in))
    assert [each for each in said if each.startswith(f"tools/a:{line}: `") and each.endswith(f"`: write {plainer.instead}")] != []


def test_a_word_is_found_in_its_line_and_over_the_end_of_one() -> None:
    code = 'X = 1\n\n\ndef f():\n    """Skips lines.\n\n    Raises ValueError if it is\n    none. Others are passed over.\n    """\n'
    assert findings("a.py", code) == ["a.py:7: `is none`: write is not one, or what it must be", "a.py:8: `passed over`: write skipped"]


@pytest.mark.parametrize(
    "code",
    [
        '"""Raises ValueError if there is none, and if it is None."""\n',
        'note("begins anew")\n',
        "anew = nothing_said()  # it is none, and passed over\n",
        '"""A renewal; heedless of what he said."""\n',
        '"""It is not there where nothing else is."""\n',
    ],
)
def test_other_words_names_and_comments_are_fine(code: str) -> None:
    assert findings("a.py", code) == []
