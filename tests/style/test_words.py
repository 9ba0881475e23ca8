"""The words of the documents: none of those that have a plainer one. Code, and parts that bin/documents makes of the sources, are free."""
from __future__ import annotations

import re
import subprocess
from pathlib import Path
from typing import Dict, List, NamedTuple

import pytest

TOP = Path(__file__).resolve().parents[2]


class Plainer(NamedTuple):
    """What stands for a word in prose: a pattern that finds it, what to write instead, and a sentence that has it."""

    pattern: str
    instead: str
    found_in: str


WORDS: Dict[str, Plainer] = {
    "all else": Plainer(r"all else", "everything else", "All else is as with LOAD."),
    "anew": Plainer(r"anew", "again", "The tables are made anew."),
    "at once": Plainer(r"at once", "immediately, together or at the same time", "A student has 8 sessions at once."),
    "at fault": Plainer(r"at fault", "wrong", "Each line at fault is printed."),
    "begun": Plainer(r"begun", "started", "The server is begun by systemd."),
    "behind": Plainer(r"behind(?! (HAProxy|a proxy|TLS|one address|its lock|the lock|a lock))", "after", "The reply comes behind a LOAD."),
    "beside": Plainer(r"beside", "next to, or compared with", "A step takes half the time beside the twin."),
    "bring about": Plainer(r"(brings?|brought) about", "cause", "A refusal that other sessions bring about."),
    "but for": Plainer(r"but for", "except", "All files but for the last one are read."),
    "by it": Plainer(r"by it", "a sentence whose subject acts", "Steps are no faster by it."),
    "cut short": Plainer(r"cut short", "not complete", "A body that is cut short is refused."),
    "earlier": Plainer(r"earlier", "what holds now", "An earlier version had another name."),
    "folded alone": Plainer(r"folded alone", "answered without other users", "The replies are those of all items, folded alone."),
    "for want of": Plainer(r"for want of", "without", "It is refused for want of memory."),
    "go round": Plainer(r"(go|goes|went) round", "bypass", "Nobody goes round it."),
    "has it": Plainer(r"(has|have) it(?= that| \(|\.)", "states", "They part as fast as the liquid's own chaos has it."),
    "heed": Plainer(r"heeds?|heeded", "obey or interpret", "A terminal heeds its bytes."),
    "held against": Plainer(r"(held|holds?) (\w+ )?against", "compared with", "Replies are held against the reference."),
    "home": Plainer(r"(comes?|came|takes?|took|taken) home", "returns", "The state came home with the ticket."),
    "in place of": Plainer(r"in place of", "instead of", "A file stands in place of the count."),
    "is no": Plainer(r"(?<!there )(is|are) no (?!(longer|more|faster)\b)\w+", "is not a", "A word that is no number is refused."),
    "is none": Plainer(r"(is|are) none", "is not one", "A word that is none of a command is refused."),
    "is to be": Plainer(r"(is|are) to be", "must be", "The file is to be read by its owner alone."),
    "it is said": Plainer(r"it is (not )?said", "states, or the default", "Twenty is the limit where it is not said."),
    "no longer": Plainer(r"no longer|any longer|any more", "what holds now", "The server no longer has the session."),
    "of which": Plainer(r"of which", "two sentences", "There are two programs, of which the second is faster."),
    "say": Plainer(r"says?|said", "states, shows or gives", "The last word says how many lines follow."),
    "some": Plainer(r"some (?=\d)", "about", "It takes some 60 minutes."),
    "take h": Plainer(r"take h", "use", "For a long run take h = 4295."),
    "tell": Plainer(r"tells?|told|telling", "shows, states or reports", "DUMP tells a frame."),
    "that of": Plainer(r"(that|those) of", "the noun again", "The state is that of the last command."),
    "to the bit": Plainer(r"to the (last )?(bit|byte)", "bit for bit, byte for byte", "A run is undone to the bit."),
    "to be borne": Plainer(r"borne|bears?", "accepted", "One stray too many that is borne."),
    "part": Plainer(r"runs?( that)? part(?! of)|parts? (faster|as fast)", "separate", "Near runs part faster."),
    "passed over": Plainer(r"pass(es|ed)? over", "skipped", "Lines without a word are passed over."),
    "what users have": Plainer(r"what (users|they) (have|had)", "sessions", "When the server ends, what users had is lost."),
    "where it is": Plainer(r"where (it|there|none|nothing) is", "if", "The body is skipped where there is no memory."),
}

MADE = re.compile(r"<!-- made by (\S+): begin (.*?) -->\n.*?<!-- made by \1: end \2 -->\n", re.S)
BLOCK = re.compile(r"^```.*?^```$|^ {4}[^\n]*$", re.M | re.S)
# Code within a line, and where a link leads.
INLINE = re.compile(r"`[^`\n]+`|\]\([^)\s]*\)")


def blank(found: re.Match[str]) -> str:
    """As many lines without a word."""
    return "\n" * found[0].count("\n")


def prose(text: str) -> str:
    """A document without its blocks, code, links and parts that are made, each word in its line."""
    for pattern in (MADE, BLOCK):
        text = pattern.sub(blank, text)
    return INLINE.sub("`code`", text)


def findings(name: str, text: str) -> List[str]:
    """What is found in a document: the place, the word, and what to write instead."""
    return [
        f"{name}:{number}: `{found[0]}`: write {word.instead}"
        for number, line in enumerate(prose(text).split("\n"), 1)
        for word in WORDS.values()
        for found in re.finditer(rf"\b(?:{word.pattern})\b", line, re.I)
    ]


def documents() -> List[str]:
    """All documents of the repository; none if this is no clone."""
    done = subprocess.run(["git", "-C", str(TOP), "ls-files", "*.md"], capture_output=True, text=True)
    return [name for name in done.stdout.splitlines() if (TOP / name).is_file()]


def test_documents_have_plain_words() -> None:
    if not documents():
        pytest.skip("this is no clone, by whose list of files documents are found")
    assert len(documents()) > 20
    assert [line for name in documents() for line in findings(name, (TOP / name).read_text())] == []


@pytest.mark.parametrize("word", WORDS)
def test_a_word_is_found(word: str) -> None:
    plainer = WORDS[word]
    said = findings("docs/A.md", f"# A\n\n{plainer.found_in}\n")
    assert [line for line in said if line.startswith("docs/A.md:3: `") and line.endswith(f"`: write {plainer.instead}")] != []


@pytest.mark.parametrize(
    "text",
    [
        "The server is behind HAProxy, and the pool behind a lock.",
        "`tools/keep` prints `what is told, anew`.",
        "See [the list](docs/told.md).",
        "```\nwhat it says\n```",
        "    what it says\n    at once",
        "<!-- made by bin/documents: begin promises -->\n\nsaid at once\n\n<!-- made by bin/documents: end promises -->\n",
        "An essay on beards and renewal, which retells nothing.",
    ],
)
def test_other_words_and_code_are_fine(text: str) -> None:
    assert findings("docs/A.md", f"# A\n\n{text}\n") == []


def test_the_line_is_named() -> None:
    """Also after a block and a part that is made, whose lines count."""
    text = "# A\n\n```\ncode\n```\n\n<!-- made by x: begin y -->\nsaid\n<!-- made by x: end y -->\n\nIt is made anew.\n"
    assert findings("A.md", text) == ["A.md:11: `anew`: write again"]
