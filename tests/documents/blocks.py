"""The blocks of the documents: what stands between fences, and lines that are indented by four spaces."""
import pathlib
import re
import textwrap
from typing import Iterator, List, NamedTuple

TOP = pathlib.Path(__file__).resolve().parents[2]
DOCUMENTS = [
    "README.md",
    "CONTRIBUTING.md",
    *sorted(str(path.relative_to(TOP)) for path in [*(TOP / "docs").glob("*.md"), *(TOP / "docs" / "api").glob("*.md")]),
    "clients/python/README.md",
    "conformance/README.md",
    "bench/README.md",
]
BLOCK = re.compile(r"^```(\w*)\n(.*?)^```\n|((?:^ {4}[^\n]*\n)+)", re.M | re.S)


class Block(NamedTuple):
    """A block, with the line that its document has it at and the language that its fence says."""

    document: str
    line: int
    language: str
    text: str

    def __str__(self) -> str:
        return f"{self.document}:{self.line}"

    def is_named(self, word: str) -> bool:
        """Whether this is the block of a word: what it begins with or, as Python, what stands anywhere in it."""
        return word in self.text if self.language == "python" else self.text.startswith(word)


def blocks_of(document: str) -> Iterator[Block]:
    text = (TOP / document).read_text()
    for found in BLOCK.finditer(text):
        inside = textwrap.dedent(found[3]) if found[3] else found[2]
        yield Block(document, text.count("\n", 0, found.start()) + 1, found[1] or "", inside)


def all_blocks() -> List[Block]:
    return [block for document in DOCUMENTS for block in blocks_of(document)]
