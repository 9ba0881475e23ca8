"""Links of the documents lead to a file that is there, and to a heading of it."""
import re
from typing import Any, List

import pytest

from blocks import TOP

FURTHER = ("bench/README.md", "clients/python/README.md", "conformance/README.md")
DOCUMENTS = [*TOP.glob("*.md"), *TOP.glob("docs/**/*.md"), *(TOP / name for name in FURTHER)]


def anchors(path: Any) -> List[Any]:
    """The anchors of a document's headings, as GitHub makes them."""
    headings = re.findall(r"^#+ (.*)$", path.read_text(), re.M)
    return [re.sub(r"[^\w -]", "", heading).lower().replace(" ", "-") for heading in headings]


@pytest.mark.parametrize("document", DOCUMENTS, ids=lambda path: str(path.relative_to(TOP)))
def test_links_lead_somewhere(document: Any) -> None:
    for link in re.findall(r"\]\((?!https?:)([^)\s]+)\)", document.read_text()):
        name, _, anchor = link.partition("#")
        path = document.parent / name if name else document
        assert path.exists(), link
        assert not anchor or anchor in anchors(path), link
