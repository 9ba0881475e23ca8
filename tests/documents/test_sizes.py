"""Documents stay short: what outgrows its room is told shorter, or has its home elsewhere."""
import pytest

from blocks import TOP

MOST_KILOBYTES = {
    "CONTRIBUTING.md": 8,
    "SECURITY.md": 2,
    "docs/ACCURACY.md": 9,
    "docs/CLASS.md": 7,
    "docs/DECISIONS.md": 12,
    "docs/SERVER.md": 18,
    "docs/WORDS.md": 4,
}


@pytest.mark.parametrize("path", MOST_KILOBYTES)
def test_a_document_has_its_room(path: str) -> None:
    assert len((TOP / path).read_bytes()) <= 1000 * MOST_KILOBYTES[path]
