"""How `tools/keep` cuts streams into items and replies, as the reference of conformance/ does."""
import io
import sys
from typing import Any, List

import pytest

from support import TOP

sys.path += [str(TOP / "tools"), str(TOP / "conformance")]
from chance import Chance  # noqa: E402
from ljtools.keeping.items import ItemReader, ReplyReader  # noqa: E402
from playing import Stream, referred  # noqa: E402
from reference import items_of  # noqa: E402

PIECES = (1, 7, 1 << 16)
BODY_OF_12 = b"1\nc\nX 0 0 0\n"
# The bytes for a reader of items, and its items: the length of each, and the last reply if it is the end.
STREAMS = {
    "lines": (b"LIST\n \t\n\r\nSHOW a 0\r\nLI", [(5, b""), (3, b""), (2, b""), (10, b"")]),
    "bodies": (b"LOAD a 9 1 1 rest 12\n" + BODY_OF_12 + b"LOADMIX 0\nLOAD a 5\nabc", [(33, b""), (10, b"")]),
    "BYE": (b"BYE x\n\tBYE \r\nLIST\n", [(6, b""), (7, b"OK BYE\n")]),
    "no count": (b"LOAD a 1x\nLIST\n", [(10, b"ERR 04 BODY\n")]),
    "too great a count": (b"LOAD a 1048577\nLIST\n", [(15, b"ERR 04 BODY\n")]),
    "too many digits": (b"LOADMIX a 00000012\n", [(19, b"ERR 04 BODY\n")]),
    "256 bytes": (b" " * 251 + b"LIST\r\n", [(257, b"")]),
    "a long line": (b"LOAD a" + b" " * 250 + b" 5\nLIST\n", [(259, b""), (5, b"")]),
    "65,535 bytes": (b"x" * 65535 + b"\n", [(65536, b"")]),
    "no end": (b"x" * 65536 + b"\nLIST\n", [(0, b"ERR 05 LONG\n")]),
}


def fed(reader: Any, data: Any, size: Any) -> Any:
    """The items of a stream that comes in pieces of a size."""
    items: List[Any] = []
    for at in range(0, len(data), size):
        reader.feed(data[at : at + size])
        items += iter(reader.next, None)
    return items


@pytest.mark.parametrize("size", PIECES)
@pytest.mark.parametrize("data, wanted", STREAMS.values(), ids=STREAMS)
def test_items(data: Any, wanted: Any, size: Any) -> None:
    items = fed(ItemReader(), data, size)
    assert [(len(each.raw), each.last_reply) for each in items] == wanted
    assert b"".join(each.raw for each in items) == data[: sum(length for length, _ in wanted)]


def test_so_many_items_and_no_more() -> None:
    items = fed(ItemReader(most=3), b"LIST\n" * 5, 7)
    assert [(each.raw, each.last_reply) for each in items] == [(b"LIST\n", b"")] * 3 + [(b"", b"ERR 08 ENOUGH\n")]
    items = fed(ItemReader(most=2), b"LIST\nBYE\nLIST\n", 7)
    assert [each.last_reply for each in items] == [b"", b"OK BYE\n"]


@pytest.mark.parametrize("number", range(60))
def test_random_streams_are_cut_as_by_the_reference(number: Any) -> None:
    stream = Chance(f"keep {number}").stream("")
    items = fed(ItemReader(), stream.sent, PIECES[number % 3])
    wanted = list(items_of(io.BytesIO(stream.sent)))
    assert len(items) == len(wanted)
    for item, (words, _, fault) in zip(items, wanted):
        is_last = fault in ("04 BODY", "05 LONG") or words == [b"BYE"]
        assert bool(item.last_reply) == is_last
        assert is_last or list(item.words) == words


@pytest.mark.parametrize("number", range(30))
def test_replies_of_random_streams_are_cut_whole(number: Any) -> None:
    stream: Stream = Chance(f"keep {number}").stream("")
    replies = referred(stream.sent, stream.quota)
    reader, size = ReplyReader(), PIECES[number % 3]
    found = [each for at in range(0, len(replies), size) for each in reader.feed(replies[at : at + size])]
    assert b"".join(found) == replies
    assert len(found) == len(list(items_of(io.BytesIO(stream.sent))))
