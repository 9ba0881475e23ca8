"""The items of a stream of commands and the replies to them, cut out of bytes as they come (docs/PROTOCOL.md)."""
from typing import List, NamedTuple, Optional, Tuple

from ..watching import LISTING, MORE_LINES

Words = Tuple[bytes, ...]
MAX_LINE = 256
MAX_UNENDED = 65536
MAX_BODY = 1 << 20
MAX_ITEMS = 1_000_000
LOADS = (b"LOAD", b"LOADMIX")
OK_BYE, BODY, LONG, ENOUGH = b"OK BYE\n", b"ERR 04 BODY\n", b"ERR 05 LONG\n", b"ERR 08 ENOUGH\n"


class Item(NamedTuple):
    """An item as it was sent, and the words of its line, none if it is too long. An item that ends its connection has a
    `last_reply`, and does not go to the server, whose connection stays."""

    raw: bytes
    words: Words
    last_reply: bytes = b""


class Told(NamedTuple):
    """An item that was answered, and its reply."""

    item: bytes
    reply: bytes


def words_of(line: bytes) -> Words:
    """The words of a line without its line feed."""
    line = line[:-1] if line.endswith(b"\r") else line
    return tuple(filter(None, line.replace(b"\t", b" ").split(b" ")))


def body_of(words: Words) -> Optional[int]:
    """How many bytes follow a line, or None for a load without a valid count."""
    if not words or words[0] not in LOADS:
        return 0
    count = words[-1]
    if len(words) == 1 or len(count) > 7 or not count.isdigit() or int(count) > MAX_BODY:
        return None
    return int(count)


class ItemReader:
    """Cuts a stream into items, up to the one that ends it. `held` bytes are not cut yet, and `taken` bytes are."""

    def __init__(self, most: int = MAX_ITEMS) -> None:
        self._held = bytearray()
        self._left = most
        self.taken = 0
        self.has_ended = False

    @property
    def held(self) -> int:
        return len(self._held)

    def feed(self, data: bytes) -> int:
        """Takes bytes, and returns how many are held. Bytes after the end are dropped."""
        if not self.has_ended:
            self._held += data
        return len(self._held)

    def next(self) -> Optional[Item]:
        """The next item, if it is whole. After the last one that a connection may have comes an item that ends it."""
        if self.has_ended or self._left and not self._held:
            return None
        item = self._first() if self._left else Item(b"", (), ENOUGH)
        if item is None:
            return None
        self._left -= 1
        self.taken += len(item.raw)
        del self._held[: len(item.raw)]
        if item.last_reply:
            self.end()
        return item

    def end(self) -> None:
        """Drops the held bytes, and all that come later."""
        self.has_ended = True
        self._held.clear()

    def _first(self) -> Optional[Item]:
        """The first item of the held bytes, if it is whole."""
        end = self._held.find(b"\n", 0, MAX_UNENDED) + 1
        if not end:
            return Item(b"", (), LONG) if len(self._held) >= MAX_UNENDED else None
        line = bytes(self._held[:end])
        if len(line) > MAX_LINE + 1:
            return Item(line, ())
        words = words_of(line[:-1])
        if words == (b"BYE",):
            return Item(line, words, OK_BYE)
        count = body_of(words)
        if count is None:
            return Item(line, words, BODY)
        if len(self._held) < end + count:
            return None
        return Item(bytes(self._held[: end + count]) if count else line, words)


class ReplyReader:
    """Cuts what a server sends into replies, each with all of its lines."""

    def __init__(self) -> None:
        self._partial = b""
        self._lines: List[bytes] = []
        self._more = 0

    def feed(self, data: bytes) -> List[bytes]:
        """Takes some bytes, and returns the replies that are whole now."""
        *lines, self._partial = (self._partial + data).split(b"\n")
        replies = []
        for line in lines:
            if self._more:
                self._lines.append(line)
                self._more -= 1
            else:
                found = MORE_LINES.match(line) if line[3:7] in LISTING else None
                self._lines, self._more = [line], int(found[1]) if found else 0
            if not self._more:
                replies.append(b"\n".join([*self._lines, b""]))
        return replies
