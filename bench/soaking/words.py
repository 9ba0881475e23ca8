"""Items and replies as text, the users of a soak, and faults."""
import re
from typing import List, Tuple

from shared.program import Quota

# The limit of each wait, in seconds.
PATIENCE = 60
SESSIONS = (b"a", b"b", b"c_-9")
# The quotas of users, in turn.
QUOTAS: List[Quota] = [(2, 130, 3), (3, 200, 4), (1, 64, 1), (2, 4, 0), (3, 400, 6), (0, 0, 0)]


class Fault(Exception):
    """A deviation from the documentation."""


def words_of(line: bytes) -> List[bytes]:
    """The words of a line, separated by spaces and tabs, without a CR at its end."""
    line = line[:-1] if line.endswith(b"\r") else line
    return [word for word in re.split(rb"[ \t]+", line) if word]


def first_words(item: bytes) -> List[bytes]:
    """The words of the line of an item, which may have a body."""
    return words_of(item.split(b"\n", 1)[0])


def reply_end(data: bytes, at: int) -> int:
    """Where the reply that begins at `at` ends, or -1 if it is not whole yet."""
    end = data.find(b"\n", at)
    if end < 0:
        return -1
    line = bytes(data[at:end])
    lines = int(line.rsplit(b" ", 1)[1]) if line.startswith((b"OK DUMP ", b"OK LIST ")) else 0
    for _ in range(lines):
        end = data.find(b"\n", end + 1)
        if end < 0:
            return -1
    return end + 1


def user_of(number: int) -> Tuple[bytes, bytes, Quota]:
    """The name, the token and the quota of the user of this number."""
    return b"user-%d" % number, b"%032d" % (number * 7919), QUOTAS[number % len(QUOTAS)]
