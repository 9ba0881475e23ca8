"""A dialogue of a user who may save one simulation, of which any read and any write may fail."""
from typing import Iterable, List, Optional, Sequence

from shared.loads import LOAD

# The sessions, atoms and branches that the user may have.
QUOTA = (8, 16384, 1)

# Each item, its reply, and how many tiles are computed for it.
DIALOGUE = (
    (LOAD, b"OK LOAD a 0 2\n", 0),
    (b"ADVANCE a 1\n", b"OK ADVANCE a 1\n", 1),
    (b"BRANCH a k\n", b"OK BRANCH a k 1\n", 0),
    (b"MEASURE a\n", b"OK MEASURE a 1 2 0 0 0 693842 -5399727\n", 1),
    (b"TUG a 0 5 0 0\n", b"OK TUG a 0 1\n", 0),
    (b"ADVANCE a 1\n", b"OK ADVANCE a 2\n", 1),
    (b"SHOW a 0\n", b"OK SHOW a 2 0 1779 0 0\n", 0),
    (b"RESTORE a k\n", b"OK RESTORE a k 1\n", 0),
    (b"MEASURE a\n", b"OK MEASURE a 1 2 0 0 0 693842 -5399727\n", 1),
    (b"BRANCH a m\n", b"ERR 22 QUOTA_BRANCHES\n", 0),
    (b"RESTORE a k\n", b"OK RESTORE a k 1\n", 0),
    (b"ADVANCE a 0\n", b"OK ADVANCE a 1\n", 0),
    (b"LIST a\n", b"OK LIST a 1\nk 1\n", 0),
    (b"FORGET a k\n", b"OK FORGET a k\n", 0),
    (b"BRANCH a m\n", b"OK BRANCH a m 1\n", 0),
    (b"START a 1\n", b"OK START a 2\n", 1),
    (b"LIST\n", b"OK LIST 1\na 2 2 1\n", 0),
    (b"SHOW a 0\n", b"OK SHOW a 2 0 1774 0 0\n", 0),
)
ITEMS = [item for item, _, _ in DIALOGUE]
REPLIES = [reply for _, reply, _ in DIALOGUE]

# The item after which a step is pending, until the last item shows the session.
STARTED = b"START a 1\n"

# Items that are told apart what others have left behind, of which four have a tile where there is a session.
LOOK = b"LIST\nLIST a\nDUMP a\nMEASURE a\nADVANCE a 1\nMEASURE a\nBRANCH a z\nRESTORE a k\nMEASURE a\n"
LOOK_TILES = 4


def cut(texts: Iterable[bytes], most: Optional[int]) -> List[bytes]:
    """These texts in pieces of at most so many bytes, none of which is of two texts."""
    return [text[at : at + (most or len(text))] for text in texts for at in range(0, len(text), most or len(text))]


def whole_in(texts: Sequence[bytes], size: int) -> int:
    """How many of these texts are whole in their first bytes, of which there are so many."""
    count = 0
    while count < len(texts) and (size := size - len(texts[count])) >= 0:
        count += 1
    return count


def replies_in(given: bytes) -> bytes:
    """The replies to the items that are whole in these bytes."""
    return b"".join(REPLIES[: whole_in(ITEMS, len(given))])


def tiles_after(count: int) -> int:
    """How many tiles are computed for the first items, and for a look at what they have left."""
    return sum(tiles for _, _, tiles in DIALOGUE[:count]) + (LOOK_TILES if count else 0)


def begun_anew_after(count: int) -> int:
    """How many tiles may be computed once more after the first items: one where a step is pending then."""
    return int(ITEMS.index(STARTED) < count < len(ITEMS))
