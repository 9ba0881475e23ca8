"""How many tiles a server counts for a stream of commands."""
from typing import Dict, Iterator, List

from shared.loads import tiles_of_step

# The first words of items that have a body.
LOADS = (b"LOAD", b"LOADMIX")


def tiles_of(data: bytes, replies: bytes) -> int:
    """The number of tiles computed for a stream of whole items with these replies, if all blocks of a session are
    within reach of each other."""
    tiles, lines = 0, iter(replies.split(b"\n"))
    atoms: Dict[bytes, int] = {}
    for words in items_of(data):
        reply = next(lines).split()
        if reply[0] != b"OK":
            continue
        if reply[1] in LOADS:
            atoms[reply[2]] = int(reply[4])
        elif reply[1] in (b"DUMP", b"LIST"):
            for _ in range(int(reply[-1])):
                next(lines)
        elif reply[1] in (b"ADVANCE", b"START", b"MEASURE"):
            tiles += (1 if reply[1] == b"MEASURE" else int(words[2])) * tiles_of_step(atoms[reply[2]])
    return tiles


def items_of(data: bytes) -> Iterator[List[bytes]]:
    """The words of the line of each item, up to one that ends the connection."""
    while data:
        line, _, data = data.partition(b"\n")
        words = line.split()
        yield words
        if words and words[0] in LOADS:
            data = data[int(words[-1]) :]
        if words[:1] == [b"BYE"]:
            return
