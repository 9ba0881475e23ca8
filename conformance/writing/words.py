"""Commands as text."""
from typing import Iterable, Iterator, Sequence, Tuple

# The name of a stream, what is sent, and the quota of sessions, atoms and branches.
Written = Tuple[str, bytes, Tuple[int, int, int]]
USUAL = (8, 16384, 16)


def load(body: str, words: str = "256 1 131072", name: str = "a", mode: str = "rest") -> str:
    """A LOAD of a body, with its edge, sigma and step factor in words."""
    return f"LOAD {name} {words} {mode} {len(body)}\n{body}"


def load_mix(body: str, words: str, name: str = "a", mode: str = "rest") -> str:
    """A LOADMIX of a body, with its edge, symbols and classes in words."""
    return f"LOADMIX {name} {words} {mode} {len(body)}\n{body}"


def frame(rows: Iterable[Sequence[object]], comment: str = "c") -> str:
    """A frame of atoms, each a symbol and three coordinates."""
    lines = [" ".join(map(str, row)) for row in rows]
    return "\n".join([str(len(lines)), comment, *lines]) + "\n"


def shows(atoms: int, name: str = "a") -> str:
    """SHOW of each atom."""
    return "".join(f"SHOW {name} {number}\n" for number in range(atoms))


def lines(*items: str) -> str:
    """Commands without a body."""
    return "".join(f"{item}\n" for item in items)


def written(name: str, items: Iterable[str], quota: Tuple[int, int, int] = USUAL) -> Written:
    """A stream of these items."""
    return name, "".join(items).encode("latin-1"), quota


def numbered(name: str, streams: Iterable[str]) -> Iterator[Written]:
    """Short streams of one subject under numbers."""
    for number, stream in enumerate(streams, 1):
        yield written(f"{name}_{number:02}", [stream])
