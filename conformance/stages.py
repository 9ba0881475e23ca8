"""The stored streams from easy to hard: what a port has to do for each, stage by stage."""
import re
from itertools import groupby
from typing import Dict, Iterable, Iterator, List, Set, Tuple

from playing import Stream

# The words that first follow OK in the streams of this stage.
NEW: Dict[str, Set[bytes]] = {
    "lines": {b"LIST", b"BYE"},
    "loads": {b"LOAD", b"SHOW", b"DUMP", b"DROP"},
    "one step": {b"ADVANCE", b"MEASURE"},
    "more steps": set(),
    "the way back": {b"REVERSE", b"TUG", b"BRANCH", b"RESTORE", b"FORGET"},
    "START": {b"START"},
    "two species": {b"LOADMIX"},
    "long runs": set(),
    "limits": set(),
}
STAGES = tuple(NEW)
DONE = re.compile(rb"^OK ([A-Z]+)", re.M)
STEPS = re.compile(rb"^OK (?:ADVANCE|START) \S+ ([0-9]+)$", re.M)
# Streams of one step reach step 2 at most. Long runs go beyond step 999, where a wrong push has spread to all atoms.
FEW, MANY = 2, 999
# Streams with more bytes, sent or replied, test limits.
LARGE = 100_000


def stage_of(stream: Stream) -> str:
    """The first stage at which a port can do all of a stream."""
    furthest = max(map(int, STEPS.findall(stream.replies)), default=0)
    if furthest > MANY:
        return "long runs"
    if max(len(stream.sent), len(stream.replies)) > LARGE:
        return "limits"
    done = set(DONE.findall(stream.replies))
    stage = next((each for each in reversed(STAGES) if NEW[each] & done), "lines")
    return "more steps" if stage == "one step" and furthest > FEW else stage


def by_stages(streams: Iterable[Stream]) -> Iterator[Tuple[str, List[Stream]]]:
    """The stages from easy to hard, each with its streams, the shortest first."""
    staged = [(STAGES.index(stage_of(stream)), len(stream.sent), stream.name, stream) for stream in streams]
    for at, each in groupby(sorted(staged, key=lambda row: row[:3]), key=lambda row: row[0]):
        yield STAGES[at], [row[3] for row in each]
