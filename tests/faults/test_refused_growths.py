"""Streams of growths each of whose allocations is refused in turn."""
from operator import attrgetter
from typing import Dict, Iterator, Union

import pytest
from dialogue_tables.growths import BAD_TEXTS, GROWING, Growing, growths_of
from shared.program import NO_MEMORY, Ended, Program, run_words
from shared.shims import WHOLE, refused_in_turn
from shared.texts import must_be

# What memory was refused to: a part of the stream, the program itself, what is not told of (None), or nothing known.
Refused = Union[int, str, None]


def refused_to(program: Program, library: str, growing: Growing) -> Iterator[Refused]:
    """What memory is refused to with each allocation in turn."""
    words, stream = run_words(growing.quota), growing.stream()
    meanings: Dict[Ended, Refused] = {(0, growing.replies(part), b""): part for part in (None, *growing.growing)}
    meanings[NO_MEMORY] = "program"
    for _, ended in refused_in_turn(library, lambda env: program.run(words, stream, env=env), (0, growing.replies(), b"")):
        yield meanings.get(ended, "unknown")


@pytest.mark.parametrize("growing", GROWING, ids=attrgetter("name"))
def test_growths_with_all_memory(program: Program, growing: Growing) -> None:
    status, told, err = program.run(run_words(growing.quota), growing.stream())
    must_be(told, growing.replies())
    assert (status, err) == (0, b"")


@pytest.mark.parametrize("growing", GROWING, ids=attrgetter("name"))
def test_each_allocation_of_growths_is_refused(program: Program, refuse_memory: str, growing: Growing) -> None:
    seen = list(refused_to(program, refuse_memory, growing))
    assert [at for at, part in enumerate(seen, 1) if part == "unknown"] == []
    assert seen[-WHOLE:] == [None] * WHOLE, "there are more allocations"
    assert {"program", None, *growing.growing} - {*seen} == set(), "memory was not refused to each of these"
    if growing is BAD_TEXTS:
        told = {part: seen.count(part) for part in growing.growing}
        assert told == {part: growths_of(part) for part in growing.growing}, "how often texts that are refused take memory"
