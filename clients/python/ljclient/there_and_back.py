"""Looks at a session on its way there and back, and restores it by a branch, for which the quota needs room."""
from __future__ import annotations

import contextlib
from typing import TYPE_CHECKING, Any, Callable, Iterator, List, Optional, Sequence, Tuple, TypeVar

from .errors import ClientError
from .names import whole_of

if TYPE_CHECKING:
    from .session import Session

Looked = TypeVar("Looked")
# The name of the branch from which a session is restored.
START = "reversal-start"
# The default number of parts that the steps are divided into.
FRAMES = 100


@contextlib.contextmanager
def kept(session: "Session") -> Iterator[None]:
    """Restores the session at the end of the block. If the connection is lost, the error says how to restore it."""
    session.branch(START)
    try:
        yield
    except BaseException as error:
        with contextlib.suppress(ClientError):
            put_back(session)
        if isinstance(error, ClientError) and not session._is_free:
            error.more = error.more or f"{session.name} was on its way: restore({START!r}) leads back if it is still there"
        raise
    put_back(session)


def put_back(session: "Session") -> None:
    session.restore(START)
    session.forget(START)


def stops_of(steps: int, every: Optional[int]) -> List[int]:
    """The steps of the frames: at the start, every `every` steps, and at the end."""
    total = at_least_1(steps, "steps")
    part = max(1, total // FRAMES) if every is None else at_least_1(every, "every")
    return [*range(0, total, part), total]


def back_of(stops: Sequence[int]) -> List[int]:
    """The steps from REVERSE to the same frames on the way back, without the last stop: REVERSE itself goes back by one step."""
    return [stops[-1] - stop - 1 for stop in reversed(stops[:-1])]


def on_the_way(session: "Session", stops: Sequence[int], look: Callable[[], Looked]) -> List[Looked]:
    """The results of `look` at each stop, in steps from here."""
    seen, made = [], 0
    for stop in stops:
        if stop > made:
            session.advance(stop - made)
        seen.append(look())
        made = stop
    return seen


def there_and_back(session: "Session", stops: Sequence[int], look: Callable[[], Looked]) -> Tuple[List[Looked], List[Looked]]:
    """The results of `look` at each stop on the way there and back, both in the order of the stops."""
    with kept(session):
        there = on_the_way(session, stops, look)
        session.reverse()
        back = on_the_way(session, back_of(stops), look)
    return there, [*reversed(back), there[-1]]


def at_least_1(number: Any, what: str) -> int:
    """A whole number above 0. Raises TypeError or ValueError for anything else."""
    if (count := whole_of(number, what)) < 1:
        raise ValueError(f"{what} must be at least 1, got {count}")
    return count
