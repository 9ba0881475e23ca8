"""The client for asyncio: the calls of `ljclient`, to be awaited.

    import asyncio
    from ljclient import aio, units

    async def main():
        async with aio.run() as user:
            argon = await user.load("argon", "argon_256.xyz", edge=21.04, dt=2, **units.ARGON)
            await argon.advance(1000)
            async for frame in argon.frames(every=10, n=5):
                print(frame.step, frame.temperature)
            print(await argon.get_step())

    asyncio.run(main())

Each connection has its own thread, which makes the calls one after the other, in their order. Meanwhile the event loop continues, and
other connections work at the same time. Methods that ask the server are awaited. Attributes such as `name`, `n_atoms`, `scale` and
`order` are known without waiting.

**A cancelled call** (`asyncio.wait_for`, `task.cancel()`) is not made if it has not started. A call that has started continues in its
thread, and the next call waits for it. Its command may be done, so ask `get_step()`. A call of many steps ends after the current piece,
as with Ctrl-C, unless it has `progress=True`.
"""
from __future__ import annotations

import asyncio
import concurrent.futures
import functools
import inspect
import threading
from typing import Any, Callable, Dict, List, Optional

from . import connecting, session as sessions, user as users
from .errors import Closed
from .renamed import Renamed

# Methods that return iterators.
ITERATED = ("frames", "thermo")
# Methods that return context managers.
BLOCKS = ("unrecorded",)
# Methods that are left out here, since each call is already made in a thread.
LEFT_OUT = ("on_wait",)
END = object()


class Stopped(BaseException):
    """Ends a cancelled call after its current piece."""


class Worker:
    """The thread of a connection."""

    def __init__(self) -> None:
        self._pool = concurrent.futures.ThreadPoolExecutor(1, "ljclient")
        self.is_over = False

    async def do(self, call: Callable[[], Any], stop: Optional[threading.Event] = None) -> Any:
        """Makes a call after the earlier ones, and awaits its result. Sets the event if the await is cancelled."""
        if self.is_over:
            raise Closed("the connection was closed")
        future = self._pool.submit(call)
        try:
            return await asyncio.wrap_future(future)
        except asyncio.CancelledError:
            if stop is not None:
                stop.set()
            raise

    def begin(self, call: Callable[[], Any]) -> None:
        """Makes a call after the earlier ones, without awaiting it."""
        if not self.is_over:
            self._pool.submit(call)

    def end(self) -> None:
        """Ends the thread after the earlier calls."""
        self.is_over = True
        self._pool.shutdown(wait=False)


def _stoppable(call: "functools.partial[Any]", stop: threading.Event) -> Callable[[], Any]:
    """A call that ends after a piece once the event is set, unless `progress` is missing or True."""
    try:
        bound = inspect.signature(call.func).bind(*call.args, **call.keywords)
    except (TypeError, ValueError):
        return call
    told = bound.arguments.get("progress", False)
    if "progress" not in bound.signature.parameters or told is True:
        return call

    def progress(*words: Any) -> None:
        if callable(told):
            told(*words)
        if stop.is_set():
            raise Stopped

    bound.arguments["progress"] = progress
    return functools.partial(call.func, *bound.args, **bound.kwargs)


class Iteration:
    """The items that a call yields, in the thread."""

    def __init__(self, begin: "functools.partial[Any]"):
        self.stop = threading.Event()
        self._begin = _stoppable(begin, self.stop)
        self._items: Any = None

    def next(self) -> Any:
        """The next item, or END."""
        if self._items is None:
            self._items = iter(self._begin())
        return next(self._items, END)

    def close(self) -> None:
        """Ends the iteration early, which restores the session."""
        items, self._items = self._items, iter(())
        if hasattr(items, "close"):
            items.close()


class Items:
    """The items that a call yields, for `async for`. If the loop is left early, the session is restored before the next call:
    the thread has no reference to this object, so it is deleted at once."""

    def __init__(self, worker: Worker, begin: "functools.partial[Any]"):
        self._worker = worker
        self._iteration = Iteration(begin)

    def __aiter__(self) -> "Items":
        return self

    async def __anext__(self) -> Any:
        item = await self._worker.do(self._iteration.next, self._iteration.stop)
        if item is END:
            raise StopAsyncIteration
        return item

    async def aclose(self) -> None:
        """Ends the iteration early."""
        await self._worker.do(self._iteration.close)

    def __del__(self) -> None:
        self._worker.begin(self._iteration.close)


class Block:
    """A context manager, for `async with`."""

    def __init__(self, worker: Worker, make: Callable[[], Any]):
        self._worker = worker
        self._make = make
        self._block: Any = None

    async def __aenter__(self) -> Any:
        self._block = self._make()
        return await self._worker.do(self._block.__enter__)

    async def __aexit__(self, *error: Any) -> Any:
        return await self._worker.do(functools.partial(self._block.__exit__, *error))


class Wrapped:
    """A user or a session, whose calls are made in the thread of its connection."""

    def __init__(self, worker: Worker, thing: Any, user: Any = None):
        self._worker = worker
        self._thing = thing
        self._user = self if user is None else user

    def __repr__(self) -> str:
        return f"aio.{self._thing!r}"

    def _given(self, value: Any) -> Any:
        """A returned value, with a session or a user wrapped."""
        if isinstance(value, sessions.Session):
            return Session(self._worker, value, self._user)
        return self._user if isinstance(value, users.User) else value


def _plain(value: Any) -> Any:
    """An argument of a call, with wrapped sessions unwrapped."""
    if isinstance(value, Wrapped):
        return value._thing
    return [_plain(each) for each in value] if isinstance(value, list) else value


def _bound(self: Wrapped, name: str, arguments: Any, named: Dict[str, Any]) -> "functools.partial[Any]":
    """A call of the wrapped object."""
    call = getattr(self._thing, name)
    return functools.partial(call, *map(_plain, arguments), **{word: _plain(value) for word, value in named.items()})


def _awaited(name: str, method: Any) -> Any:
    """A method that is awaited."""

    @functools.wraps(method)
    async def asked(self: Wrapped, *arguments: Any, **named: Any) -> Any:
        stop = threading.Event()
        return self._given(await self._worker.do(_stoppable(_bound(self, name, arguments, named), stop), stop))

    return asked


def _opening(kind: Callable[[Worker, "functools.partial[Any]"], Any], name: str, method: Any) -> Any:
    """A method that returns an asynchronous iterator or context manager."""

    @functools.wraps(method)
    def opened(self: Wrapped, *arguments: Any, **named: Any) -> Any:
        return kind(self._worker, _bound(self, name, arguments, named))

    return opened


def _property(name: str, doc: Any) -> property:
    """A property of the wrapped object."""

    def told(self: Wrapped) -> Any:
        return self._given(getattr(self._thing, name))

    return property(told, doc=doc)


def public_names(kind: type) -> List[str]:
    """The names of a class that are wrapped here."""
    held = ("name", "mixture", "motion", "sampled") if kind is sessions.Session else ("name", "address", "session_names")
    names = {name for name in dir(kind) if not (name.startswith("_") or isinstance(inspect.getattr_static(kind, name), Renamed))}
    return sorted(names.union(held).difference(LEFT_OUT))


def _wrapping(kind: type) -> Dict[str, Any]:
    """The members of a class that wraps another one."""
    members: Dict[str, Any] = {"__doc__": kind.__doc__, "__module__": __name__}
    for name in public_names(kind):
        member = getattr(kind, name, None)
        if not inspect.isfunction(member):
            members[name] = _property(name, getattr(member, "__doc__", None))
        elif name in ITERATED or name in BLOCKS:
            members[name] = _opening(Items if name in ITERATED else Block, name, member)
        else:
            members[name] = _awaited(name, member)
    return members


async def _left(self: Any, *error: Any) -> None:
    """Ends the connection after the earlier calls, even if it is cancelled meanwhile."""
    if not self._worker.is_over:
        ending = asyncio.ensure_future(self._worker.do(self._thing.close))
        await asyncio.sleep(0)
        self._worker.end()
        await asyncio.shield(ending)


async def _entered(self: Any) -> Any:
    return self


Session: Any = type("Session", (Wrapped,), _wrapping(sessions.Session))
User: Any = type("User", (Wrapped,), {**_wrapping(users.User), "close": _left, "__aenter__": _entered, "__aexit__": _left})


class Connecting:
    """A connection to await, or to open and close by `async with`."""

    def __init__(self, call: Callable[..., Any], arguments: Any, named: Dict[str, Any]):
        self._call = functools.partial(call, *arguments, **named)
        self._user: Any = None

    def __await__(self) -> Any:
        return self._open().__await__()

    async def __aenter__(self) -> Any:
        self._user = await self._open()
        return self._user

    async def __aexit__(self, *error: Any) -> None:
        await self._user.close()

    async def _open(self) -> Any:
        worker = Worker()
        opened: List[Any] = []

        def open_here() -> Any:
            opened.append(self._call())
            return opened[0]

        try:
            return User(worker, await worker.do(open_here))
        except BaseException:
            worker.begin(lambda: [user.close() for user in opened])
            worker.end()
            raise


@functools.wraps(connecting.connect)
def connect(*arguments: Any, **named: Any) -> Connecting:
    return Connecting(connecting.connect, arguments, named)


@functools.wraps(connecting.run)
def run(*arguments: Any, **named: Any) -> Connecting:
    return Connecting(connecting.run, arguments, named)
