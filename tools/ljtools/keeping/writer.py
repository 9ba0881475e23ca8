"""Writes changes, and syncs them to the disk before the replies are sent, or within a second."""
import asyncio
import contextlib
import queue
import threading
import time
from typing import Callable, List, NamedTuple, Optional

from .store import Change, Store, StoreFault

SYNCS = ("group", "second")
SECONDS_BETWEEN_SYNCS = 1.0
Then = Callable[[], None]


class Work(NamedTuple):
    """A change to write, and a function to call then."""

    change: Change
    then: Then


class Writer:
    """Writes changes of all users. Its first fault is reported, and nothing is done after it.

    For `group`, a thread writes all changes since its last transaction in the next one. For `second`, each change is written at once,
    in a transaction that does not wait for the disk, and a thread syncs each second. `syncs` is the number of waits for the disk, and
    `seconds` their total time.
    """

    def __init__(self, store: Store, sync: str, fail: Callable[[str], None], may_tell: Callable[[], bool]):
        """`may_tell` returns whether replies that need no write may be sent."""
        self._store, self._sync, self._fail, self.may_tell = store, sync, fail, may_tell
        self._has_failed = self._is_dirty = False
        self.syncs, self.seconds = 0, 0.0
        self._loop: asyncio.AbstractEventLoop
        self._queue: "queue.SimpleQueue[Optional[Work]]" = queue.SimpleQueue()
        self._thread: Optional[threading.Thread] = None

    def write(self, change: Change, then: Then) -> bool:
        """Writes a change. Returns True if it is written; else `then` is called when it is."""
        if self._sync == "group":
            self._begin()
            self._queue.put(Work(change, then))
            return False
        try:
            self._store.write([change])
        except StoreFault as fault:
            self._note_failure(str(fault))
            return False
        self._is_dirty = True
        return True

    def _begin(self) -> None:
        if self._thread is None:
            self._loop = asyncio.get_running_loop()
            self._thread = threading.Thread(target=self._write_on, name="writer")
            self._thread.start()

    def _write_on(self) -> None:
        """Writes queued changes, up to the end."""
        while (first := self._queue.get()) is not None:
            works: List[Optional[Work]] = [first]
            while works[-1] is not None and not self._queue.empty():
                works.append(self._queue.get())
            self._write_all([work for work in works if work is not None])
            if works[-1] is None:
                break

    def _write_all(self, works: List[Work]) -> None:
        """Writes changes in one transaction, then calls `_are_done` in the loop."""
        try:
            self._timed(lambda: self._store.write([work.change for work in works]))
        except Exception as error:
            self._loop.call_soon_threadsafe(self._note_failure, str(error) or repr(error))
            return
        self._loop.call_soon_threadsafe(self._are_done, works)

    def _timed(self, sync: Callable[[], None]) -> None:
        """Times a wait for the disk."""
        begun = time.monotonic()
        sync()
        self.syncs, self.seconds = self.syncs + 1, self.seconds + time.monotonic() - begun

    def _are_done(self, works: List[Work]) -> None:
        """Calls the function of each change. An error there concerns one user."""
        for work in works:
            try:
                if not self._has_failed:
                    work.then()
            except Exception as error:
                self._loop.call_exception_handler({"message": "what follows a write", "exception": error})

    def _note_failure(self, why: str) -> None:
        if not self._has_failed:
            self._has_failed = True
            self._fail(why)

    async def sync_on(self) -> None:
        """For `second`, syncs what was written to the disk each second."""
        while self._sync == "second":
            await asyncio.sleep(SECONDS_BETWEEN_SYNCS)
            if self._is_dirty:
                self._is_dirty = False
                try:
                    await asyncio.get_running_loop().run_in_executor(None, self._timed, self._store.base.sync)
                except StoreFault as fault:
                    self._note_failure(str(fault))

    def close(self) -> None:
        """Waits until all changes are written and on the disk."""
        if self._thread is not None:
            self._queue.put(None)
            self._thread.join()
        with contextlib.suppress(StoreFault):
            self._store.base.sync()
