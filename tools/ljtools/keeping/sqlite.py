"""A database of SQLite, in a file."""
import contextlib
import os
import pathlib
import sqlite3
import threading
from typing import ContextManager, Iterator, List, Optional, Sequence

from .store import SCHEMA, Row, Statement, StoreFault

FORMAT = 3
BYTES_OF_PAGE = 1024
# Another process locks the database only for a moment, as while it opens it.
SECONDS_TO_WAIT = 10.0


class Sqlite:
    """A database in a file. One process may write it at a time."""

    def __init__(self, path: pathlib.Path, sync_each: bool = True):
        """Opens or creates it. With `sync_each` each write is on the disk when it returns. Raises `StoreFault`."""
        self._path = path
        self._lock = threading.RLock()
        self._wal: Optional[int] = None
        with self._use("use"):
            self._base = self._connected()
            # A record takes one page, written whole, so pages are small. An existing database keeps its page size.
            self._base.execute(f"pragma page_size={BYTES_OF_PAGE}")
            self._base.execute("pragma journal_mode=wal")
            self._base.execute("pragma synchronous=full")
            (version,) = self._base.execute("pragma user_version").fetchone()
            if version > FORMAT:
                raise StoreFault(f"{path} must have format {FORMAT}, got {version}; use the keep that made it")
            if version < FORMAT:
                self._base.executescript(f"begin immediate; {SCHEMA} pragma user_version={FORMAT}; commit")
                sync_folder(path.parent)
            if not sync_each:
                # Only `sync` flushes writes to the disk, and moves pages into the database file.
                self._base.executescript("pragma synchronous=normal; pragma wal_autocheckpoint=0")
                self._syncing = self._connected()
                self._wal = os.open(f"{path}-wal", os.O_RDONLY | os.O_CLOEXEC)

    def _connected(self) -> sqlite3.Connection:
        return sqlite3.connect(self._path, SECONDS_TO_WAIT, isolation_level=None, check_same_thread=False)

    @contextlib.contextmanager
    def _use(self, what: str, begin: str = "") -> Iterator[None]:
        """Locks the database. If `begin` is given, it starts a transaction."""
        with self._lock:
            try:
                if begin:
                    self._base.execute(begin)
                yield
                if begin:
                    self._base.execute("commit")
            except (sqlite3.Error, OSError) as error:
                raise self._fault(what, error) from error
            finally:
                if begin and self._base.in_transaction:
                    with contextlib.suppress(sqlite3.Error):
                        self._base.execute("rollback")

    def _fault(self, what: str, error: Exception) -> StoreFault:
        return StoreFault(f"cannot {what} {self._path}: {getattr(error, 'strerror', None) or error}")

    def view(self) -> ContextManager[None]:
        return self._use("read", "begin")

    def rows(self, words: str, values: Row = ()) -> List[Row]:
        with self._use("read"):
            return self._base.execute(words, values).fetchall()

    def write(self, statements: Sequence[Statement]) -> None:
        if len(statements) == 1:
            # A single statement is a transaction by itself.
            try:
                with self._lock:
                    self._base.execute(*statements[0])
            except sqlite3.Error as error:
                raise self._fault("write", error) from error
            return
        with self._use("write", "begin immediate"):
            for statement in statements:
                self._base.execute(*statement)

    def sync(self) -> None:
        if self._wal is not None:
            try:
                os.fdatasync(self._wal)
                self._syncing.execute("pragma wal_checkpoint(passive)")
            except (sqlite3.Error, OSError) as error:
                raise self._fault("write", error) from error

    def close(self) -> None:
        if self._wal is not None:
            os.close(self._wal)
            self._syncing.close()
        self._base.close()


def sync_folder(folder: pathlib.Path) -> None:
    """Flushes a folder's names to the disk."""
    descriptor = os.open(folder, os.O_RDONLY | os.O_DIRECTORY | os.O_CLOEXEC)
    try:
        os.fsync(descriptor)
    finally:
        os.close(descriptor)
