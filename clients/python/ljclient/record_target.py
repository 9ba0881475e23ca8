"""The file that a record is written to, by one record at a time."""
from __future__ import annotations

import contextlib
import os


class RecordTarget:
    """A file that a record is written to. Its old content stays until the record begins."""

    def __init__(self, target: str, name: str):
        self.target = target
        self._is_new = not os.path.exists(target)
        self._is_begun = False
        self._file = open(target, "ab")
        try:
            _lock(self._file.fileno())
        except BlockingIOError:
            self._file.close()
            text = f"cannot write {name}: it is a record that is being written; use another file, or close the user that writes it"
            raise ValueError(text) from None

    def write(self, data: bytes) -> None:
        if not self._is_begun:
            self._file.truncate(0)
            self._is_begun = True
        self._file.write(data)
        self._file.flush()

    def close(self) -> None:
        with contextlib.suppress(OSError):
            self._file.close()

    def give_up(self) -> None:
        self.close()
        if self._is_new and not self._is_begun:
            with contextlib.suppress(OSError):
                os.unlink(self.target)


def _lock(descriptor: int) -> None:
    """Locks a file for one record. BlockingIOError if another one has locked it; no effect on file systems without locks."""
    try:
        import fcntl
    except ImportError:
        return
    try:
        fcntl.flock(descriptor, fcntl.LOCK_EX | fcntl.LOCK_NB)
    except BlockingIOError:
        raise
    except OSError:
        pass
