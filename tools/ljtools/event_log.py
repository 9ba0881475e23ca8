"""A log of events, a line of JSON each."""
import json
import logging
import logging.handlers
import sys
import time

from .user_files import Fault

# If a log cannot be written, connections are still passed on.
logging.raiseExceptions = False


class EventLog:
    """Events that are appended to a file, or written to standard output for `-`. If the file was moved, a new one is begun."""

    def __init__(self, path: str):
        """Raises Fault if the file cannot be written."""
        self._handler: logging.Handler = logging.StreamHandler(sys.stdout)
        try:
            if path != "-":
                self._handler = logging.handlers.WatchedFileHandler(path, encoding="utf-8")
        except OSError as error:
            raise Fault(f"cannot write {path}: {error.strerror}") from error

    def note(self, event: str, **known: object) -> None:
        """Writes an event with its time, in UTC. None values are left out."""
        now = time.time()
        clock = time.strftime("%Y-%m-%dT%H:%M:%S", time.gmtime(now)) + f".{int(now % 1 * 1000):03}Z"
        said = {name: value for name, value in known.items() if value is not None}
        self._handler.handle(logging.makeLogRecord({"msg": json.dumps({"time": clock, "event": event, **said})}))
