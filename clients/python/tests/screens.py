"""A program in a real terminal, tmux, and what its screen shows."""
import pathlib
import re
import shutil
import subprocess
import tempfile
import time
from typing import Any

import pytest

from support import SECONDS, wait_until

# A program whose exit status is written to a file: tmux at times knows that a program has ended, and never its status.
WITH_STATUS = 'trap : INT; "$@"; echo $? > "$0"'

needs_tmux = pytest.mark.skipif(shutil.which("tmux") is None, reason="tmux is not installed")


class Screen:
    """A program in a terminal of so many columns. The screen is what somebody sees who types."""

    def __init__(self, words: Any, env: Any, columns: int = 80, rows: int = 40, cwd: Any = None) -> None:
        self._folder = tempfile.TemporaryDirectory()
        self._socket = f"{self._folder.name}/tmux"
        self._status = pathlib.Path(self._folder.name, "status")
        words = ["sh", "-c", WITH_STATUS, str(self._status), *words]
        self._env = env
        size = ["-x", str(columns), "-y", str(rows)]
        self._tmux("new-session", "-d", *size, *(["-c", str(cwd)] if cwd else []), *words, ";", "set", "remain-on-exit", "on")

    def _tmux(self, *words: Any) -> Any:
        command = ["tmux", "-S", self._socket, "-f", "/dev/null", *words]
        return subprocess.run(command, env=self._env, capture_output=True, text=True, timeout=SECONDS, check=True).stdout

    def type(self, text: Any) -> None:
        self._tmux("send-keys", "-l", text)

    def press(self, *keys: Any) -> None:
        """Presses keys by their names of tmux, such as Enter, Tab, Up or C-c."""
        self._tmux("send-keys", *keys)

    def paste(self, text: Any) -> None:
        """Pastes a text as terminals do, with marks around it if the program asks for them."""
        self._tmux("set-buffer", text)
        self._tmux("paste-buffer", "-p")

    def lines(self) -> Any:
        """The lines of the screen from the first to the last that has something."""
        return self._tmux("capture-pane", "-p").rstrip().split("\n")

    def colours(self) -> Any:
        """The screen with its colours as escape sequences."""
        return self._tmux("capture-pane", "-p", "-e")

    def until(self, wanted: Any) -> Any:
        """The lines of the screen, once this is found in them."""
        end = time.monotonic() + SECONDS
        while not re.search(wanted, "\n".join(lines := self.lines()), re.S | re.M):
            if time.monotonic() > end:
                raise AssertionError(f"{wanted!r} is not in\n" + "\n".join(lines))
            time.sleep(0.05)
        return lines

    def says(self, line: Any, wanted: Any) -> Any:
        """Types a line, and returns the screen once this is found behind it."""
        self.type(line)
        self.press("Enter")
        return self.until(wanted)

    def ended(self) -> int:
        """The exit status of the program, once it has ended."""
        wait_until(lambda: self._status.exists() and self._status.read_text().endswith("\n"))
        return int(self._status.read_text())

    def close(self) -> None:
        subprocess.run(["tmux", "-S", self._socket, "kill-server"], capture_output=True, timeout=SECONDS)
        self._folder.cleanup()


def joined(lines: Any) -> str:
    """The text of some lines as one line. A word that a terminal has broken would have a blank in it."""
    return " ".join(" ".join(lines).split())
