"""The prompt, and a program at a terminal as somebody who types sees it."""
import codecs
import fcntl
import os
import pty
import re
import select
import signal
import struct
import subprocess
import sys
import termios
import time
from typing import Any, Dict, Tuple

from support import EXAMPLES, PROGRAM, SECONDS, TOP, heed_signals, present

PROMPT = [sys.executable, "-m", "ljclient"]
ARGON = EXAMPLES / "argon_256.xyz"

# A program whose session `a` goes on by what is asked at once, but for what was started: SHOW waits for that until
# a file is there.
SLOW = """\
import os, sys, time
step, answered = 0, 0
for line in sys.stdin:
    verb, *words = line.split()
    if verb in ("ADVANCE", "START"):
        step += int(words[1])
        answered += 1
        if answered == {last}:
            sys.exit(3)
    while verb == "SHOW" and not os.path.exists("go"):
        time.sleep(0.01)
        if os.path.exists("end"):
            sys.exit(3)
    told = {{"LIST": "LIST 1\\na %d 2 0" % step, "SHOW": "SHOW a %d 0 1 2 3" % step, "BYE": "BYE"}}
    print("OK", told.get(verb, "%s a %d" % (verb, step)), flush=True)
"""


def slow_program(folder: Any, last: int = 0) -> str:
    """Such a program in a folder. It ends at the last of so many commands that ask for steps, if that is above 0."""
    path = folder / "ljserve"
    path.write_text(f"#!{sys.executable}\n" + SLOW.format(last=last))
    path.chmod(0o755)
    return str(path)


def environment(**words: Any) -> Dict[Any, Any]:
    """The environment of a prompt, which finds the client and the program, and no token and no history. Its terminal has plain
    lines, unless the words say otherwise."""
    kept = {name: value for name, value in os.environ.items() if name != "LJSERVE_TOKEN"}
    path = os.pathsep.join([str(TOP / "clients" / "python"), *filter(None, [os.environ.get("PYTHONPATH")])])
    return {**kept, "PYTHONPATH": path, "LJSERVE": PROGRAM, "LJCLIENT_HISTORY": os.devnull, "TERM": "dumb", **words}


def begin_at_terminal() -> None:
    """Takes the terminal, and heeds its interrupts."""
    fcntl.ioctl(0, termios.TIOCSCTTY, 0)
    heed_signals()


class Terminal:
    """A program whose standard streams are a terminal of its own, of so many columns."""

    def __init__(self, words: Any, env: Any = None, columns: int = 120, cwd: Any = None) -> None:
        self.ours, theirs = pty.openpty()
        fcntl.ioctl(theirs, termios.TIOCSWINSZ, struct.pack("HHHH", 40, columns, 0, 0))
        env = {**os.environ, "TERM": "xterm", "COLUMNS": str(columns), "LINES": "40", "INPUTRC": "/dev/null", **(env or {})}
        self.child = subprocess.Popen(
            words,
            stdin=theirs,
            stdout=theirs,
            stderr=theirs,
            env=env,
            cwd=cwd,
            start_new_session=True,
            preexec_fn=begin_at_terminal,
        )
        os.close(theirs)
        self.written, self.shown = "", ""
        self._decoder = codecs.getincrementaldecoder("utf-8")()
        # The begin of a sequence whose rest is still to come.
        self._rest = ""

    def type(self, text: Any) -> None:
        os.write(self.ours, text.encode())

    def until(self, wanted: Any) -> Any:
        """What is shown from the last time on until this stands there, without colours and the like."""
        end = time.monotonic() + SECONDS
        while not (found := re.search(wanted, self.shown, re.S)):
            if time.monotonic() > end:
                raise AssertionError(f"{wanted!r} is not in {self.shown!r}")
            self.read(0.1)
        shown, self.shown = self.shown[: found.end()], self.shown[found.end() :]
        return shown

    def read(self, seconds: Any) -> bool:
        """Takes in what is shown within so many seconds. Returns whether more may come."""
        if select.select([self.ours], [], [], seconds)[0]:
            try:
                data = self._decoder.decode(os.read(self.ours, 1 << 16))
            except OSError:
                return False
            self.written += data
            whole, self._rest = present(re.fullmatch(r"(.*?)((?:\033(?:\[[?0-9;]*)?|\r)?)", self._rest + data, re.S)).groups()
            self.shown += re.sub(r"\033\[[?0-9;]*[a-zA-Z]|\r(?!\n)|\a", "", whole).replace("\r\n", "\n")
        return True

    def ended(self) -> Tuple[Any, Any]:
        """The exit status, and what is shown up to the end."""
        end = time.monotonic() + SECONDS
        while self.read(0.1) and time.monotonic() < end:
            pass
        return self.child.wait(SECONDS), self.shown

    def interrupt(self) -> None:
        """Presses Ctrl-C."""
        self.type("\x03")

    def close(self) -> None:
        """Ends the program, if it has not ended, as a terminal does that is closed."""
        if self.child.poll() is None:
            self.child.send_signal(signal.SIGKILL)
        self.child.wait(SECONDS)
        os.close(self.ours)
