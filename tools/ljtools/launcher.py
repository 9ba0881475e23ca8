"""Runs a program that the system kills when its parent ends, however that ends: tools/ljtools/launcher.py PARENT PROGRAM WORD..

setpriv of util-linux does this too, but first sets capabilities, which the systemd units here refuse.
"""
import ctypes
import os
import sys

# Linux constants. Importing `signal` would take as long as all else here.
SET_PDEATHSIG, KILL = 1, 9
# SIGPIPE and SIGXFSZ, which Python ignores. The new program would inherit that.
IGNORED = (13, 25)


def become(parent: int, words: "list[str]") -> None:
    """Replaces this process by a program, unless the parent has ended. Raises OSError."""
    system = ctypes.CDLL(None)
    system.prctl(SET_PDEATHSIG, KILL)
    if os.getppid() == parent:
        for number in IGNORED:
            system.signal(number, None)
        os.execvp(words[0], words)


if __name__ == "__main__":
    try:
        become(int(sys.argv[1]), sys.argv[2:])
    except OSError as error:
        print(f"cannot start {sys.argv[2]}: {error.strerror}", file=sys.stderr)
    sys.exit(1)
