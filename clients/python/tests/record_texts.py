"""Records as the format has them, put together by hand."""
import hashlib
import subprocess
import sys
from typing import Any, Dict, List, Tuple

import ljclient
from support import DIMER, PROGRAM
from terminals import environment

# The line of a record that names the client.
CLIENT = f"client ljclient {ljclient.__version__}"
FRAME = "2\nstep 2\nAr 0.000105 0.000000 0.000000\nAr 1.499894 0.000000 0.000000\n"
# Two steps of the dimer, which are worked by hand in PROTOCOL. The head of a record of `run` has more lines.
DIMER_TEXT = f"""\
ljserve record 2
{CLIENT}
quota sessions 1 atoms 2 branches 0
> LOAD a 256 1 131072 rest 28
: 2
: dimer
: Ar 0 0 0
: Ar 1.5 0 0
< OK LOAD a 0 2
> ADVANCE a 1
< OK ADVANCE a 1
> SHOW a 0
< OK SHOW a 1 0 589 0 0
quota sessions 1 atoms 2 branches 1
> BRANCH a k
< OK BRANCH a k 1
> ADVANCE a 1
< OK ADVANCE a 2
> DUMP a
< OK DUMP a 2 4
+ {hashlib.sha256(FRAME.encode()).hexdigest()}
> RESTORE a z
< ERR 12 NO_BRANCH
> LIST a
< OK LIST a 1
+ {hashlib.sha256(b"k 1" + bytes([10])).hexdigest()}
end
"""
COMMANDS = [line[2:] for line in DIMER_TEXT.splitlines() if line.startswith("> ")]
assert DIMER in "".join(line[2:] + "\n" for line in DIMER_TEXT.splitlines() if line.startswith(": "))


TWISTED = """\
#!{python}
import subprocess, sys
if sys.argv[1:] == ["--version"]:
    sys.exit(print("ljserve 9.9.9"))
child = subprocess.Popen([{program!r}, *sys.argv[1:]], stdout=subprocess.PIPE)
left = {number}
for line in child.stdout:
    if line == {wanted!r}:
        left -= 1
        line = {other!r} if left == 0 else line
    sys.stdout.buffer.write(line)
    sys.stdout.buffer.flush()
"""


def twisted(folder: Any, wanted: Any, other: Any, number: int = 1) -> str:
    """A program that replies as the one does, but for the line that is so for the n-th time."""
    path = folder / "twisted"
    words: Dict[str, Any] = {"program": PROGRAM, "number": number, "python": sys.executable}
    path.write_text(TWISTED.format(wanted=f"{wanted}\n".encode(), other=f"{other}\n".encode(), **words))
    path.chmod(0o755)
    return str(path)


def sums(text: Any) -> List[Any]:
    """The SHA-256 of the text up to the end of each line."""
    lines = text.splitlines(keepends=True)
    return [hashlib.sha256("".join(lines[: number + 1]).encode()).hexdigest() for number in range(len(lines))]


def with_checks(text: Any) -> str:
    """The file of these lines: each below the first begins with the first 8 digits of the SHA-256 up to its end."""
    head, *lines = str(text).splitlines(keepends=True)
    return head + "".join(f"{told[:8]} {line}" for told, line in zip(sums(text)[1:], lines))


def without_checks(path: Any) -> List[Any]:
    """The lines of a record, without what the version of a program is."""
    head, *lines = path.read_bytes().decode().split("\n")[:-1]
    told = [head, *(line[9:] for line in lines)]
    return [line for line in told if not line.startswith("program ")]


def commands(path: Any) -> List[Any]:
    """The commands of a record that were replied to, in order."""
    return [line[2:] for line in without_checks(path) if line.startswith("> ")]


def verified(*words: Any, **variables: Any) -> Tuple[Any, Any, Any]:
    """The status of verify, the lines that it writes, and those on standard error."""
    command = [sys.executable, "-m", "ljclient", "verify", *map(str, words)]
    done = subprocess.run(command, env=environment(**variables), stdin=subprocess.DEVNULL, capture_output=True, text=True, timeout=120)
    return done.returncode, done.stdout.splitlines(), done.stderr.splitlines()


def is_the_same(path: Any, *words: Any, **variables: Any) -> Any:
    """Holds that each command of a record is played, and its reply the same. Returns what is told on standard error, which is
    that the record has no end."""
    status, told, faults = verified(path, *words, **variables)
    assert status == (3 if faults else 0), (told, faults)
    played = [line.split(": ", 1)[1] for line in told if line.startswith("same ")]
    assert played == [escaped(each) for each, mark in replied(path) if mark == "<"]
    return faults


def escaped(line: Any) -> str:
    """A line as verify shows it."""
    return "".join(chr(byte) if 32 <= byte < 127 else f"\\x{byte:02x}" for byte in line.encode())


def replied(path: Any) -> Any:
    """The commands of a record, each with the mark of its reply."""
    found, line = [], ""
    for text in without_checks(path):
        if text.startswith("> "):
            line = text[2:]
        elif text[:2] in ("< ", "! "):
            found.append((line, text[0]))
    return found
