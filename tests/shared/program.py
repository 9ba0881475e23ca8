"""The built program: where it is, one run of it, and what its processes hold. Needs Linux: the latter is read from /proc."""
import os
import re
import subprocess
import tempfile
import time
from contextlib import contextmanager
from dataclasses import dataclass
from typing import Any, Callable, Iterator, List, Optional, Sequence, Tuple, Union

TOP = os.path.dirname(os.path.dirname(os.path.dirname(os.path.abspath(__file__))))
# How many times slower the program may be than a native one, such as under qemu. The tests wait that much longer.
SLOWNESS = float(os.environ.get("LJSERVE_SLOWNESS", "1"))
SECONDS = 20 * SLOWNESS

# The exit status of a process, or that it did not end in time, and its two outputs.
Ended = Tuple[Union[int, str], bytes, bytes]
# How many sessions, atoms and branches a user may have.
Quota = Tuple[int, int, int]

USUAL: Quota = (8, 16384, 16)
READ_FAULT = b"ljserve: read fault\n"
WRITE_FAULT = b"ljserve: write fault\n"
NO_MEMORY: Ended = (3, b"", b"ljserve: no memory\n")


def program_at(word: Optional[str]) -> str:
    """The path of the program of this name, or of the built one, which is built if it is missing or outdated."""
    if word:
        return os.path.abspath(word)
    own = {**{name: word for name, word in os.environ.items() if name != "LJSERVE"}, "LJSERVE_CPU": "v2"}
    subprocess.run([os.path.join(TOP, "bin", "ljserve"), "--version"], stdout=subprocess.DEVNULL, env=own, check=True)
    return os.path.join(TOP, "crates", "ljserve", "out", "ljserve")


def contents(*path: str) -> bytes:
    """The bytes of a file of this repository."""
    with open(os.path.join(TOP, *path), "rb") as file:
        return file.read()


@contextmanager
def file_of(data: bytes) -> Iterator[str]:
    """The path of a temporary file of these bytes."""
    with tempfile.NamedTemporaryFile() as file:
        file.write(data)
        file.flush()
        yield file.name


def run_words(quota: Quota) -> List[str]:
    """The words of a run for a user of this quota."""
    sessions, atoms, branches = map(str, quota)
    return ["run", "--sessions", sessions, "--atoms", atoms, "--branches", branches]


@dataclass(frozen=True)
class Program:
    """A built program."""

    path: str

    def run(self, words: Sequence[Union[str, bytes]], data: bytes = b"", **streams: Any) -> Ended:
        """The status and outputs of a run over this input."""
        streams = {"stdout": subprocess.PIPE, "stderr": subprocess.PIPE, **streams}
        if "stdin" not in streams:
            streams["input"] = data
        try:
            done = subprocess.run([self.path, *words], timeout=SECONDS, **streams)
        except subprocess.TimeoutExpired:
            return "no end", b"", b""
        return done.returncode, done.stdout or b"", done.stderr or b""

    def replay_of(self, schedule: bytes, **streams: Any) -> Ended:
        """The status and outputs of a replay of this schedule."""
        with file_of(schedule) as path:
            return self.run(["replay", path], **streams)

    def replies_alone(self, data: bytes, quota: Quota = USUAL) -> bytes:
        """What `run` replies to these bytes, for a user of this quota."""
        status, out, err = self.run(run_words(quota), data)
        if (status, err) != (0, b""):
            raise AssertionError(f"a run alone ends with {status}, {err!r}")
        return out


def end_of(child: "subprocess.Popen[bytes]", data: Optional[bytes] = None, seconds: float = SECONDS) -> Ended:
    """The status and outputs of a process, after the rest of its input. It is killed if it does not end in time."""
    status: Union[int, str]
    try:
        out, err = child.communicate(data, timeout=seconds)
        status = child.returncode
    except subprocess.TimeoutExpired:
        child.kill()
        out, err = child.communicate()
        status = "no end"
    return status, out or b"", err or b""


def wait_until(holds: Callable[[], bool], seconds: float = SECONDS) -> bool:
    """Returns whether a condition holds within the time limit."""
    end = time.monotonic() + seconds
    while not holds():
        if time.monotonic() > end:
            return False
        time.sleep(0.005)
    return True


def status_of(folder: str, word: str) -> int:
    """The number of a field in the status of a process or a thread, given its folder in /proc."""
    with open(f"{folder}/status", encoding="utf-8") as file:
        found = re.search(rf"^{word}:\s*(\d+)", file.read(), re.M)
    if found is None:
        raise ValueError(f"{folder} has no {word}")
    return int(found[1])


def descriptors_of(process: int) -> int:
    """How many files a process has open."""
    return len(os.listdir(f"/proc/{process}/fd"))


def is_emulated(process: int) -> bool:
    """Whether qemu runs a program for another machine in this process."""
    return os.path.basename(os.readlink(f"/proc/{process}/exe")).startswith("qemu-")
