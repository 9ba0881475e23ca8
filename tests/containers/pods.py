"""Images made by packaging/container, and containers of them by podman, with images and networks of their own."""
from __future__ import annotations

import contextlib
import json
import os
import re
import shutil
import subprocess
import time
from pathlib import Path
from typing import Any, Callable, Dict, Iterator, List, Sequence

import pytest

TOP = Path(__file__).resolve().parents[2]
SECONDS = 120
# The number of the user of both images.
USER = 400


class NoContainers(Exception):
    """Why there are no containers here."""


LISTENS = """
#include <arpa/inet.h>
#include <stdio.h>
#include <string.h>
#include <unistd.h>

int main(int count, char **words) {
    if (count == 2 && !strcmp(words[1], "--version")) return puts("ljserve 1.2.3") < 0;
    struct sockaddr_in at = {.sin_family = AF_INET, .sin_port = htons(4000)};
    int all = socket(AF_INET, SOCK_STREAM, 0);
    if (count < 2 || strcmp(words[1], "serve") || bind(all, (void *)&at, sizeof at) || listen(all, 9)) return 1;
    for (;;) {
        char line[5];
        int one = accept(all, 0, 0);
        if (read(one, line, 5) == 5) write(one, line, 5);
        close(one);
    }
}
"""


def needs(*commands: str) -> None:
    """Skips a test for the first command that is not installed."""
    for command in commands:
        if shutil.which(command) is None:
            pytest.skip(f"{command} is not installed")


def compiled(compiler: str, folder: Path) -> Path:
    """A program that is linked statically, and listens on port 4000."""
    needs(compiler)
    (folder / "listens.c").write_text(LISTENS)
    subprocess.run([compiler, "-static", "-O1", "-w", "-o", folder / "listens", folder / "listens.c"], check=True)
    return folder / "listens"


def made(*words: Any, status: int = 0, date: str = "1700000000") -> str:
    """What packaging/container prints, or what it says of a fault."""
    environment = {**os.environ, "SOURCE_DATE_EPOCH": date, "PYTHONDONTWRITEBYTECODE": "1"}
    command = [str(TOP / "packaging" / "container"), *map(str, words)]
    done = subprocess.run(command, env=environment, capture_output=True, text=True, timeout=20 * SECONDS)
    assert done.returncode == status, done
    return done.stderr if status else done.stdout


def until(holds: Callable[[], Any], seconds: float = SECONDS) -> Any:
    """Waits until something holds, and returns what it is."""
    end = time.monotonic() + seconds
    while not (found := holds()):
        assert time.monotonic() < end, "it does not come to hold"
        time.sleep(0.1)
    return found


class Container:
    """One that was made. It may have ended."""

    def __init__(self, podman: Podman, name: str) -> None:
        self.podman, self.name = podman, name

    def inspect(self) -> Any:
        return json.loads(self.podman.run("container", "inspect", self.name))[0]

    def address(self) -> str:
        """Where it is reached from this machine."""
        (network,) = self.inspect()["NetworkSettings"]["Networks"].values()
        return str(network["IPAddress"])

    def status(self) -> Any:
        """The status with which it ended, or None while it runs."""
        state = self.inspect()["State"]
        return None if state["Status"] == "running" else state["ExitCode"]

    def run(self, *words: str, status: int = 0) -> str:
        """What a command in it prints."""
        return self.podman.run("exec", self.name, *words, status=status)

    def processes(self) -> Dict[int, str]:
        """The numbers and command lines of its processes, as this machine sees them."""
        first = self.inspect()["State"]["Pid"]
        space = os.readlink(f"/proc/{first}/ns/pid")
        found = {}
        for path in Path("/proc").glob("[0-9]*"):
            with contextlib.suppress(OSError):
                if os.readlink(path / "ns" / "pid") == space:
                    found[int(path.name)] = (path / "cmdline").read_text().replace("\0", " ")
        return found

    def users(self) -> List[List[str]]:
        """The real, effective, saved and file numbers of the user and of the group of each of its processes."""
        texts = [Path(f"/proc/{number}/status").read_text() for number in self.processes()]
        return [re.findall(rf"^{key}:\t(.*)$", text, re.M) for text in texts for key in ("Uid", "Gid")]

    def stop(self) -> None:
        self.podman.run("stop", "--time", "30", self.name)

    def kill(self) -> None:
        self.podman.run("kill", "--signal", "KILL", self.name)
        until(lambda: self.status() is not None)

    def start(self) -> None:
        self.podman.run("start", self.name)

    def remove(self) -> None:
        self.podman.run("rm", "--force", "--time", "0", self.name)


class Podman:
    """A podman whose images, containers and volumes are in a folder."""

    def __init__(self, folder: Path) -> None:
        self._folder, self._made = folder, 0
        own = {"root": "store", "runroot": "run", "tmpdir": "tmp", "network-config-dir": "networks"}
        self._words = ["podman", *(f"--{option}={folder / name}" for option, name in own.items())]
        self._words += ["--storage-driver=vfs", "--cgroup-manager=cgroupfs", "--events-backend=none"]
        # Where cgroups are of both kinds, runc alone has containers.
        self._words += ["--runtime=runc"] if shutil.which("runc") else []
        # What podman has by itself may be more than a machine lets root have.
        self.limits = ["--ulimit=nofile=4096:4096", "--ulimit=nproc=4096:4096"]

    def words(self, *words: Any) -> List[str]:
        """What calls it."""
        return [*self._words, *map(str, words)]

    def run(self, *words: Any, status: int = 0) -> str:
        """What podman prints. Raises AssertionError with what it says if its status is another one."""
        done = subprocess.run(self.words(*words), stdin=subprocess.DEVNULL, capture_output=True, text=True, timeout=SECONDS)
        assert done.returncode == status, f"{words}: {done.stdout}{done.stderr}"
        return done.stdout

    def load(self, archive: str) -> str:
        """The name of an image that is taken from an archive."""
        return self.run("load", "--quiet", "--input", archive).strip().rpartition(": ")[2]

    def container(self, image: str, *options: str, words: Sequence[str] = ()) -> Container:
        """A container that has begun, with a root that it cannot write, and no rights of its own."""
        self._made += 1
        name = f"ljserve-test-{os.getpid()}-{self._made}"
        how = ["--detach", "--read-only", "--read-only-tmpfs=false", "--cap-drop=all", "--security-opt=no-new-privileges"]
        self.run("run", f"--name={name}", *how, *self.limits, *options, image, *words)
        return Container(self, name)

    def end(self) -> None:
        with contextlib.suppress(AssertionError, subprocess.TimeoutExpired):
            self.run("rm", "--all", "--force", "--time", "0")


@contextlib.contextmanager
def podman_at(folder: Path) -> Iterator[Podman]:
    """A podman, whose containers are gone at the end."""
    podman = Podman(folder)
    try:
        yield podman
    finally:
        podman.end()
