"""A root of its own: this machine's files under a layer in memory, in namespaces of their own, so that nothing of it stays."""
import contextlib
import pathlib
import re
import subprocess
import time
from typing import Any, Dict, Iterator, List

from support import SECONDS, present

PATH = "/usr/sbin:/usr/bin:/sbin:/bin"
# The tables of mounts, processes and network end with the first process of the namespaces.
BEGIN = """
mount -t tmpfs tmpfs "$1"
mkdir "$1/upper" "$1/work" "$1/root"
mount -t overlay overlay -o "lowerdir=/,upperdir=$1/upper,workdir=$1/work" "$1/root"
mount -t proc proc "$1/root/proc"
mount --bind /dev "$1/root/dev"
mount -t tmpfs tmpfs "$1/root/run"
mount -t tmpfs tmpfs "$1/root/tmp"
chroot "$1/root" /usr/bin/python3 -c "$2"
echo begun
exec chroot "$1/root" sleep infinity
"""
# Brings the loopback of the namespace up: SIOCSIFFLAGS of `lo`, IFF_UP.
LOOPBACK = """
import fcntl, socket, struct
with socket.socket(socket.AF_INET, socket.SOCK_DGRAM) as any_socket:
    fcntl.ioctl(any_socket, 0x8914, struct.pack("16sh", b"lo", 1))
"""


class NoRoot(Exception):
    """Why there is no root of its own here."""


class Root:
    """A root that was begun. `path` is where its files are from outside."""

    def __init__(self, process: Any) -> None:
        (number,) = pathlib.Path(f"/proc/{process.pid}/task/{process.pid}/children").read_text().split()
        self.number = number
        self.path = pathlib.Path(f"/proc/{number}/root")

    def command(self, *words: Any) -> List[Any]:
        """A command in it, for a process of this machine to begin, with nothing of the environment of this one."""
        within = ["nsenter", "--target", self.number, "--mount", "--net", "--pid", "--root", "--wd"]
        return [*within, "env", "-i", f"PATH={PATH}", "LC_ALL=C.UTF-8", "HOME=/root", "DEBIAN_FRONTEND=noninteractive", *words]

    def run(self, *words: Any, given: str = "", status: int = 0) -> Any:
        """What a command prints in it."""
        how: Dict[str, Any] = {"stdout": subprocess.PIPE, "stderr": subprocess.STDOUT, "text": True, "timeout": 10 * SECONDS}
        done = subprocess.run(self.command(*words), input=given, **how)
        assert done.returncode == status, done
        return done.stdout

    def put(self, path: Any, text: Any, mode: int = 0o644) -> None:
        """Writes a file in it. One that is there is not changed, but replaced."""
        target = self.path / path
        target.unlink(missing_ok=True)
        target.parent.mkdir(parents=True, exist_ok=True)
        target.write_text(text)
        target.chmod(mode)

    def await_listener(self, port: Any) -> None:
        """Waits until something listens at a port of 127.0.0.1."""
        row = re.compile(rf"0100007F:{port:04X} 00000000:0000 0A ")
        end = time.monotonic() + 4 * SECONDS
        while not row.search(pathlib.Path(f"/proc/{self.number}/net/tcp").read_text()):
            assert time.monotonic() < end, f"nothing listens at port {port}"
            time.sleep(0.05)


@contextlib.contextmanager
def root_of_its_own(folder: Any) -> Iterator[Any]:
    """A root that is gone at the end, with all that runs in it. Raises NoRoot if none can be had here."""
    words = ["unshare", "--mount", "--net", "--pid", "--fork", "--kill-child", "sh", "-ec", BEGIN, "sh", str(folder), LOOPBACK]
    try:
        process = subprocess.Popen(words, stdin=subprocess.DEVNULL, stdout=subprocess.PIPE, stderr=subprocess.PIPE, text=True)
    except OSError as error:
        raise NoRoot(str(error)) from error
    with process:
        try:
            if present(process.stdout).readline() != "begun\n":
                raise NoRoot(process.communicate()[1].strip())
            yield Root(process)
        finally:
            process.kill()


# What begins systemd as the first process of a root, again and again, since an end of it is a loss of power. Services that this
# machine has are not begun there. The folder of nspawn is below /run.
BOOT = """
mount -t proc proc /proc
mount -t tmpfs tmpfs /run
mount -t tmpfs tmpfs "$1"
mkdir "$1/upper" "$1/work" "$1/root"
mount -t overlay overlay -o "lowerdir=/,upperdir=$1/upper,workdir=$1/work" "$1/root"
rm -rf "$1"/root/etc/systemd/system/*.wants
od -An -N16 -tx1 /dev/urandom | tr -d ' \\n' >"$1/root/etc/machine-id"
begin() { systemd-nspawn --quiet --register=no --keep-unit --private-network --console=pipe --directory="$1/root" "$2"; }
begin "$1" /bin/true
while :; do
    mount -t tmpfs tmpfs "$1/root/run"
    mount -t tmpfs tmpfs "$1/root/tmp"
    begin "$1" --boot || echo "ended: $?"
    umount "$1/root/run" "$1/root/tmp"
done
"""


class Machine(Root):
    """A root whose first process is systemd."""

    def __init__(self, process: Any) -> None:
        self.process = process
        self.boot()

    def boot(self) -> None:
        """Waits until systemd has begun all services."""
        end = time.monotonic() + 4 * SECONDS
        while not (number := first_process(str(self.process.pid))) or not self.has_begun(number):
            if time.monotonic() > end or self.process.poll() is not None:
                raise NoRoot("systemd does not begin")
            time.sleep(0.2)

    def has_begun(self, number: str) -> bool:
        self.number, self.path = number, pathlib.Path(f"/proc/{number}/root")
        asked = subprocess.run(self.command("systemctl", "is-active", "multi-user.target"), capture_output=True, text=True)
        return asked.stdout == "active\n"

    def lose_power(self) -> None:
        """Ends all that runs there at once, and waits until it has begun again."""
        ended = self.number
        subprocess.run(["kill", "-KILL", ended], check=True)
        while pathlib.Path(f"/proc/{ended}").exists():
            time.sleep(0.05)
        self.boot()


def first_process(parent: str) -> str:
    """Of what a process has begun, the first process of a namespace that is systemd; nothing where there is none yet."""
    below = [parent]
    for number in below:
        try:
            status = pathlib.Path(f"/proc/{number}/status").read_text()
            below += pathlib.Path(f"/proc/{number}/task/{number}/children").read_text().split()
        except OSError:  # it has just ended
            continue
        if status.startswith("Name:\tsystemd\n") and re.search(r"^NSpid:.*\t1$", status, re.M):
            return number
    return ""


@contextlib.contextmanager
def machine_of_its_own(folder: Any) -> Iterator[Machine]:
    """A machine that is gone at the end. Raises NoRoot if none can be had here."""
    words = ["unshare", "--mount", "--pid", "--fork", "--kill-child", "sh", "-ec", BOOT, "sh", str(folder)]
    with open(folder.with_suffix(".log"), "wb") as log:
        with subprocess.Popen(words, stdin=subprocess.DEVNULL, stdout=log, stderr=log) as process:
            try:
                yield Machine(process)
            finally:
                process.kill()
