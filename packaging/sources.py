"""The sources of a release and its programs, for `wheels`, `deb` and `npm`."""
import os
import pathlib
import platform
import re
import shutil
import subprocess
import sys
from typing import List, NoReturn

TOP = pathlib.Path(__file__).resolve().parents[1]
CLIENT = pathlib.Path("clients", "python")
# The programs for each kind of machine, as Debian calls those; and what the machine itself says that it is.
PROGRAMS = {"amd64": ("ljserve-v2", "ljserve-v3"), "arm64": ("ljserve-arm64",)}
SAYS = {"amd64": "x86_64", "arm64": "aarch64"}
# Where Debian's cross packages have the C library of each machine that qemu stands in for.
LIBRARIES = {"arm64": "/usr/aarch64-linux-gnu"}
IGNORED = shutil.ignore_patterns("tests", "build", "__pycache__", "*.egg-info", ".*")


def stop(status: int, why: str) -> NoReturn:
    print(f"{pathlib.Path(sys.argv[0]).name}: {why}", file=sys.stderr)
    sys.exit(status)


def copied(source: str, target: str) -> str:
    """Copies a file. Its mode is the same wherever it is copied, since packages keep modes."""
    shutil.copyfile(source, target)
    os.chmod(target, 0o755 if os.access(source, os.X_OK) else 0o644)
    return target


def copy_folder(folder: pathlib.Path, target: pathlib.Path) -> None:
    """Copies a folder of the sources, without what is made of them."""
    shutil.copytree(TOP / folder, target, ignore=IGNORED, copy_function=copied)


def begins(machine: str, program: pathlib.Path) -> List[str]:
    """The words that begin a program here: by qemu, where it is for another machine than this one."""
    if platform.machine() == SAYS[machine]:
        return [str(program)]
    emulator = shutil.which(f"qemu-{SAYS[machine]}")
    if emulator is None or machine not in LIBRARIES:
        stop(
            69, f"cannot ask a program for {machine} for its version: qemu-{SAYS[machine]} is not installed; use apt-get install qemu-user"
        )
    return [emulator, "-L", LIBRARIES[machine], str(program)]


def version_of(machine: str, program: pathlib.Path) -> str:
    """The version that a program tells."""
    words = [*begins(machine, program), "--version"]
    try:
        told = subprocess.run(words, stdin=subprocess.DEVNULL, capture_output=True, text=True, timeout=60)
    except (OSError, subprocess.TimeoutExpired, UnicodeDecodeError) as error:
        stop(70, f"cannot start {program}: {error}")
    found = re.fullmatch(r"ljserve (\d+\.\d+\.\d+)\n?", told.stdout)
    if not found:
        stop(70, f"{program} must be a built ljserve, got a program that shows no version")
    return found[1]


def version_of_all(machine: str, programs: pathlib.Path) -> str:
    """The version that all programs for a machine tell."""
    first, *others = (version_of(machine, programs / name) for name in PROGRAMS[machine])
    if other := [version for version in others if version != first]:
        stop(70, f"{programs} must have programs of one version, got {first} and {other[0]}")
    return first


def put_identity(programs: pathlib.Path, version: str, target: pathlib.Path) -> None:
    """Writes what a package tells of its programs: the version, and the kit and the commit, where a file VERSION beside them has these."""
    told = programs / "VERSION"
    text = told.read_text(encoding="ascii") if told.is_file() else f"ljserve {version}\n"
    if text.partition("\n")[0] != f"ljserve {version}":
        stop(70, f"{told} must be of the version of the programs, {version}")
    target.write_text(text, encoding="ascii")
