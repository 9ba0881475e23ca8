"""Files that are written whole: an older file stays until the new one is complete."""
from __future__ import annotations

import contextlib
import errno
import os
import stat
from typing import TYPE_CHECKING, Tuple, Union

from .later import Later

if TYPE_CHECKING:
    import tempfile
else:
    tempfile = Later("tempfile")

Path = Union[str, os.PathLike[str]]
KINDS = {
    stat.S_IFDIR: "a directory",
    stat.S_IFIFO: "a FIFO",
    stat.S_IFCHR: "a device",
    stat.S_IFBLK: "a device",
    stat.S_IFSOCK: "a socket",
}


def write_whole(path: Path, data: bytes) -> None:
    """Writes a file, following symbolic links. An older file stays until the new one is complete, and the new one gets its mode.

    Raises ValueError, and changes nothing, if something other than a regular file is there.
    """
    target = checked_target(path)
    descriptor, partial = begin_beside(target)
    try:
        with open(descriptor, "wb") as file:
            file.write(data)
            file.flush()
            os.fsync(file.fileno())
        put_in_place(partial, target)
    except BaseException:
        with contextlib.suppress(FileNotFoundError):
            os.unlink(partial)
        raise


def begin_beside(target: str) -> Tuple[int, str]:
    """The open descriptor and the unpredictable name of a new empty file in the folder of another one.

    It has the mode of the other file or, if that does not exist, of a new one.
    """
    folder, name = os.path.split(target)
    descriptor, partial = tempfile.mkstemp(".part", f"{name}.", folder)
    os.chmod(partial, _mode_for(target))
    return descriptor, partial


def _mode_for(target: str) -> int:
    """The mode of a file, or of a new one if it does not exist."""
    with contextlib.suppress(FileNotFoundError):
        return os.stat(target).st_mode & 0o777
    # The mask can be read only by setting it. Meanwhile files of other threads are for their owner alone.
    mask = os.umask(0o077)
    os.umask(mask)
    return 0o666 & ~mask


def put_in_place(partial: str, target: str) -> None:
    """Renames a complete file to replace another one, on the disk too: the folder is synced."""
    os.replace(partial, target)
    try:
        folder = os.open(os.path.dirname(target), os.O_RDONLY)
    except OSError:
        return  # a folder that may be written but not read, or a system that opens no folders
    try:
        os.fsync(folder)
    except OSError as error:
        if error.errno not in (errno.EINVAL, errno.ENOTSUP):
            raise
    finally:
        os.close(folder)


def checked_target(path: Path) -> str:
    """The file that a path names, behind symbolic links. Raises ValueError if it exists and is not a regular file.

    Otherwise a device, for example, would be replaced by a file.
    """
    target = os.path.realpath(path)
    try:
        mode = os.stat(target).st_mode
    except FileNotFoundError:
        return target
    if not stat.S_ISREG(mode):
        kind = KINDS.get(stat.S_IFMT(mode), "no regular file")
        raise ValueError(f"cannot write {os.fspath(path)}: it is {kind} (nothing was changed); use the name of a file")
    return target
