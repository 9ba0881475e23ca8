"""The journals of earlier versions, a file NAME.journal for each user, which are taken over into the store.

A journal begins with a line that has the format number and the user's name. A record is

    LENGTH CHECK           7 digits, and 8 of the SHA-256 of all text up to them
    REPLY ITEM             LENGTH bytes: the reply, and then the item as it was sent
    CHECK                  on a line of its own: 16 digits of the SHA-256 of all text up to them

with all line feeds included, and the checks themselves left out. No reply was sent for an incomplete record at the end.
"""
import hashlib
import pathlib
from typing import Callable, Iterator, List

from .items import Told
from .sqlite import sync_folder
from .store import Change, Damaged, Store

HEAD = "ljserve journal 1 {}\n"
SUFFIX = ".journal"
BEFORE = "before"
BYTES_OF_HEAD = 17
BYTES_OF_TAIL = 18


def whole_records(data: bytes, name: str) -> Iterator[Told]:
    """The whole records of a journal. Raises `Damaged` at a changed one. Zeros at the end may be left by a power cut: a whole record
    ends with a line feed."""
    data = data.rstrip(b"\0")
    head = HEAD.format(name).encode()
    if not data.startswith(head):
        if len(data) < len(head) and head.startswith(data):
            return
        raise Damaged("its first line was changed")
    at, check = len(head), hashlib.sha256(head)
    while len(data) >= at + BYTES_OF_HEAD:
        length = data[at : at + 7]
        check.update(length)
        begun = at + BYTES_OF_HEAD
        if not length.isdigit() or data[at:begun] != b"%s %s\n" % (length, check.hexdigest()[:8].encode()):
            raise Damaged(f"the record at byte {at} was changed")
        end = begun + int(length)
        if len(data) < end + BYTES_OF_TAIL:
            return
        check.update(data[begun:end])
        if data[end : end + BYTES_OF_TAIL] != b"\n%s\n" % check.hexdigest()[:16].encode():
            raise Damaged(f"the record at byte {at} was changed")
        reply, _, item = data[begun:end].partition(b"\n")
        yield Told(item, reply + b"\n")
        at = end + BYTES_OF_TAIL


def path_of(folder: pathlib.Path, name: str) -> pathlib.Path:
    return folder / f"{name}{SUFFIX}"


def names_in(folder: pathlib.Path) -> List[str]:
    """The users who have a journal in a folder."""
    return sorted(path.name[: -len(SUFFIX)] for path in folder.glob(f"*{SUFFIX}"))


def take_over(folder: pathlib.Path, name: str, store: Store) -> None:
    """Puts a journal's records into a store. Raises `Damaged`, OSError or `StoreFault`, and then leaves the journal."""
    put_in(folder, name, store, [*whole_records(path_of(folder, name).read_bytes(), name)])


def put_in(folder: pathlib.Path, name: str, store: Store, records: List[Told]) -> None:
    """Writes the records of a journal to a store, and then moves the journal to the folder BEFORE. After an interruption in between,
    the store has them already."""
    found = store.read(name)
    if not found.seq and not found.records:
        store.write([Change(name, records)])
        store.base.sync()
    elif found.seq or found.records != records:
        raise Damaged(f"the store has other records; move {path_of(folder, name)} away, or use another folder")
    (folder / BEFORE).mkdir(mode=0o700, exist_ok=True)
    path_of(folder, name).rename(path_of(folder / BEFORE, name))
    sync_folder(folder / BEFORE)
    sync_folder(folder)


def take_over_all(folder: pathlib.Path, store: Store, refuse: Callable[[str, str], None]) -> List[str]:
    """Takes over all journals of a folder. Calls `refuse` for damaged or unusable ones, and returns the other names."""
    taken = []
    for name in names_in(folder):
        try:
            take_over(folder, name, store)
            taken.append(name)
        except Damaged as error:
            refuse(name, f"its journal is damaged: {error}")
        except OSError as error:
            refuse(name, f"its journal cannot be used: {error.strerror}")
    return taken
