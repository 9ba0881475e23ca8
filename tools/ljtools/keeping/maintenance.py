"""Commands of an operator for a store: copies it, removes damaged records, and moves users between stores."""
import contextlib
import json
import os
import pathlib
import socket
import sys
from typing import Callable, Dict, Iterable, Iterator, List, Tuple

from ..user_files import Fault
from .accounts import accounts_at, changes_behind
from .items import Told
from .journal import names_in, path_of, put_in, whole_records
from .kick import kick
from .place import FILE, Folder, database_at, is_address, place_of, shown_place
from .sessions import shown
from .sqlite import Sqlite
from .store import SNAPSHOT_FAULT, Change, Damaged, Kept, Part, Snapshot, Store, check_of

FORMAT = "ljserve user 2"
MOST_SHOWN = 20


@contextlib.contextmanager
def opened(place: str, is_made: bool = False) -> Iterator[Store]:
    """The store of a place, which a front may use at the same time. If there is none, makes it or raises Fault."""
    if is_address(place):
        with contextlib.closing(database_at(place)) as base:
            if is_made:
                base.make()
            yield Store(base)
        return
    file = pathlib.Path(place, FILE)
    if not file.exists() and not is_made:
        raise Fault(f"cannot use {place}: it has no store; use `tools/users NAME.. --store {place}` or start `tools/keep` to make one")
    if not file.exists():
        # The folder's owner owns it, even if root makes it.
        with contextlib.closing(Folder(file.parent)):
            os.chown(file, file.parent.stat().st_uid, file.parent.stat().st_gid)
    with contextlib.closing(Sqlite(file)) as one:
        yield Store(one)


@contextlib.contextmanager
def alone(place: str, name: str) -> Iterator[Store]:
    """The store of a place, where no front has the user meanwhile. It is made if it is missing."""
    with contextlib.closing(place_of(place, True)) as own:
        own.begin(f"{socket.gethostname()}, process {os.getpid()}", False)
        if owner := own.claim(name):
            raise Fault(f"cannot change {name}: the front at {owner.address} has this user; end it first")
        yield Store(own.base)


def check_users(place: str, file: str) -> None:
    """Raises Fault if a file of users is faulty, or if there is no file and the store has no users."""
    if file:
        accounts_at(pathlib.Path(file))
        return
    if is_address(place) or pathlib.Path(place, FILE).exists():
        with opened(place, True) as store:
            if changes_behind(store.base, 0).number:
                return
    raise Fault(f"cannot start: {shown_place(place)} has no users; use `tools/users --store` to add some, or --users FILE after --")


def back_up(place: str, to: str) -> None:
    """Writes a copy of a store to a file, which appears when it is whole. A front may run meanwhile."""
    copy = pathlib.Path(f"{to}.new")
    if pathlib.Path(to).exists():
        raise Fault(f"cannot write {to}: it exists already; use another name")
    copy.unlink(missing_ok=True)
    with opened(place) as store, contextlib.closing(Sqlite(copy)) as base:
        store.copy_into(base)
    copy.replace(to)
    print(
        f"{to} has all that is kept in {shown_place(place)}. To return to it, put it into an empty folder as {FILE}, and start keep there"
    )


def repair(place: str, name: str) -> None:
    """Cuts the data of a user after the last whole record, also in an old journal. First prints what is lost."""
    path = pathlib.Path(place)
    with alone(place, name) as store:
        if name in names_in(path):
            whole, fault = whole_of(whole_records(path_of(path, name).read_bytes(), name))
            tell_loss(name, whole, fault, [])
            put_in(path, name, store, whole)
            return
        whole, fault = whole_of(store.records(name))
        rows, (parts, gone) = store.rows(name), store.whole_parts(name)
        is_changed = bool(gone) or fault == SNAPSHOT_FAULT
        if is_changed:
            # Records since a snapshot are useless without it.
            whole, fault = [], fault or "nothing else is damaged"
            print(f"{name}: {len(parts)} sessions and branches stay, and {len(gone)} are removed: those of records {gone}")
        tell_loss(name, whole, fault, [Told(item, reply) for _, item, reply, _ in rows[len(whole) :]])
        store.cut(name, rows[len(whole) - 1][0] if whole else 0)
        if is_changed:
            ids = [part.id for part in parts]
            store.write([Change(name, (), Snapshot(max([0, *ids, *gone, *(row[0] for row in rows)]), parts, ids))])


def whole_of(records: Iterable[Told]) -> Tuple[List[Told], str]:
    """The records before the first damaged one, and its fault."""
    whole: List[Told] = []
    try:
        whole.extend(records)
    except Damaged as damage:
        return whole, str(damage)
    return whole, ""


def tell_loss(name: str, whole: List[Told], fault: str, lost: List[Told]) -> None:
    """Prints what a user keeps and loses."""
    print(f"{name}: {fault or 'nothing is damaged'}. What stays: {len(whole)} records")
    for record in lost[:MOST_SHOWN]:
        print(f"  goes: {shown(record.item)}: {shown(record.reply)}")
    if len(lost) > MOST_SHOWN:
        print(f"  .. and {len(lost) - MOST_SHOWN} more")
    sys.stdout.flush()


def export(place: str, name: str) -> None:
    """Prints the data of a user as JSON, each byte of items and replies as a character. A front may run meanwhile."""
    with opened(place) as store:
        try:
            kept = store.read_whole(name)
        except Damaged as damage:
            raise Fault(f"cannot export {name}: the store is damaged ({damage}); use --repair {name}") from damage
    if not kept.seq and not kept.records:
        raise Fault(f"cannot export {name}: {shown_place(place)} has nothing of this user")
    parts, records = [[texted(each) for each in part] for part in kept.parts], [[texted(each) for each in told] for told in kept.records]
    known = {
        "format": FORMAT,
        "name": name.partition(".")[0],
        "seq": kept.seq,
        "running": texted(kept.running),
        "parts": parts,
        "records": records,
        "check": check_of(name, kept).hex(),
    }
    json.dump(known, sys.stdout, indent=0)
    print()


def texted(value: object) -> object:
    """A value for JSON, where each byte is a character."""
    return value.decode("latin-1") if isinstance(value, bytes) else value


def import_user(place: str, file: str) -> None:
    """Adds a user printed by `export` to a store, which must have nothing of this user."""
    try:
        told = json.loads(pathlib.Path(file).read_text())
        name, format, seq = str(told["name"]), told["format"], int(told["seq"])
        parts = [Part(*(value if isinstance(value, int) else value.encode("latin-1") for value in row)) for row in told["parts"]]
        records = [Told(*(text.encode("latin-1") for text in row)) for row in told["records"]]
        kept = Kept(seq, parts, records, told["running"].encode("latin-1"))
        is_whole = format == FORMAT and told["check"] == check_of(name, kept).hex()
    except OSError as error:
        raise Fault(f"cannot read {file}: {error.strerror}") from error
    except (ValueError, KeyError, TypeError, AttributeError) as error:
        raise Fault(f"cannot import {file}: it is not a file of --export") from error
    if not is_whole:
        raise Fault(f"cannot import {file}: it was changed, or its format is not {FORMAT!r}")
    with alone(place, name) as store:
        if name in store.names() or name in names_in(pathlib.Path(place)):
            raise Fault(f"cannot import {name}: {shown_place(place)} has something of this user already")
        store.read(name)
        store.write([Change(name, kept.records, Snapshot(seq, parts, [part.id for part in parts], kept.running) if seq else None)])
    print(f"{shown_place(place)} has {name} now")


COMMANDS: Dict[str, Callable[[str, str], None]] = {
    "backup": back_up, "repair": repair, "export": export, "import_user": import_user, "kick": kick,
}  # fmt: skip
