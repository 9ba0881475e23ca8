"""The store in a database: for each user a snapshot, and the records of the commands since.

A snapshot has a part for each session and each branch, with the number of the record that made it. Records are numbered from 1. The
hash of a record includes the hash before it, and the hash of a snapshot includes the hashes of its parts. So a changed or missing row
is detected, and stops only its user. The SQL is written for SQLite; another database (`Base`) translates it.
"""
import hashlib
from typing import Any, ContextManager, Dict, Iterable, Iterator, List, NamedTuple, Optional, Protocol, Sequence, Tuple

from .items import Told

BYTES_OF_CHAIN = 16
SNAPSHOT_FAULT = "its snapshot was changed"
SCHEMA = """
create table if not exists record (
    name text not null, seq bigint not null, item blob not null, reply blob not null, chain blob not null,
    primary key (name, seq)
) without rowid;
create table if not exists snapshot (name text primary key, seq bigint not null, running blob not null, chain blob not null)
    without rowid;
create table if not exists part (
    name text not null, id bigint not null, session bigint not null, text blob not null, step bigint not null,
    direction bigint not null, measured blob not null, symbols blob not null, frames blob not null, hash blob not null,
    primary key (name, id)
);
create table if not exists account (
    name text primary key, token text not null, quota text not null, changed bigint not null, removed text not null
);
create index if not exists account_changed on account (changed);
"""
# Insert statements, by table.
INSERTS = {
    table: f"insert into {table} values ({', '.join('?' * columns)})" for table, columns in (("record", 5), ("snapshot", 4), ("part", 10))
}
HEAD = "id, session, cast(text as blob), step, direction, cast(measured as blob)"
Row = Tuple[Any, ...]
Statement = Tuple[str, Row]


class Damaged(Exception):
    """The stored data of a user was changed."""


class StoreFault(Exception):
    """A store cannot be used."""


class Fenced(StoreFault):
    """Another front has taken over."""


class Part(NamedTuple):
    """A session or a branch as it was at a snapshot."""

    id: int  # the number of the record that made it
    session: int  # for a branch, the id of its session, else 0
    text: bytes  # the line that loads it, without the count, or the name of a branch
    step: int
    direction: int
    measured: bytes = b""  # a session's reply to MEASURE, from the number of atoms on
    symbols: bytes = b""  # symbols of a session's atoms, with blanks between
    frames: bytes = b""  # previous and present places, as 32-bit unsigned integers


class Snapshot(NamedTuple):
    """The data of a snapshot, which replaces all records up to `seq`."""

    seq: int
    parts: Sequence[Part]  # the new and the changed ones
    ids: Sequence[int]  # of all parts
    running: bytes = b""  # an ADVANCE by the remaining steps, which is the next record


class Kept(NamedTuple):
    """The stored data of a user: parts without symbols and frames, and the records after `seq`."""

    seq: int
    parts: List[Part]
    records: List[Told]
    running: bytes = b""


class Change(NamedTuple):
    """A write for a user: a snapshot, and records after all stored ones."""

    name: str
    records: Sequence[Told] = ()
    snapshot: Optional[Snapshot] = None


class Base(Protocol):
    """A database. Threads may call it at the same time, and each call may raise `StoreFault`."""

    def rows(self, words: str, values: Row = ()) -> List[Row]:
        """The found rows."""

    def write(self, statements: Sequence[Statement]) -> None:
        """Executes all statements in order, or none."""

    def view(self) -> ContextManager[None]:
        """Within it all reads see the same state."""

    def sync(self) -> None:
        """Flushes all writes to the disk."""

    def close(self) -> None:
        """Closes the database."""


class End(NamedTuple):
    """The end of a user's records or of a snapshot: the last number, its hash, and the hashes of all parts."""

    seq: int
    chain: bytes
    hashes: Dict[int, bytes]


def first_chain(name: str) -> bytes:
    """The hash before the first record of a user. It is the same for data that was put aside as NAME.DATE."""
    return hashlib.sha256(b"ljserve user %s" % name.partition(".")[0].encode()).digest()[:BYTES_OF_CHAIN]


def next_chain(before: bytes, record: Told) -> bytes:
    text = b"%s%d %s%s" % (before, len(record.reply), record.reply, record.item)
    return hashlib.sha256(text).digest()[:BYTES_OF_CHAIN]


def hash_of(part: Part) -> bytes:
    texts = (part.text, part.measured, part.symbols, part.frames)
    numbers = (part.id, part.session, part.step, part.direction, *map(len, texts))
    return hashlib.sha256(b"".join([b"%d " % number for number in numbers] + [*texts])).digest()[:BYTES_OF_CHAIN]


def snapshot_chain(name: str, seq: int, running: bytes, hashes: Iterable[bytes]) -> bytes:
    """The hash before the first record after a snapshot."""
    return hashlib.sha256(b"%s%d %s %s" % (first_chain(name), seq, running, b"".join(hashes))).digest()[:BYTES_OF_CHAIN]


def check_of(name: str, kept: Kept) -> bytes:
    """The hash of a user's last record. All parts must be whole."""
    chain = snapshot_chain(name, kept.seq, kept.running, map(hash_of, kept.parts)) if kept.seq else first_chain(name)
    for record in kept.records:
        chain = next_chain(chain, record)
    return chain


class Store:
    """The users' data in a database. Only one process at a time may write a user's data."""

    def __init__(self, base: Base):
        self.base = base
        self._ends: Dict[str, End] = {}

    def names(self) -> List[str]:
        """The users with stored data."""
        words = " union ".join(f"select name from {table}" for table in INSERTS)
        return [name for (name,) in self.base.rows(f"{words} order by name")]

    def names_with_records(self) -> List[str]:
        """The users with records since their snapshots."""
        return [name for (name,) in self.base.rows("select distinct name from record order by name")]

    def forget(self, name: str) -> None:
        """Forgets where a user's records end. The user must be read again before a write."""
        self._ends.pop(name, None)

    def rows(self, name: str) -> List[Row]:
        """Number, item, reply and hash of each record of a user, unchecked."""
        words = "select seq, cast(item as blob), cast(reply as blob), cast(chain as blob) from record where name = ? order by seq"
        return self.base.rows(words, (name,))

    def records(self, name: str) -> Iterator[Told]:
        """The records of a user up to the first changed or missing one. Raises `Damaged` there."""
        (seq, chain, hashes), _ = self._begin_of(name)
        for number, item, reply, found in self.rows(name):
            record = Told(item, reply)
            seq, chain = seq + 1, next_chain(chain, record)
            if (number, found) != (seq, chain):
                raise Damaged(f"record {seq} was changed or is missing")
            yield record
        self._ends[name] = End(seq, chain, hashes)

    def _begin_of(self, name: str) -> Tuple[End, bytes]:
        """The end before the first record, and the running item. Raises `Damaged` if the snapshot was changed."""
        words = "select seq, cast(running as blob), cast(chain as blob) from snapshot where name = ?"
        found, hashes = self.base.rows(words, (name,)), self._hashes(name)
        seq, running, chain = found[0] if found else (0, b"", first_chain(name))
        if (found or hashes) and chain != snapshot_chain(name, seq, running, hashes.values()):
            raise Damaged(SNAPSHOT_FAULT)
        return End(seq, chain, hashes), running

    def _hashes(self, name: str) -> Dict[int, bytes]:
        words = "select id, cast(hash as blob) from part where name = ? order by id"
        return {id: found for id, found in self.base.rows(words, (name,))}

    def read(self, name: str) -> Kept:
        """The data of a user, which must be read before a write. Raises `Damaged` if it was changed."""
        with self.base.view():
            return self._read(name)

    def _read(self, name: str) -> Kept:
        records = [*self.records(name)]
        parts = [Part(*row) for row in self.base.rows(f"select {HEAD} from part where name = ? order by id", (name,))]
        end, running = self._begin_of(name)
        return Kept(end.seq, parts, records, running if not records else b"")

    def read_whole(self, name: str) -> Kept:
        """As `read`, with whole parts."""
        with self.base.view():
            kept = self._read(name)
            return kept._replace(parts=[self.part(name, part.id) for part in kept.parts])

    def part(self, name: str, id: int) -> Part:
        """A whole part. Raises `Damaged` if it was changed."""
        words = f"select {HEAD}, cast(symbols as blob), cast(frames as blob), cast(hash as blob) from part where name = ? and id = ?"
        for *row, found in self.base.rows(words, (name, id)):
            if hash_of(part := Part(*row)) == found:
                return part
        raise Damaged(f"what record {id} made was changed")

    def whole_parts(self, name: str) -> Tuple[List[Part], List[int]]:
        """The unchanged parts, except branches of changed sessions, and the ids of all others."""
        parts, lost = [], []
        for id in self._hashes(name):
            try:
                parts.append(self.part(name, id))
            except Damaged:
                lost.append(id)
        left = [part for part in parts if part.session not in lost]
        return left, lost + [part.id for part in parts if part not in left]

    def write(self, changes: Sequence[Change]) -> None:
        """Writes changes, at most one per user, all or none."""
        statements: List[Statement] = []
        ends = {change.name: self._written(change, statements) for change in changes}
        self.base.write(statements)
        self._ends.update(ends)

    def _written(self, change: Change, statements: List[Statement]) -> End:
        """Adds the statements of a change, and returns its end."""
        name = change.name
        end = self._put(name, change.snapshot, statements) if change.snapshot is not None else self._ends[name]
        seq, chain, hashes = end
        for record in change.records:
            seq, chain = seq + 1, next_chain(chain, record)
            statements.append((INSERTS["record"], (name, seq, record.item, record.reply, chain)))
        return End(seq, chain, hashes)

    def _put(self, name: str, snapshot: Snapshot, statements: List[Statement]) -> End:
        """Adds the statements that write a snapshot and delete the one before and the records up to it."""
        seq, running = snapshot.seq, snapshot.running
        anew = {part.id: hash_of(part) for part in snapshot.parts}
        hashes = {**(self._ends[name].hashes if name in self._ends else {}), **anew}
        hashes = {id: hashes[id] for id in sorted(snapshot.ids)}
        stay = ", ".join(map(str, [0, *(id for id in snapshot.ids if id not in anew)]))
        chain = snapshot_chain(name, seq, running, hashes.values())
        statements += [
            (f"delete from part where name = ? and id not in ({stay})", (name,)),
            *((INSERTS["part"], (name, *part, anew[part.id])) for part in snapshot.parts),
            ("delete from record where name = ? and seq <= ?", (name, seq)),
            ("delete from snapshot where name = ?", (name,)),
            (INSERTS["snapshot"], (name, seq, running, chain)),
        ]
        return End(seq, chain, hashes)

    def cut(self, name: str, seq: int) -> None:
        """Deletes a user's records after number `seq`."""
        self.base.write([("delete from record where name = ? and seq > ?", (name, seq))])

    def put_aside(self, name: str) -> str:
        """Renames the data of a removed user to NAME.DATE. Returns that name, or nothing if the user was not removed."""
        ((removed,),) = self.base.rows("select removed from account where name = ?", (name,)) or [("",)]
        if not removed:
            return ""
        aside, is_one = f"{name}.{removed}", "exists (select name from account where name = ? and removed = ?)"
        moves = [(f"update {table} set name = ? where name = ? and {is_one}", (aside, name, name, removed)) for table in INSERTS]
        self.base.write([*moves, ("update account set removed = '' where name = ? and removed = ?", (name, removed))])
        return aside

    def copy_into(self, other: Base) -> None:
        """Copies all rows, as they are now, into an empty database."""
        with self.base.view():
            accounts = self.base.rows("select * from account")
            other.write([("insert into account values (?, ?, ?, ?, ?)", row) for row in accounts])
            for name in self.names():
                for table, insert in INSERTS.items():
                    other.write([(insert, row) for row in self.base.rows(f"select * from {table} where name = ?", (name,))])
