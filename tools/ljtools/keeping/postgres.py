"""A database of PostgreSQL that several fronts share: the store, the front of each user, and the state of each front.

A front has a row, and while it is connected the advisory lock of its number. It may write until its row is marked dead, which each of
its transactions checks. Whoever takes a user from a front that has lost its lock, and does not answer, marks it dead. This waits for
the writes of the dead front that are under way, and its later writes are refused.
"""
import contextlib
import math
import threading
import time
from collections import deque
from typing import Any, ContextManager, Deque, Dict, Iterator, List, Mapping, Optional, Sequence

import psycopg2
from psycopg2 import errors, extensions

from .place import KICK, STATUS, Owner, Place, answer_of
from .store import SCHEMA, Base, Fenced, Row, Statement, StoreFault

FORMAT = 3
# The class of the fronts' advisory locks. Number 0 locks the creation of the tables.
LOCKS = 19_710_722
SECONDS_TO_TRY = 60.0
# States after which statements are repeated: the connection is lost, transactions conflict, the database ends.
PASSING = ("08", "40", "57P")
SECONDS_BETWEEN_TRIES = 0.1
# Time for which a front without answer from the database may send replies that need no record.
SECONDS_OF_LEASE = 3.0
WAYS = {
    "connect_timeout": 2, "target_session_attrs": "read-write", "application_name": "ljserve-keep", "keepalives_idle": 2,
    "keepalives_interval": 2, "keepalives_count": 3, "tcp_user_timeout": 8000,
}  # fmt: skip
# The database detects a lost front as fast, and cancels no write, since it might have been done.
SETTINGS = {
    "tcp_keepalives_idle": "2", "tcp_keepalives_interval": "2", "tcp_keepalives_count": "3", "client_min_messages": "warning",
    "statement_timeout": "0", "lock_timeout": "0", "idle_in_transaction_session_timeout": "0",
}  # fmt: skip
TABLES = f"""
select pg_advisory_xact_lock({LOCKS}, 0);
create table if not exists format (number integer not null);
insert into format select {FORMAT} where not exists (select from format);
update format set number = {FORMAT} where number < {FORMAT};
create table if not exists front (
    id serial primary key, address text not null, has_header boolean not null, dead boolean not null default false
);
create table if not exists owner (name text primary key, front integer not null references front);
create table if not exists note (front integer not null, name text not null, text text not null, primary key (front, name));
delete from front where dead and id not in (select front from owner);
delete from note where front > 0 and front not in (select id from front);
"""
# Rows are short-lived, so their space must be reused soon.
VACUUM = " with (autovacuum_vacuum_scale_factor = 0, autovacuum_vacuum_threshold = 20000)"
# For a dead front this divides by zero, which ends the transaction. Marking a front dead waits for its transactions.
FENCE = "select 1 / count(*) from (select from front where id = %s and not dead for share) as alive"
OWNER = f"""
select front.id, address, has_header, dead, exists (
    select from pg_locks join pg_database on pg_database.oid = pg_locks.database
    where datname = current_database() and locktype = 'advisory' and classid = {LOCKS} and objid = front.id and granted
) from owner join front on front.id = owner.front where owner.name = %s
"""
NOTE = "insert into note values (%s, %s, %s) on conflict (front, name) do"
BYTES = extensions.new_type(psycopg2.BINARY.values, "BYTES", lambda value, cursor: value and bytes(psycopg2.BINARY(value, cursor)))


class Line:
    """A connection to a database, which is made again after a loss. Threads use it one at a time."""

    def __init__(self, url: str, settings: Mapping[str, str] = {}):
        try:
            self._ways = {**WAYS, **extensions.parse_dsn(url)}
        except psycopg2.Error as error:
            raise StoreFault(f"cannot read the address of the database: {str(error).strip()}") from error
        self._settings = "; ".join(f"set {name} = {value}" for name, value in {**SETTINGS, **settings}.items())
        self._lock = threading.RLock()
        self._connection: Any = None
        self.is_over = self._is_in_view = False

    def ask(self, words: str, values: Sequence[Any] = (), seconds: float = SECONDS_TO_TRY) -> List[Row]:
        """The rows of the last of some statements, which are one transaction. If the connection is lost they are repeated for
        `seconds`, and may have been done before. Raises `StoreFault`."""
        end = time.monotonic() + seconds
        while True:
            try:
                with self._lock:
                    return self._asked(words, values)
            except errors.DivisionByZero as error:
                raise Fenced("another front has taken over") from error
            except psycopg2.Error as error:
                # An error without a code means that the database is not reached.
                state = error.pgcode or ""
                if not state and self._connection is not None:
                    self._connection.close()
                is_last = self.is_over or self._is_in_view or time.monotonic() > end
                if is_last or state and not state.startswith(PASSING):
                    name, why = self._ways.get("dbname"), str(error).partition("\n")[0]
                    raise StoreFault(f"cannot use the database {name}: {why}") from error
            time.sleep(SECONDS_BETWEEN_TRIES)

    def _is_lost(self) -> bool:
        return self._connection is None or bool(self._connection.closed)

    def _asked(self, words: str, values: Sequence[Any]) -> List[Row]:
        if self._is_lost():
            self._connection = None
            self._connection = psycopg2.connect(**self._ways)
            self._connection.autocommit = True
            extensions.register_type(BYTES, self._connection)
            self._asked(self._settings, ())
        with self._connection.cursor() as cursor:
            cursor.execute(words, values or None)
            found: List[Row] = cursor.fetchall() if cursor.description else []
        if self._connection.notices:
            # For example a cancelled wait for a standby: the data may be on this machine only.
            raise StoreFault(f"the database warns: {self._connection.notices[-1].strip()}")
        return found

    @contextlib.contextmanager
    def view(self) -> Iterator[None]:
        """Within it all reads see the same state."""
        with self._lock:
            # No retries here: other threads would wait for the lock.
            self.ask("begin isolation level repeatable read, read only", seconds=0)
            self._is_in_view = True
            try:
                yield
            finally:
                self._is_in_view = False
                with contextlib.suppress(psycopg2.Error):
                    self._connection.cursor().execute("commit")

    def close(self) -> None:
        """Closes the connection, and ends retries."""
        self.is_over = True
        if self._connection is not None:
            self._connection.close()


class Postgres(Place):
    """A database that fronts share, and after `begin` the place of one."""

    is_shared = True
    seconds_of_lease = SECONDS_OF_LEASE

    def __init__(self, url: str, sync_each: bool = True):
        """With `sync_each` each write is on the disk when it returns, else within a second. Raises `StoreFault`."""
        self.base: Base = self
        self._url, self._front, self._address = url, 0, ""
        self._status = self._told = ""
        self._kicked: Deque[str] = deque()
        self._unwell: Dict[int, float] = {}
        late = {"synchronous_commit": "off"}
        self._reading, self._owning = Line(url), Line(url)
        self._writing, self._holding = Line(url, {} if sync_each else late), Line(url, late)
        self._lines = (self._reading, self._owning, self._writing, self._holding)

    def make(self) -> None:
        """Creates missing tables."""
        schema = TABLES + SCHEMA.replace(" blob", " bytea").replace(" without rowid", VACUUM)
        ((format,),) = self._owning.ask(f"{schema} select number from format", seconds=0)
        if format != FORMAT:
            raise StoreFault(f"the database must have format {FORMAT}, got {format}; use the keep that made it")

    def begin(self, address: str, has_header: bool) -> None:
        self.make()
        # An earlier front at this address has ended.
        words = "update front set dead = true where address = %s; insert into front (address, has_header) values (%s, %s) returning id"
        ((self._front,),) = self._owning.ask(words, (address, address, has_header))
        self._address = address
        self.hold()

    # The store.

    def rows(self, words: str, values: Row = ()) -> List[Row]:
        return self._reading.ask(said(words), values)

    def view(self) -> ContextManager[None]:
        return self._reading.view()

    def write(self, statements: Sequence[Statement]) -> None:
        # A repeated insert may have been done.
        again = {True: " on conflict do nothing", False: ""}
        is_insert = [words.startswith("insert") and " on conflict" not in words for words, _ in statements]
        self._do(self._writing, [(said(words) + again[is_one], values) for is_one, (words, values) in zip(is_insert, statements)])

    def _do(self, line: Line, statements: Sequence[Statement], seconds: float = SECONDS_TO_TRY) -> None:
        """Executes statements in one transaction, unless this front is dead. Without a front, locks the accounts."""
        fence: Statement = (FENCE, (self._front,)) if self._front else ("lock table account in exclusive mode", ())
        words, values = zip(fence, *statements)
        line.ask("; ".join(words), [value for row in values for value in row], seconds)

    def sync(self) -> None:
        pass

    # Owners of users.

    def hold(self) -> bool:
        # The lock may be taken repeatedly, and is released with the connection.
        words = "select pg_try_advisory_lock(%s, id) from front where id = %s and not dead"
        found = self._holding.ask(words, (LOCKS, self._front), seconds=0)
        if not found:
            raise Fenced("another front has taken over")
        self._tell(self._holding)
        kicked = self._holding.ask(
            "delete from note where front = %s and name like %s returning text", (self._front, f"%{KICK}"), seconds=0
        )
        self._kicked.extend(name for (name,) in kicked)
        return bool(found[0][0])

    def claim(self, name: str) -> Optional[Owner]:
        while not (found := self._owning.ask(OWNER, (name,))):
            self._do(self._owning, [("insert into owner values (%s, %s) on conflict do nothing", (name, self._front))])
        front, address, has_header, is_dead, is_locked = found[0]
        if front == self._front:
            return None
        owner = Owner(address, has_header)
        if is_dead:
            self._take(name, front, self._owning)
        elif is_locked or not self._take_if_over(name, front, owner):
            return owner
        return self.claim(name)

    def _take_if_over(self, name: str, front: int, owner: Owner) -> bool:
        """Takes a user from a front without a lock, unless it still runs. This holds the lock meanwhile, so nobody else can."""
        with contextlib.closing(Line(self._url)) as line:
            ((is_free,),) = line.ask("select pg_try_advisory_lock(%s, %s)", (LOCKS, front))
            is_over = is_free and (owner.address == self._address or self._has_ended(front, owner))
            if is_over:
                # No retries: a lost connection loses the lock.
                self._take(name, front, line, 0)
            return bool(is_over)

    def _has_ended(self, front: int, owner: Owner) -> bool:
        """Whether a front without its lock has ended, or sends no more replies when this returns. One that answers that it is not well
        gets time to take its lock again, as after a restart of the database."""
        try:
            answer = answer_of(*owner)
        except (OSError, ValueError):
            time.sleep(SECONDS_OF_LEASE)
            return True
        if answer == b"":
            seconds = time.monotonic() - self._unwell.get(front, -math.inf)
            if seconds > SECONDS_TO_TRY:
                self._unwell[front] = time.monotonic()
            if not SECONDS_OF_LEASE < seconds <= SECONDS_TO_TRY:
                return False
            time.sleep(SECONDS_OF_LEASE)
        return not answer

    def _take(self, name: str, front: int, line: Line, seconds: float = SECONDS_TO_TRY) -> None:
        words = "update owner set front = %s where name = %s and front = %s"
        dead = "update front set dead = true where id = %s"
        self._do(line, [(dead, (front,)), (words, (self._front, name, front))], seconds)

    def release(self, name: str) -> None:
        self._do(self._owning, [("delete from owner where name = %s and front = %s", (name, self._front))])

    # Notes.

    def text(self, name: str) -> str:
        return "".join(text for (text,) in self._reading.ask("select text from note where front = 0 and name = %s", (name,)))

    def put(self, name: str, text: str) -> None:
        self._reading.ask(f"{NOTE} update set text = excluded.text", (0, name, text))

    def first(self, name: str, text: str) -> str:
        self._reading.ask(f"{NOTE} nothing", (0, name, text))
        return self.text(name)

    def tell(self, status: str) -> None:
        self._status = status

    def _tell(self, line: Line) -> None:
        if (status := self._status) != self._told:
            line.ask(f"{NOTE} update set text = excluded.text", (self._front, STATUS, status), seconds=0)
            self._told = status

    def told(self) -> List[str]:
        # The status of an ended front stays while users are assigned to it.
        return [text for (text,) in self._owning.ask("select text from note where front > 0 and name = %s", (STATUS,))]

    def statuses(self) -> List[str]:
        """The status of each front that is not dead."""
        words = "select text from note join front on front.id = note.front where not dead and name = %s order by front.id"
        return [text for (text,) in self._reading.ask(words, (STATUS,), seconds=0)]

    def kicked(self) -> List[str]:
        return [self._kicked.popleft() for _ in range(len(self._kicked))]

    def ask_to_kick(self, name: str) -> bool:
        """Asks a user's front to end the user's connections. Returns whether there is one."""
        owner = "select front.id, %s, owner.name from owner join front on front.id = owner.front where owner.name = %s and not dead"
        words = f"insert into note {owner} on conflict (front, name) do update set text = excluded.text returning front"
        return bool(self._owning.ask(words, (f"{name}{KICK}", name), seconds=0))

    def is_to_kick(self, name: str) -> bool:
        """Whether a kick is still pending."""
        return bool(self._owning.ask("select name from note where name = %s", (f"{name}{KICK}",), seconds=0))

    def take_back_kick(self, name: str) -> None:
        """Cancels the kick."""
        self._owning.ask("delete from note where name = %s", (f"{name}{KICK}",), seconds=0)

    def give_up(self) -> None:
        for line in self._lines:
            line.is_over = True

    def close(self) -> None:
        with contextlib.suppress(StoreFault):
            if self._front:
                self._tell(self._owning)
                self._owning.ask("update front set dead = true where id = %s", (self._front,), seconds=0)
        for line in self._lines:
            line.close()


def said(words: str) -> str:
    """SQL of SQLite translated for PostgreSQL."""
    return words.replace("?", "%s").replace(" blob", " bytea")
