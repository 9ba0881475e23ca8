"""A database that fronts of `tools/keep` share: each user belongs to one of them, and a dead front writes no more."""
import contextlib
import itertools
import signal
import socket
import sys
import threading
import time
from concurrent.futures import ThreadPoolExecutor
from typing import Any, Iterator

import pytest

from keepers import missing, until
from support import SECONDS, TOP, free_port

sys.path.append(str(TOP / "tools"))
from ljtools.keeping import place  # noqa: E402
from ljtools.keeping.items import Told  # noqa: E402
from ljtools.keeping.place import Owner, place_of  # noqa: E402
from ljtools.keeping.store import Change, Fenced, Kept, Part, Snapshot, Store, StoreFault  # noqa: E402

if missing():
    pytest.skip(missing(), allow_module_level=True)

import psycopg2  # noqa: E402

from ljtools.keeping import postgres  # noqa: E402

ONE, TWO = Told(b"REVERSE a\n", b"OK REVERSE a -1\n"), Told(b"REVERSE a\n", b"OK REVERSE a 0\n")
PART = Part(1, 0, b"LOAD a 256000000000e-9 1000000000e-9 1 pair", 0, 1, b"1 0 0 0 0 0", b"X", bytes(24))
PORTS = (free_port() for _ in itertools.count())


@pytest.fixture
def address(cluster: Any) -> Any:
    return cluster.new()


@contextlib.contextmanager
def front(address: Any, port: Any = None, sync_each: bool = True) -> Iterator[Any]:
    """The place of a front where nobody listens."""
    with contextlib.closing(place_of(address, sync_each)) as one:
        one.begin(f"127.0.0.1:{port or next(PORTS)}", False)
        yield one


@pytest.fixture
def one(address: Any) -> Iterator[Any]:
    """A front with a user who has a record."""
    with front(address) as one:
        assert one.claim("ann") is None
        one.store = Store(one.base)
        one.store.read("ann")
        one.store.write([Change("ann", [ONE])])
        yield one


@pytest.fixture
def other(address: Any) -> Iterator[Any]:
    with front(address) as other:
        yield other


def owner_of(one: Any) -> Owner:
    return Owner(one._address, False)


def records(of: Any, name: str = "ann") -> Any:
    return Store(of.base).read(name).records


def test_a_user_is_of_one_front(one: Any, other: Any) -> None:
    assert one.claim("ann") is None and other.claim("ann") == owner_of(one)
    assert other.claim("ben") is None and one.claim("ben") == owner_of(other)
    assert one.hold() and other.hold() and records(other) == [ONE]


def test_who_has_ended_hands_all_users_over(one: Any, other: Any) -> None:
    one.close()
    assert other.claim("ann") is None and records(other) == [ONE]


def test_the_users_of_one_that_was_killed_are_taken_over(one: Any, other: Any) -> None:
    for line in (one._reading, one._writing, one._owning, one._holding):
        line.close()
    assert until(lambda: other.claim("ann") is None) and records(other) == [ONE]


def test_who_begins_at_an_address_has_the_users_of_who_was_there(one: Any, address: Any) -> None:
    with front(address, one._address.partition(":")[2]) as another:
        assert another.claim("ann") is None
        with pytest.raises(Fenced):
            one.hold()


STATEMENTS = {
    "a record": lambda one: one.store.write([Change("ann", [TWO])]),
    "a snapshot": lambda one: one.store.write([Change("ann", [], Snapshot(1, [PART], [1]))]),
    "a repair": lambda one: one.store.cut("ann", 0),
    "a claim": lambda one: one.claim("cleo"),
    "a claim of who was dead": lambda one: one.claim("ben"),
    "a release": lambda one: one.release("ann"),
    "a question": lambda one: one.hold(),
}


@pytest.mark.parametrize("do", STATEMENTS.values(), ids=STATEMENTS)
def test_each_statement_of_a_dead_front_is_refused(one: Any, other: Any, address: Any, cluster: Any, do: Any) -> None:
    with front(address) as third:
        third.claim("ben")
    cluster.ask(address, "update front set dead = true where id = %s", (one._front,))
    tables = "select name, seq::text from record union select name, front::text from owner union select 'part', name from part order by 1"
    before = cluster.ask(address, tables)
    with pytest.raises(Fenced, match="another front has taken over"):
        do(one)
    assert cluster.ask(address, tables) == before
    assert other.claim("ann") is None and records(other) == [ONE]


def test_of_two_that_claim_at_once_one_has_the_user(address: Any, one: Any, other: Any) -> None:
    with ThreadPoolExecutor(2) as threads:
        for number in range(30):
            name = f"user{number}"
            if number % 2:
                with front(address) as third:
                    third.claim(name)
            owners = [each.result(SECONDS) for each in (threads.submit(one.claim, name), threads.submit(other.claim, name))]
            assert owners in ([None, owner_of(one)], [owner_of(other), None])


def test_what_is_being_written_is_waited_for(address: Any, one: Any, other: Any) -> None:
    """A front is declared dead during its transaction. This transaction counts, and the next one does not."""
    for line in (one._holding, one._owning):
        line.close()
    with contextlib.closing(psycopg2.connect(address)) as writing, ThreadPoolExecutor(1) as threads:
        writing.cursor().execute(postgres.FENCE, (one._front,))
        writing.cursor().execute("update record set item = item")
        until(lambda: other._owning.ask(postgres.OWNER, ("ann",))[0][4] is False)
        taken = threads.submit(other.claim, "ann")
        with pytest.raises(Exception):
            taken.result(0.5)
        writing.commit()
        assert taken.result(SECONDS) is None
    with pytest.raises(Fenced):
        one.store.write([Change("ann", [TWO])])
    assert records(other) == [ONE]


@contextlib.contextmanager
def listening(one: Any, answer: Any) -> Iterator[None]:
    """A listener at the address of a front, which answers and ends the connection, or says nothing."""
    with socket.create_server(("127.0.0.1", int(one._address.partition(":")[2]))) as listener:

        def serve() -> None:
            with contextlib.suppress(OSError):
                while True:
                    stream, _ = listener.accept()
                    held.append(stream)
                    if answer is not None:
                        stream.recv(100)
                        stream.sendall(answer)
                        stream.close()

        held: Any = []
        threading.Thread(target=serve, daemon=True).start()
        yield
        listener.shutdown(socket.SHUT_RDWR)


def test_one_that_answers_has_lost_its_lock_alone(one: Any, other: Any) -> None:
    one._holding.close()
    until(lambda: other._owning.ask(postgres.OWNER, ("ann",))[0][4] is False)
    with listening(one, b"ERR 01 DENIED\n"):
        assert other.claim("ann") == owner_of(one)
    assert one.hold() and other.claim("ann") == owner_of(one)


def test_one_that_says_nothing_has_the_time_of_its_lease(one: Any, other: Any, monkeypatch: pytest.MonkeyPatch) -> None:
    waited: Any = []
    monkeypatch.setattr(place, "SECONDS_TO_ANSWER", 0.2)
    one._holding.close()
    # The database may see the end of that connection later. What holds until then would be had again below.
    until(lambda: other._owning.ask(postgres.OWNER, ("ann",))[0][4] is False)
    # Meanwhile its lease is not renewed.
    monkeypatch.setattr("time.sleep", lambda seconds: waited.append((seconds, one.hold())))
    with listening(one, None):
        assert until(lambda: other.claim("ann") is None)
    assert waited[-1] == (postgres.SECONDS_OF_LEASE, False)
    with pytest.raises(Fenced):
        one.hold()


def test_one_that_says_that_it_is_not_well_has_time_to_have_its_lock_again(one: Any, other: Any, monkeypatch: pytest.MonkeyPatch) -> None:
    monkeypatch.setattr(postgres, "SECONDS_OF_LEASE", 0.5)
    with listening(one, b""):
        one._holding.close()
        until(lambda: other._owning.ask(postgres.OWNER, ("ann",))[0][4] is False)
        assert other.claim("ann") == owner_of(one) and until(one.hold)
        time.sleep(0.6)
        assert other.claim("ann") == owner_of(one)
        one._holding.close()
        assert until(lambda: other.claim("ann") is None)
    with pytest.raises(Fenced):
        one.hold()


def test_a_lock_that_another_has_renews_no_lease(one: Any) -> None:
    one._holding.close()
    with contextlib.closing(postgres.Line(one._url)) as line:
        until(lambda: line.ask("select pg_try_advisory_lock(%s, %s)", (postgres.LOCKS, one._front)) == [(True,)])
        assert not one.hold()
    assert until(one.hold)


def test_a_write_whose_answer_was_lost_is_done_once(one: Any, monkeypatch: pytest.MonkeyPatch) -> None:
    asked, lost = postgres.Line._asked, []  # type: ignore[var-annotated]

    def ask(line: Any, words: Any, values: Any) -> Any:
        found = asked(line, words, values)
        if line is one._writing and "insert" in words and len(lost) < 2:
            lost.append(line._connection.close())
            raise psycopg2.OperationalError("the answer was lost")
        return found

    monkeypatch.setattr(postgres.Line, "_asked", ask)
    one.store.write([Change("ann", [TWO])])
    one.store.write([Change("ann", [ONE], Snapshot(2, [PART], [1]))])
    assert len(lost) == 2
    assert one.store.read_whole("ann") == Kept(2, [PART], [ONE])


def test_it_goes_on_when_the_database_was_begun_again(cluster: Any, one: Any, other: Any) -> None:
    cluster.end(signal.SIGQUIT)
    with ThreadPoolExecutor(2) as threads:
        written = threads.submit(one.store.write, [Change("ann", [TWO])])
        with pytest.raises(StoreFault, match="cannot use the database"):
            one.hold()
        claimed = threads.submit(other.claim, "ben")
        cluster.begin()
        assert written.result(SECONDS) is None and claimed.result(SECONDS) is None
    assert until(lambda: one.hold()) and records(other) == [ONE, TWO]


def test_a_wait_for_a_standby_that_was_cancelled_is_a_fault(cluster: Any, one: Any) -> None:
    """The database reports the write as done, but warns."""
    cluster.ask("postgres", "alter system set synchronous_standby_names = 'FIRST 1 (two)'")
    cluster.ask("postgres", "select pg_reload_conf()")
    waiting = "pg_stat_activity where wait_event = 'SyncRep' and backend_type = 'client backend'"
    try:
        with ThreadPoolExecutor(1) as threads:
            # Writes wait once the database's checkpointer has read the new setting.
            written = threads.submit(until, lambda: one.store.write([Change("ann", [TWO])]))
            until(lambda: cluster.ask("postgres", f"select pg_cancel_backend(pid) from {waiting}"))
            with pytest.raises(StoreFault, match="the database warns: WARNING:  canceling wait for synchronous replication"):
                written.result(SECONDS)
    finally:
        cluster.ask("postgres", "alter system reset synchronous_standby_names")
        cluster.ask("postgres", "select pg_reload_conf()")


def test_rows_of_fronts_that_have_nothing_are_taken_away(address: Any, cluster: Any, one: Any) -> None:
    for _ in range(3):
        with front(address) as another:
            another.tell("{}")
            another.hold()
    with front(address):
        assert cluster.ask(address, "select count(*) from front") == [(2,)] and cluster.ask(address, "select * from note") == []
        assert cluster.ask(address, "select id from front where not dead order by id")[0] == (one._front,)


def test_texts_that_all_fronts_have(one: Any, other: Any) -> None:
    assert one.first("trial", "x") == "x" and other.first("trial", "y") == "x" == other.text("trial")
    one.put("version", "1")
    other.put("version", "2")
    assert one.text("version") == "2" and one.text("none") == ""


@pytest.mark.parametrize("address", ["postgresql://x?none=1", "postgresql://keep:secret@/x?host=/none"])
def test_what_is_no_database(address: Any) -> None:
    with pytest.raises(StoreFault) as fault, front(address):
        pass
    assert "database" in str(fault.value) and "secret" not in str(fault.value)
