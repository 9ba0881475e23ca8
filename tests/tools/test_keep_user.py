"""What one user of `tools/keep` does at each event, with ends and a writer that only record what they are asked."""
import asyncio
import contextlib
import io
import json
import pathlib
import socket
import sys
from types import SimpleNamespace
from typing import Any, List

import pytest

from keepers import HELLO, LOAD, LOADED, TOKEN
from support import TOP, present

sys.path += [str(TOP / "tools"), str(TOP / "conformance")]
from ljtools.keeping import ends  # noqa: E402
from ljtools.keeping.accounts import Account, accounts_at, user_of  # noqa: E402
from ljtools.keeping.allowance import Allowance, Allowances, today  # noqa: E402
from ljtools.keeping.items import ItemReader, ReplyReader  # noqa: E402
from ljtools.keeping.server import Words, users_text  # noqa: E402
from ljtools.keeping.store import Kept  # noqa: E402
from ljtools.keeping.user import MAX_SENT, User  # noqa: E402
from ljtools.user_files import Fault  # noqa: E402
from ljtools.watching import Connection  # noqa: E402
from reference import User as Reference  # noqa: E402
from reference import replies_to  # noqa: E402


class Client:
    """A client that has sent some bytes."""

    is_full = False

    def __init__(self, sent: bytes = b"", has_sent_all: bool = False) -> None:
        self.told, self.is_over, self.has_sent_all = b"", "", has_sent_all
        self.reader = ItemReader()
        self.reader.feed(sent)
        self.next: Any = None

    def next_item(self) -> Any:
        item, self.next = self.next or self.reader.next(), None
        return item

    def has_ended(self) -> Any:
        self.next = self.next or self.reader.next()
        return self.next is None and (self.has_sent_all or self.reader.has_ended)

    def take_no_more(self) -> None:
        self.reader.end()

    def let_in(self) -> None:
        self.told += HELLO

    def tell(self, replies: Any) -> None:
        self.told += replies

    def deny(self) -> None:
        self.is_over = "denied"

    def finish(self) -> None:
        self.is_over = "finished"

    def abort(self) -> None:
        self.is_over = "aborted"


class Link:
    """A connection to a server that replies nothing by itself."""

    def __init__(self, left: Any = 10**6) -> None:
        self.sent, self.left, self.is_held, self.is_closed = b"", left, False, False

    def send(self, items: Any) -> None:
        self.sent += items

    def hold(self, is_held: Any) -> None:
        self.is_held = is_held

    def close(self) -> None:
        self.is_closed = True


class Writer:
    """A writer whose changes are written when `done` is called."""

    def __init__(self) -> None:
        self.given: List[Any] = []
        self.may = True

    def write(self, change: Any, then: Any) -> bool:
        self.given.append((change, then))
        return False

    def may_tell(self) -> bool:
        return self.may

    def done(self) -> Any:
        (change, then) = self.given.pop(0)
        then()
        return change


class Watched(User):
    """A user with its writer, and with the events that it has noted."""

    writer: Writer
    noted: List[Any]


@pytest.fixture
def user() -> Any:
    renewed: List[Any] = []
    writer: Any = Writer()
    store: Any = None
    user: Any = Watched("ann", Kept(0, [], []), store, writer, lambda *_, **known: renewed.append(known), renewed.append)
    user.writer, user.noted = user._writer, renewed
    return user


def let_in(user: Any, client: Any, link: Any = None) -> Any:
    """Lets a client in over a connection to a new server. Returns the connection."""
    link = link or Link()
    user.begin(link, True)
    user.enter(client)
    return link


class Transport(asyncio.Transport):
    """A TLS stream, which cannot be aborted after it was closed twice."""

    def __init__(self) -> None:
        super().__init__({"peername": ("127.0.0.1", 1), "socket": socket.socket()})
        self.closes = 0

    def write(self, data: Any) -> None:
        pass

    def can_write_eof(self) -> bool:
        return False

    def is_closing(self) -> bool:
        return self.closes > 0

    def close(self) -> None:
        self.closes += 1

    def abort(self) -> None:
        assert self.closes < 2


def test_a_connection_of_tls_is_closed_once(monkeypatch: pytest.MonkeyPatch) -> None:
    """Even if the client ends it too, and never reads the end."""
    monkeypatch.setattr(ends, "SECONDS_AFTER_END", 0.01)
    monkeypatch.setattr(ends, "SECONDS_TO_READ", 0.02)
    front: Any = SimpleNamespace(has_header=False, seconds_for_hello=1, is_well=lambda: True)
    front.new_connection, front.name_of, front.begins, front.ends = Connection, lambda line: None, lambda client: None, lambda client: None

    async def test(transport: Transport) -> None:
        client = ends.Client(front)
        client.connection_made(transport)
        client.data_received(b"HELLO ann wrong\n")
        client.eof_received()
        await asyncio.sleep(0.05)

    transport = Transport()
    with contextlib.closing(transport.get_extra_info("socket")):
        asyncio.run(test(transport))
    assert transport.closes == 1


def test_nothing_is_told_before_it_is_written(user: Any) -> None:
    client = Client(LOAD + b"LIST\nREVERSE a\n")
    link = let_in(user, client)
    assert link.sent == LOAD + b"LIST\nREVERSE a\n"
    user.hear([LOADED, b"OK LIST 1\na 0 2 0\n"])
    assert client.told == HELLO
    user.hear([b"OK REVERSE a -1\n"])
    assert [each.reply for each in user.writer.given[0][0].records] == [LOADED] and len(user.writer.given) == 1
    user.writer.done()
    assert client.told == HELLO + LOADED + b"OK LIST 1\na 0 2 0\n"
    assert [each.item for each in user.writer.given[0][0].records] == [b"REVERSE a\n"]
    user.writer.done()
    assert client.told.endswith(b"OK REVERSE a -1\n")


def test_what_changes_nothing_is_told_at_once(user: Any) -> None:
    client = Client(b"LIST\nREVERSE a\n")
    let_in(user, client)
    user.hear([b"OK LIST 0\n", b"ERR 10 NO_SESSION\n"])
    assert client.told == HELLO + b"OK LIST 0\nERR 10 NO_SESSION\n" and not user.writer.given


def test_what_changes_nothing_is_not_told_by_who_may_have_been_followed(user: Any) -> None:
    client = Client(b"LIST\nLIST\n")
    link = let_in(user, client)
    user.writer.may = False
    user.hear([b"OK LIST 0\n"])
    user.hear([b"OK LIST 0\n"])
    assert client.told == HELLO and not user.writer.given
    user.writer.may = True
    user.go_on()
    assert client.told == HELLO + b"OK LIST 0\nOK LIST 0\n" and link.sent == b"LIST\nLIST\n"


def test_a_new_server_is_told_what_was_kept_and_then_what_was_not_replied(user: Any) -> None:
    client = Client(LOAD + b"ADVANCE a 2\nREVERSE a\nLIST\n")
    let_in(user, client)
    user.hear([LOADED, b"OK ADVANCE a 2\n"])
    user.lose_link()
    link = Link()
    user.begin(link, True)
    assert link.sent == b""
    user.writer.done()
    assert link.sent == LOAD + b"START a 2\n"
    user.hear([LOADED])
    assert link.sent == LOAD + b"START a 2\n"
    user.hear([b"OK START a 2\n"])
    assert link.sent == LOAD + b"START a 2\nMEASURE a\n" and not user.is_ready
    user.hear([b"OK MEASURE a 2 2 0 0 0 693842 -5399727\n"])
    assert link.sent == LOAD + b"START a 2\nMEASURE a\nREVERSE a\nLIST\n" and user.is_ready
    assert client.told == HELLO + LOADED + b"OK ADVANCE a 2\n"


def test_a_reply_of_the_replay_that_is_another_stops_the_user(user: Any) -> None:
    client, other = Client(LOAD), Client()
    let_in(user, client)
    user.enter(other)
    user.hear([LOADED])
    user.writer.done()
    user.lose_link()
    user.begin(Link(), True)
    user.hear([b"OK LOAD a 0 3\n"])
    assert user.stopped == "the program replied OK LOAD a 0 3 in place of OK LOAD a 0 2, when told again"
    assert (client.is_over, other.is_over) == ("aborted", "denied")
    late = Client()
    user.enter(late)
    assert late.is_over == "denied"


def answer(user: Any, link: Any, server: Any) -> Any:
    """Answers all that is sent, with the replies of a server, until nothing is left. Returns what was sent."""
    everything = b""
    while link.sent:
        sent, link.sent = link.sent, b""
        everything += sent
        user.hear(ReplyReader().feed(b"".join(replies_to(io.BytesIO(sent), server))))
    return everything


def test_one_client_after_the_other_with_a_snapshot_between(user: Any) -> None:
    first, second = Client(LOAD + b"ADVANCE a 2\nBRANCH a k\nADVANCE a 1\n", has_sent_all=True), Client(b"LIST\n")
    link, server = let_in(user, first), Reference((8, 16384, 16))
    user.enter(second)
    answer(user, link, server)
    assert (first.is_over, second.told) == ("", b"") and len(user.records) == 4
    assert [each.item for each in user.writer.done().records] == [LOAD, b"ADVANCE a 2\n", b"BRANCH a k\n", b"ADVANCE a 1\n"]
    assert (first.is_over, second.told) == ("finished", b"")
    assert answer(user, link, server).startswith(b"DUMP a\nMEASURE a\nSHOW a 0\nSHOW a 1\nREVERSE a\n") and second.told == b""
    change = user.writer.done()
    assert not change.records and (change.snapshot.seq, change.snapshot.ids, user.records) == (4, [1, 3], [])
    assert [(part.id, part.session, part.step) for part in change.snapshot.parts] == [(1, 0, 3), (3, 1, 2)]
    assert second.told == HELLO and link.sent == b"LIST\n"
    answer(user, link, server)
    # A new server has other steps, but clients get the same ones.
    user._store = Store(change.snapshot.parts)
    user.lose_link()
    link, server = Link(), Reference((8, 16384, 16))
    user.begin(link, True)
    second.reader.feed(b"SHOW a 0\nRESTORE a k\nSHOW a 0\nLIST\nLIST a\n")
    answer(user, link, server)
    user.writer.done()
    told = b"OK LIST 1\na 3 2 1\nOK SHOW a 3 0 3555 0 0\nOK RESTORE a k 2\nOK SHOW a 2 0 1774 0 0\nOK LIST 1\na 2 2 1\nOK LIST a 1\nk 2\n"
    assert second.told == HELLO + told
    assert [each.sim.step for each in server.sessions.values()] == [0]


class Store:
    """A store of some parts."""

    def __init__(self, parts: Any) -> None:
        self.part = lambda _, id: next(part for part in parts if part.id == id)


def test_a_snapshot_waits_for_pending_steps(user: Any) -> None:
    first = Client(LOAD + b"START a 9\n", has_sent_all=True)
    link = let_in(user, first)
    user.hear([LOADED, b"OK START a 9\n"])
    user.writer.done()
    assert first.is_over == "finished" and link.sent == LOAD + b"START a 9\n"


def test_a_snapshot_is_taken_when_there_are_many_records_or_much_was_computed(user: Any, monkeypatch: pytest.MonkeyPatch) -> None:
    monkeypatch.setattr("ljtools.keeping.user.MAX_RECORDS", 100)
    client, server = Client(LOAD + b"TUG a 0 1 0 0\n" * 99), Reference((8, 16384, 16))
    link = let_in(user, client)
    assert answer(user, link, server).count(b"DUMP a\n") == 0 and len(user.records) == 100
    client.reader.feed(b"TUG a 0 1 0 0\n")
    user.go_on()
    assert answer(user, link, server).count(b"DUMP a\n") == 1 and user.records == []
    assert len(user.writer.done().records) == 100 and user.writer.done().snapshot.seq == 101
    user._seconds = 99.0
    client.reader.feed(b"TUG a 0 1 0 0\n")
    user.go_on()
    assert answer(user, link, server).endswith(b"REVERSE a\n") and user.records == []


def test_a_server_that_ends_within_a_snapshot_has_taken_none(user: Any) -> None:
    first = Client(LOAD + b"ADVANCE a 2\n", has_sent_all=True)
    link, server = let_in(user, first), Reference((8, 16384, 16))
    answer(user, link, server)
    user.writer.done()
    assert link.sent == b"DUMP a\n"
    user.hear([b"OK DUMP a 2 4\n2\nstep 2\nAr 0.000105 0.000000 0.000000\nAr 1.499894 0.000000 0.000000\n"])
    user.lose_link()
    link = Link()
    user.begin(link, True)
    assert link.sent == LOAD + b"START a 2\n" and not user.writer.given


def test_what_finds_no_memory_is_put_back_later(user: Any, monkeypatch: pytest.MonkeyPatch) -> None:
    """What the server already has of it is dropped first."""
    monkeypatch.setattr("ljtools.keeping.user.SECONDS_BETWEEN_TRIES", 0.0)
    client, server = Client(LOAD + LOAD.replace(b"LOAD a", b"LOAD b")), Reference((8, 16384, 16))
    answer(user, let_in(user, client), server)
    user.writer.done()
    user.lose_link()
    link, server = Link(), Reference((8, 16384, 16))

    async def put_back() -> None:
        user.begin(link, True)
        assert link.sent.count(b"LOAD") == 2
        (reply,) = replies_to(io.BytesIO(LOAD), server)
        link.sent = b""
        user.hear([reply, b"ERR 90 MEMORY\n"])
        assert link.sent == b"" and not user.is_ready and not user.stopped
        await asyncio.sleep(0.01)
        assert link.sent == b"LIST\n"
        client.reader.feed(b"LIST\n")
        answer(user, link, server)

    asyncio.run(put_back())
    assert user.is_ready and client.told.endswith(b"OK LIST 2\na 0 2 0\nb 0 2 0\n")


def test_what_ends_a_connection_is_replied_behind_all_else(user: Any) -> None:
    client = Client(b"LIST\nBYE\nLIST\n")
    link = let_in(user, client)
    assert link.sent == b"LIST\n" and client.told == HELLO
    user.hear([b"OK LIST 0\n"])
    assert client.told == HELLO + b"OK LIST 0\nOK BYE\n" and client.is_over == "finished"


def test_so_many_items_are_on_their_way_and_no_more(user: Any) -> None:
    link = let_in(user, Client(b"LIST\n" * (MAX_SENT + 2)))
    assert link.sent == b"LIST\n" * MAX_SENT
    user.hear([b"OK LIST 0\n"])
    assert link.sent == b"LIST\n" * (MAX_SENT + 1)


def test_a_client_that_does_not_read_holds_the_server(user: Any) -> None:
    client = Client(b"LIST\n")
    link = let_in(user, client)
    client.is_full = True
    user.go_on()
    assert link.is_held
    client.is_full = False
    user.go_on()
    assert not link.is_held


def test_another_connection_to_the_server_is_asked_for_when_one_is_used_up(user: Any) -> None:
    link = let_in(user, Client(b"LIST\n" * 3), Link(left=2))
    assert link.sent == b"LIST\n" * 2
    user.hear([b"OK LIST 0\n"])
    assert not link.is_closed
    user.hear([b"OK LIST 0\n"])
    assert link.is_closed and user.noted[-1] is user
    another = Link()
    user.begin(another, False)
    assert another.sent == b"LIST\n"


def test_steps_that_are_too_many_end_the_connection_behind_what_was_told(user: Any) -> None:
    """They are counted when they are asked for, and given back when they are refused."""
    user.allowance = Allowance(10)
    client = Client(b"ADVANCE b 8\n")
    link = let_in(user, client)
    user.hear([b"ERR 10 NO_SESSION\n"])
    client.reader.feed(LOAD + b"START a 9\nSTART a 2\nLIST\n")
    user.go_on()
    assert link.sent == b"ADVANCE b 8\n" + LOAD + b"START a 9\n" and client.is_over == ""
    user.hear([LOADED, b"OK START a 9\n"])
    user.writer.done()
    assert client.told.endswith(b"OK START a 9\n") and client.is_over == "finished"
    assert len(user.noted) == 2 and user.known()["today"] == {"day": today(), "steps": 9, "is_used_up": True}


def test_what_was_on_its_way_is_not_counted_twice(user: Any) -> None:
    user.allowance = Allowance(10)
    client = Client(b"START a 10\n")
    let_in(user, client)
    user.lose_link()
    link = Link()
    user.begin(link, True)
    assert link.sent == b"START a 10\n" and user.known()["today"]["steps"] == 10


def test_steps_of_another_day(monkeypatch: pytest.MonkeyPatch) -> None:
    allowance = Allowance(10)
    now = [86400.0 * 7]
    monkeypatch.setattr("time.time", lambda: now[0])
    steps = [(b"START", b"a", b"4"), (b"ADVANCE", b"a", b"6"), (b"ADVANCE", b"a", b"0"), (b"ADVANCE", b"a", b"1000001"), (b"LIST",), ()]
    assert [allowance.takes(words) for words in steps] == [True] * 6
    assert not allowance.takes((b"START", b"a", b"1"))
    assert allowance.use_up() and not allowance.use_up()
    status = json.dumps({"users": {"ann": {"today": allowance.known()}, "ben": {"state": "stopped"}}})
    several = [present(Allowances(10).of(name, [text])) for text, name in ((status, "ann"), (status, "ben"), (status, "cleo"), ("", "ann"))]
    assert [each.takes((b"START", b"a", b"10")) for each in several] == [False, True, True, True]
    assert Allowances(None).of("ann", [status]) is None
    now[0] += 86400
    assert allowance.known() == {} and allowance.takes((b"START", b"a", b"10")) and allowance.use_up()


def test_who_is_a_user(tmp_path: pathlib.Path) -> None:
    path = tmp_path / "users"
    path.write_text(f"# users\n\n ann\t{TOKEN}  1 2 3 \nben {'b' * 32} 0 0 0\n")
    accounts = accounts_at(path)
    assert [*accounts.values()] == [Account(TOKEN.encode(), "1 2 3"), Account(b"b" * 32, "0 0 0")]
    assert user_of(f" HELLO\tann {TOKEN}\r".encode(), accounts) == "ann"
    for words in (f"ann {'b' * 32}", f"cleo {TOKEN}", f"ann {TOKEN} x", f"ann {TOKEN[:-1]}", "ann", "\xe9 x"):
        assert user_of(f"HELLO {words}".encode("latin-1"), accounts) is None
    path.write_text(f"ann {TOKEN} 1 2\n")
    with pytest.raises(Fault, match="line 1: a line must have 5 words .*, got 4"):
        accounts_at(path)


def test_what_begins_the_server() -> None:
    assert users_text("1 2 3", "x").splitlines() == [*(b"user%d x 1 2 3" % number for number in range(1, 63)), b"watcher x 0 0 0"]
    words = Words([sys.executable, "serve", "--workers", "4", "--users", "FILE", "--pool", "queue"])
    own = ["--listen", "127.0.0.1:4001", "--connections", "1000000", "--users", "/proc/self/fd/9"]
    assert (words.users, words.command(4001, 9)) == (
        "FILE", [sys.executable, "serve", "--workers", "4", *own, "--pool", "queue"]
    )  # fmt: skip
