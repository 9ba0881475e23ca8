"""One user of `tools/keep` with a real store. The server and the front end between any two replies, and before any write.
A client gets the same bytes as from the reference of conformance/, which never ends."""
import contextlib
import io
import pathlib
import random
import sys
from typing import Any, List

import pytest

from support import TOP

sys.path += [str(TOP / "tools"), str(TOP / "conformance")]
from chance import Chance, bounded  # noqa: E402
from ljtools.keeping import sessions, user  # noqa: E402
from ljtools.keeping.items import ItemReader  # noqa: E402
from ljtools.keeping.sqlite import Sqlite  # noqa: E402
from ljtools.keeping.store import Store  # noqa: E402
from reference import User as Reference  # noqa: E402
from reference import replies_to  # noqa: E402
from test_keep_user import Client, Link  # noqa: E402


class Late:
    """A writer that writes when it is asked to."""

    def __init__(self, store: Any) -> None:
        self.store, self.given = store, []  # type: ignore[var-annotated]

    def write(self, change: Any, then: Any) -> bool:
        self.given.append((change, then))
        return False

    def may_tell(self) -> bool:
        return True

    def work(self) -> None:
        change, then = self.given.pop(0)
        self.store.write([change])
        then()


class World:
    """A user, its server, and its client."""

    def __init__(self, store: Any, quota: Any) -> None:
        self.store, self.quota = store, quota
        self.begin_front()

    def begin_front(self) -> None:
        """Starts a front, as after an end of the previous one. What was not written is lost."""
        self.writer: Any = Late(self.store)
        self.user: Any = user.User("ann", self.store.read("ann"), self.store, self.writer, lambda *_, **__: None, self.renew)
        self.client = Client()
        self.begin_server()

    def begin_server(self) -> None:
        self.user.lose_link()
        self.server, self.items, self.link = Reference(self.quota), ItemReader(), Link(left=40)
        self.user.begin(self.link, True)

    def renew(self, _: Any) -> None:
        self.items, self.link = ItemReader(), Link(left=40)
        self.user.begin(self.link, False)

    def go_on(self, rnd: Any, ends: float) -> bool:
        """Does one reply or one write, and now and then ends the server. Returns whether there was anything to do."""
        assert self.user.stopped == ""
        if rnd.random() < ends:
            self.begin_server()
        self.items.feed(self.link.sent)
        self.link.sent = b""
        if self.writer.given and rnd.random() < 0.3:
            self.writer.work()
        elif item := self.items.next():
            self.user.hear([*replies_to(io.BytesIO(item.raw), self.server)])
        elif self.writer.given:
            self.writer.work()
        else:
            return False
        return True

    def tell(self, data: bytes) -> None:
        self.client = Client(data, has_sent_all=True)
        self.user.enter(self.client)

    def told(self, rnd: Any, ends: float) -> bytes:
        """The replies to the client when nothing is left to do."""
        while self.go_on(rnd, ends):
            pass
        assert self.client.is_over == "finished"
        return self.client.told


@pytest.fixture(params=[0.002, 1e-9], ids=["often", "always"])
def store(request: Any, tmp_path: pathlib.Path, monkeypatch: pytest.MonkeyPatch) -> Any:
    """A store of a front that takes snapshots often, or whenever something has changed, and cuts ADVANCE after a few steps."""
    monkeypatch.setattr(sessions, "FIRST_PIECE", 5)
    monkeypatch.setattr(user, "MAX_RECORDS", 6)
    monkeypatch.setattr(user, "SECONDS_OF_BUDGET", request.param)
    with contextlib.closing(Sqlite(tmp_path / "kept.sqlite", sync_each=False)) as base:
        base.rows("pragma synchronous=off")
        yield Store(base)


def script(seed: str, items: int = 40) -> Any:
    """Random items that are bounded in their steps, and a quota."""
    chance, rnd = Chance(seed), random.Random(seed)
    chance.most_atoms = min(chance.most_atoms, 5)
    kinds = rnd.choices([*chance.weights], [*chance.weights.values()], k=items)
    sent = bounded("".join([chance.first_load(), *(kind() for kind in kinds)]).encode("latin-1"), 25)
    reader = ItemReader()
    reader.feed(sent)
    return [item.raw for item in iter(reader.next, None) if not item.last_reply], chance.quota


@pytest.mark.parametrize("seed", range(50))
def test_what_a_client_is_told_while_servers_end(store: Any, seed: Any) -> None:
    items, quota = script(f"servers {seed}")
    rnd, world, true = random.Random(seed), World(store, quota), Reference(quota)
    for half in (items[:25], items[25:], [b"LIST\n", b"DUMP a\n", b"LIST a\n"]):
        world.tell(b"".join(half))
        told = world.told(rnd, 0.02)
        assert told == b"OK HELLO ann\n" + b"".join(replies_to(io.BytesIO(b"".join(half)), true))


QUESTIONS = [b"LIST\n", *(b"%s %s\n" % (verb, name) for name in (b"a", b"b", b"c_-9") for verb in (b"LIST", b"DUMP", b"MEASURE"))]


@pytest.mark.parametrize("seed", range(50))
def test_what_is_there_when_fronts_and_servers_end(store: Any, seed: Any) -> None:
    """A command with a reply is there. Commands without one are done or not, in order."""
    items, quota = script(f"fronts {seed}")
    rnd, world, true = random.Random(seed), World(store, quota), Reference(quota)
    while items:
        world.tell(b"".join(items[:12]))
        for _ in range(rnd.randrange(200)):
            world.go_on(rnd, 0.01)
        told = world.client.told.partition(b"OK HELLO ann\n")[2]
        world.begin_front()
        world.tell(b"".join(QUESTIONS))
        found = world.told(rnd, 0.01).partition(b"\n")[2]
        done = matching(true, items[:12], told, found)
        items = items[done:] if done else items[1:]


def matching(true: Any, items: List[bytes], told: bytes, found: bytes) -> int:
    """How many items were done, by the answers found: at least those with replies. The reference does them too."""
    count = 0
    while True:
        if not told and b"".join(answers(true, QUESTIONS)) == found:
            return count
        assert count < len(items), found
        (reply,) = answers(true, [items[count]])
        assert told.startswith(reply) or not told, (told, reply)
        told = told[len(reply) :]
        count += 1


def answers(true: Any, items: List[bytes]) -> List[bytes]:
    return [reply for item in items for reply in replies_to(io.BytesIO(item), true)]
