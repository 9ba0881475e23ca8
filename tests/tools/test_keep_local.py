"""Transactions of a client within the process of a front: they are whole between two commands of another client, and kept as one."""
import asyncio
import contextlib
import io
import random
import sys
from typing import Any, Awaitable, Callable, Dict, List, Tuple

import pytest

from keepers import HELLO, LOAD, LOADED
from support import DIMER, TOP
from test_keep_user import Client, Writer

sys.path += [str(TOP / "tools"), str(TOP / "conformance")]
from ljtools.keeping.items import ItemReader, ReplyReader  # noqa: E402
from ljtools.keeping.local import LocalClient  # noqa: E402
from ljtools.keeping.store import Kept  # noqa: E402
from ljtools.keeping.user import User  # noqa: E402
from reference import User as Reference  # noqa: E402
from reference import replies_to  # noqa: E402

QUOTA = (8, 16384, 16)


class Streaming(Client):
    """A client whose bytes come in pieces."""

    def position(self) -> int:
        return self.reader.taken + self.reader.held

    def has_item_before(self, position: int) -> bool:
        self.next = self.next or self.reader.next()
        return self.next is not None and self.reader.taken <= position


class Server:
    """A connection to the reference, whose replies come when they are asked for."""

    is_held = False

    def __init__(self) -> None:
        self.reference, self.left, self.waiting, self.items = Reference(QUOTA), 10**6, [], b""  # type: Any, int, List[bytes], bytes

    def send(self, items: bytes) -> None:
        self.items += items
        self.waiting += ReplyReader().feed(b"".join(replies_to(io.BytesIO(items), self.reference)))

    def hold(self, is_held: bool) -> None:
        pass

    def close(self) -> None:
        self.waiting.clear()


class Front:
    """A user of a front with one client that is in, one within the process, and a server."""

    def __init__(self) -> None:
        self.writer: Any = Writer()
        nothing: Any = None
        self.user: Any = User("ann", Kept(0, [], []), nothing, self.writer, lambda *_, **known: None, nothing)
        self.client, self.kept = Streaming(), []  # type: Streaming, List[bytes]
        self.begin_server()
        self.user.enter(self.client)

    def begin_server(self) -> None:
        self.user.lose_link()
        self.server = Server()
        self.user.begin(self.server, True)

    def hear(self, count: int) -> None:
        """Delivers the next `count` replies of the server."""
        replies, self.server.waiting = self.server.waiting[:count], self.server.waiting[count:]
        if replies:
            self.user.hear(replies)

    def write(self) -> None:
        """Completes the write of the first waiting change."""
        if self.writer.given:
            self.kept += [record.item for record in self.writer.done().records]

    async def settle(self, *tasks: Any) -> None:
        """Completes all that is under way, and these tasks."""
        quiet = 0
        while quiet < 5 or not all(task.done() for task in tasks):
            quiet = quiet + 1 if not (self.server.waiting or self.writer.given) else 0
            self.hear(1000)
            while self.writer.given:
                self.write()
            await asyncio.sleep(0)
        for task in tasks:
            await task

    def comes(self, data: bytes) -> None:
        self.client.reader.feed(data)
        self.user.go_on()


class Page:
    """Acts as the thread of a client within the process, in the loop."""

    def __init__(self, local: LocalClient, there: Any) -> None:
        self.local, self.there, self.told = local, there, b""
        there.setblocking(False)

    async def ask(self, items: bytes) -> bytes:
        """The replies to some items of a transaction."""
        loop, reader, replies = asyncio.get_running_loop(), ReplyReader(), []  # type: Any, ReplyReader, List[bytes]
        await loop.sock_sendall(self.there, items)
        while len(replies) < items.count(b"\n"):
            replies += reader.feed(await loop.sock_recv(self.there, 1 << 16))
        self.told += b"".join(replies)
        return b"".join(replies)

    async def transaction(self, *bursts: bytes) -> None:
        await self.local._begin()
        for items in bursts:
            await self.ask(items)
        await self.local._finish()


def run(test: Callable[[Front, Page], Awaitable[None]]) -> None:
    """Runs a test with a front and a client within its process."""

    async def main() -> None:
        front = Front()
        page = Page(*await LocalClient.begun(front.user))
        with contextlib.closing(page.there):
            await asyncio.wait_for(test(front, page), 60)

    asyncio.run(main())


def test_a_look_is_whole_between_two_commands() -> None:
    """Even if the look waits for a reply before it asks for more, and the other client sends more in the meantime."""

    async def test(front: Front, page: Page) -> None:
        front.comes(LOAD + b"ADVANCE a 1\n")
        look = asyncio.ensure_future(page.transaction(b"BRANCH a look\n", b"REVERSE a\nSHOW a 0\n", b"RESTORE a look\nFORGET a look\n"))
        await asyncio.sleep(0)
        front.comes(b"ADVANCE a 1\nSHOW a 0\n")
        await front.settle(look)
        assert page.told == b"OK BRANCH a look 1\nOK REVERSE a 0\nOK SHOW a 0 0 0 0 0\nOK RESTORE a look 1\nOK FORGET a look\n"
        assert front.client.told == HELLO + LOADED + b"OK ADVANCE a 1\nOK ADVANCE a 2\nOK SHOW a 2 0 1774 0 0\n"
        assert front.server.items.endswith(
            b"ADVANCE a 1\nBRANCH a look\nREVERSE a\nSHOW a 0\nRESTORE a look\nFORGET a look\nADVANCE a 1\nSHOW a 0\n"
        )

    run(test)


def test_an_item_that_is_not_whole_yet_comes_behind() -> None:
    async def test(front: Front, page: Page) -> None:
        front.comes(LOAD[:-1])
        look = asyncio.ensure_future(page.transaction(b"LIST\n"))
        await front.settle(look)
        assert page.told == b"OK LIST 0\n"
        front.comes(LOAD[-1:])
        await front.settle()
        assert front.client.told == HELLO + LOADED

    run(test)


def test_a_transaction_is_written_as_one() -> None:
    """Its thread gets the replies before the write, and ends after it. If the front ends before the write, no part of it is kept."""

    async def test(front: Front, page: Page) -> None:
        front.comes(LOAD)
        await front.settle()
        look = asyncio.ensure_future(page.transaction(b"REVERSE a\n", b"SHOW a 0\n", b"REVERSE a\n"))
        while page.told.count(b"\n") < 3:
            front.hear(1)
            assert not front.writer.given
            await asyncio.sleep(0)
        while not front.writer.given:
            await asyncio.sleep(0)
        await asyncio.sleep(0.01)
        assert not look.done() and [each.item for each in front.writer.given[0][0].records] == [b"REVERSE a\n"] * 2
        front.write()
        await look

    run(test)


def test_no_snapshot_is_taken_within() -> None:
    async def test(front: Front, page: Page) -> None:
        front.comes(LOAD)
        await front.settle()
        await page.local._begin()
        front.user._is_wanted = True
        await front.settle(asyncio.ensure_future(page.ask(b"REVERSE a\nREVERSE a\n")))
        assert b"DUMP" not in front.server.items
        await front.settle(asyncio.ensure_future(page.local._finish()))
        assert front.server.items.count(b"DUMP a\n") == 1 and front.user.is_settled()

    run(test)


def test_another_server_in_the_middle_of_a_look() -> None:
    async def test(front: Front, page: Page) -> None:
        front.comes(LOAD + b"ADVANCE a 5\n")
        await front.settle()
        look = asyncio.ensure_future(page.transaction(b"REVERSE a\n", b"SHOW a 0\nREVERSE a\n"))
        while b"OK REVERSE" not in page.told:
            front.hear(1)
            await asyncio.sleep(0)
        front.begin_server()
        await front.settle(look)
        front.comes(b"SHOW a 0\n")
        await front.settle()
        assert page.told.startswith(b"OK REVERSE a 4\nOK SHOW a 4 ") and page.told.endswith(b"\nOK REVERSE a 5\n")
        assert front.client.told.rpartition(b"\n")[0].rpartition(b"\n")[2].startswith(b"OK SHOW a 5 ")
        assert front.kept == [LOAD, b"ADVANCE a 5\n", b"REVERSE a\n", b"REVERSE a\n"]

    run(test)


def test_a_thread_that_is_gone_in_the_middle_ends_its_transaction() -> None:
    async def test(front: Front, page: Page) -> None:
        await page.local._begin()
        page.there.close()
        front.comes(b"LIST\n")
        while front.user.local is not None or front.user.locals:
            await asyncio.sleep(0)
        await front.settle()
        assert front.client.told == HELLO + b"OK LIST 0\n"

    run(test)


def test_a_user_who_is_stopped_has_no_transactions() -> None:
    async def test(front: Front, page: Page) -> None:
        front.comes(LOAD)
        await asyncio.sleep(0)
        waits = asyncio.ensure_future(page.local._begin())
        await asyncio.sleep(0)
        front.user.stop("the disk is full")
        with pytest.raises(ConnectionError, match="ann is not let in: the disk is full"):
            await waits
        with pytest.raises(ConnectionError):
            await page.local._begin()

    run(test)


def test_what_others_have_changed_is_told() -> None:
    async def test(front: Front, page: Page) -> None:
        async def asked() -> bool:
            await front.settle(asyncio.ensure_future(page.transaction(b"REVERSE a\nREVERSE a\n")))
            return page.local.has_changed

        front.comes(LOAD)
        await front.settle()
        found = [await asked(), await asked()]
        front.comes(b"SHOW a 0\n")
        await front.settle()
        found.append(await asked())
        front.comes(b"REVERSE a\n")
        await front.settle()
        assert [*found, await asked()] == [True, False, False, True]

    run(test)


COMMANDS = [
    b"ADVANCE a 1\n",
    b"REVERSE a\n",
    b"TUG a 0 5 -3 1\n",
    b"SHOW a 1\n",
    b"LIST\n",
    b"BRANCH a k\n",
    b"RESTORE a k\n",
    b"NOTHING\n",
]


def random_items(source: random.Random, most: int) -> List[bytes]:
    load = f"LOAD b 256 1 131072 rest {len(DIMER)}\n{DIMER}".encode()
    return source.choices([*COMMANDS, load, b"DROP b\n", b"ADVANCE a 300000\n"], [9] * len(COMMANDS) + [2, 3, 0], k=source.randint(1, most))


class Story:
    """Items of both clients in the order in which they came, and the replies to each. A transaction comes where it was asked for."""

    def __init__(self, seed: int) -> None:
        self.source, self.order = random.Random(seed), []  # type: random.Random, List[Tuple[str, bytes]]
        self.reader = ItemReader()

    def comes(self, data: bytes) -> None:
        self.reader.feed(data)
        while (item := self.reader.next()) is not None:
            self.order.append(("client", item.raw))

    def expected(self) -> Dict[str, bytes]:
        """The replies of the reference to all items in this order, for each client."""
        reference, told = Reference(QUOTA), {"client": b"", "page": b""}
        for whose, items in self.order:
            told[whose] += b"".join(replies_to(io.BytesIO(items), reference))
        return told


@pytest.mark.parametrize("seed", range(12))
def test_replies_are_those_of_the_order_in_which_all_came(seed: int) -> None:
    """Bytes come in pieces, replies and writes at any time, and servers end in the middle."""
    story = Story(seed)

    async def play(front: Front, page: Page) -> None:
        source = story.source
        stream = LOAD + b"".join(random_items(source, 60))
        looks: List[Any] = []
        while stream or looks and not looks[-1].done():
            kind = source.random()
            if kind < 0.3 and stream:
                size = source.randint(1, 40)
                story.comes(stream[:size])
                front.comes(stream[:size])
                stream = stream[size:]
            elif kind < 0.4 and (not looks or looks[-1].done()):
                bursts = [b"".join(item for item in random_items(source, 4) if item.count(b"\n") == 1) for _ in range(3)]
                bursts = [burst for burst in bursts if burst]
                story.order.append(("page", b"".join(bursts)))
                looks.append(asyncio.ensure_future(page.transaction(*bursts)))
            elif kind < 0.42:
                front.begin_server()
            elif kind < 0.8:
                front.hear(source.randint(1, 5))
            else:
                front.write()
            await asyncio.sleep(0)
        await front.settle(*looks)
        assert {"client": front.client.told[len(HELLO) :], "page": page.told} == story.expected()

    run(play)
