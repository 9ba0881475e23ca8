"""The servers of a front: one for each quota in use, and another when all its names are taken.

A server has a fixed set of names, which the front lends to users. A name is lent again when all of its sessions were dropped. A user
who leaves with pending steps keeps the name until they are done. A server has 64 places: two are left for the check that it answers
and for a link that is renewed.
"""
from __future__ import annotations

import asyncio
import contextlib
import time
from collections import deque
from typing import TYPE_CHECKING, Deque, Dict, List, NamedTuple, Optional

from ..user_files import Fault
from .ends import Link
from .server import NAMES, WATCHER, Server, Words, begin
from .store import StoreFault

if TYPE_CHECKING:
    from .front import Front
    from .status import Known
    from .user import User

SECONDS_BETWEEN_TRIES = 0.01
SECONDS_OF_A_START = 1.0
# Time between checks of a server, and without an answer until it is unwell and until it is killed.
SECONDS_BETWEEN_QUESTIONS, SECONDS_TO_ANSWER, SECONDS_TO_END = 1.0, 3.0, 10.0
# Longest wait for a name that is soon free, time between looks, and time away before a user's pending steps are waited for.
SECONDS_TO_WAIT, SECONDS_BETWEEN_LOOKS, SECONDS_AWAY = 2.0, 0.1, 600.0


class Seat(NamedTuple):
    """A name of a server that is lent to a user."""

    host: Host
    name: str


class Host:
    """A server of a quota, which is restarted when it ends, and its names: the free ones, and the users who have the others."""

    def __init__(self, quota: str, hosts: Hosts):
        self.quota, self._hosts = quota, hosts
        self.server: Optional[Server] = None
        self.free: Deque[str] = deque(NAMES)
        self.users: Dict[str, User] = {}
        self._answered, self._begun = 0.0, 0

    async def run(self) -> None:
        """Begins a server, and restarts it when it ends, while it is in `Hosts.all`."""
        while self in self._hosts.all:
            begun = time.monotonic()
            try:
                ended = await self._own_server()
            except (Fault, StoreFault) as fault:
                ended = str(fault)
            self._hosts.note_end(self, ended)
            if time.monotonic() < begun + SECONDS_OF_A_START:
                await asyncio.sleep(SECONDS_OF_A_START)

    async def _own_server(self) -> str:
        """Begins a server, connects all users who have its names, and returns how it ended."""
        ends = self._hosts.ends
        await self._hosts.front.try_program()
        self.server = server = await begin(self._hosts.words, self.quota)
        if ends != self._hosts.ends:
            server.kill()
        self._hosts.begun, self._begun = self._hosts.begun + 1, self._begun + 1
        self._hosts.restarts += self._begun > 1
        self._hosts.front.note("server begun", process=server.process.pid, quota=self.quota)
        connections = [self.connect(user, True) for user in self.users.values() if not user.stopped]
        others = asyncio.gather(self._hosts.front.note_version(), self._watch(server), *connections, return_exceptions=True)
        try:
            ended = await server.ended()
            self.server = None
            for user in self.users.values():
                user.lose_link()
        finally:
            server.kill()  # else `_watch` would continue if its cancellation is lost at a reply that comes just then
            others.cancel()
            await asyncio.gather(others, return_exceptions=True)
        return ended

    async def _watch(self, server: Server) -> None:
        """Checks the server repeatedly as the user WATCHER, and kills it if it does not answer."""
        self._answered = time.monotonic()
        while server.is_there():
            with contextlib.suppress(OSError, asyncio.TimeoutError):
                reader, writer = await asyncio.open_connection("127.0.0.1", server.port)
                with contextlib.closing(writer):
                    writer.write(server.hello(WATCHER))
                    while await asyncio.wait_for(reader.readline(), SECONDS_TO_END):
                        self._answered = time.monotonic()
                        await asyncio.sleep(SECONDS_BETWEEN_QUESTIONS)
                        writer.write(b"LIST\n")
            if time.monotonic() > self._answered + SECONDS_TO_END:
                self._hosts.front.note("server does not answer", process=server.process.pid)
                server.kill()
                return
            await asyncio.sleep(SECONDS_BETWEEN_TRIES)

    def is_well(self) -> bool:
        """Whether there is a server that answers."""
        is_there = self.server is not None and self.server.is_there()
        return is_there and time.monotonic() < self._answered + SECONDS_TO_ANSWER

    def known(self) -> Known:
        """Its entry in the status."""
        return {"process": self.server and self.server.process.pid, "quota": self.quota, "users": len(self.users)}

    def is_soon_free(self) -> bool:
        """Whether a name may soon be free: its sessions are being dropped, or its user is leaving."""
        return len(self.users) + len(self.free) < len(NAMES) or any(user.is_leaving() for user in self.users.values())

    async def connect(self, user: User, is_new: bool) -> None:
        """Connects a user to the server, as soon as that listens."""
        loop, server, seat = asyncio.get_running_loop(), self.server, user.seat
        while server is not None and server is self.server and server.is_there() and seat is not None and user.seat is seat:
            try:
                link = Link(user, seat, server, is_new)
                await loop.create_connection(lambda: link, "127.0.0.1", server.port)
                return
            except OSError:
                await asyncio.sleep(SECONDS_BETWEEN_TRIES)

    def link_is_lost(self, link: Link, had_no_place: bool) -> None:
        """Ends the server: it may have done commands without a reply, so all is put back at a new one. One that had no place for the
        link has done nothing."""
        if had_no_place:
            self._hosts.front.begin_task(self._connect_again(link))
        else:
            link.server.kill()

    async def _connect_again(self, link: Link) -> None:
        await asyncio.sleep(SECONDS_BETWEEN_TRIES)
        if self.server is link.server and link.user.seat is link.seat:
            await self.connect(link.user, link.is_new)

    async def clean(self, name: str) -> None:
        """Frees a name after its sessions were dropped, each after its pending steps. A new server has none of them."""
        server = self.server
        while server is not None and server is self.server and server.is_there():
            with contextlib.suppress(OSError, ValueError, IndexError):
                reader, writer = await asyncio.open_connection("127.0.0.1", server.port)
                with contextlib.closing(writer):
                    writer.write(server.hello(name) + b"LIST\n")
                    await reader.readline()
                    count = int((await reader.readline()).split()[2])
                    for session in [(await reader.readline()).split()[0] for _ in range(count)]:
                        writer.write(b"DROP %s\n" % session)
                    if all([(await reader.readline()).startswith(b"OK DROP ") for _ in range(count)]):
                        break
            await asyncio.sleep(SECONDS_BETWEEN_TRIES)
        self.free.append(name)


class Hosts:
    """The servers of a front. `ends` is how often all were ended, `begun` the number of starts, and `restarts` the number of these
    in place of an ended one."""

    def __init__(self, front: Front, words: Words):
        self.front, self.words = front, words
        self.all: List[Host] = []
        self.ends = self.begun = self.restarts = 0
        self._last_end = ""

    def add(self, quota: str) -> Host:
        """Begins one more server."""
        self.all.append(host := Host(quota, self))
        self.front.begin_task(host.run())
        return host

    async def lend(self, user: User) -> None:
        """Lends a user a name at a server of its quota: a free one, the name of the user who is away for the longest time, or one of
        a new server."""
        begun = time.monotonic()
        while not user.stopped and user.seat is None:
            hosts = [host for host in self.all if host.quota == user.quota]
            host = next((host for host in hosts if host.free), None)
            if host is None:
                away = [other for each in hosts for other in each.users.values() if other.is_away()]
                if kept := [other for other in away if other.is_kept()]:
                    oldest = min(kept, key=lambda other: other.away_since)
                    self.front.forget(oldest)
                    await self.give_back(oldest)
                    continue
                if time.monotonic() < begun + SECONDS_TO_WAIT and any(each.is_soon_free() for each in hosts):
                    await asyncio.sleep(SECONDS_BETWEEN_LOOKS)
                    continue
                for other in away:
                    if time.monotonic() > other.away_since + SECONDS_AWAY:
                        other.wait_for_pending()
                host = self.add(user.quota)
            user.seat = Seat(host, host.free.popleft())
            host.users[user.seat.name] = user
            await host.connect(user, True)

    def give_back(self, user: User) -> "asyncio.Task[None]":
        """Takes its name from a user. The returned task ends when the name is free."""
        assert user.seat is not None
        (host, name), user.seat = user.seat, None
        user.lose_link()
        del host.users[name]
        return self.front.begin_task(host.clean(name))

    def move(self, user: User, quota: str) -> None:
        """Moves a user to another quota, and puts all back there."""
        user.quota = quota
        if user.seat is not None:
            self.give_back(user)
            self.front.begin_task(self.lend(user))

    def renew(self, user: User) -> None:
        """Connects a user to the same server again."""
        if user.seat is not None:
            self.front.begin_task(user.seat.host.connect(user, False))

    def note_end(self, host: Host, ended: str) -> None:
        """Notes the end of a server. One without users is restarted only if there is no other."""
        self._last_end = ended
        self.front.note("server ended", why=ended)
        self.front.note_server_end(ended, self.begun)
        if not host.users and len(self.all) > 1:
            self.all.remove(host)

    def end_all(self) -> None:
        """Ends all servers, so that others are begun."""
        self.ends += 1
        for host in self.all:
            if host.server is not None:
                host.server.kill()

    async def close(self) -> None:
        """Ends all servers."""
        self.end_all()
        for host in self.all:
            if host.server is not None:
                await host.server.ended()
                host.server = None

    def is_well(self) -> bool:
        """Whether some server answers: users of another one are put back when it is restarted."""
        return any(host.is_well() for host in self.all)

    def known(self) -> Known:
        """Their entries in the status."""
        servers = [host.known() for host in self.all]
        first = next((each["process"] for each in servers if each["process"]), None)
        known = {"begun": self.begun, "restarts": self.restarts, "last_end": self._last_end}
        return {"server": first, "servers": servers, **known}
