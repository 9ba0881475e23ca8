"""A front: it lets users in, runs their servers (`hosts`), and keeps what they do."""
import asyncio
import contextlib
import json
import os
import pathlib
import signal
import socket
import time
from typing import Coroutine, Dict, NamedTuple, Optional, Protocol, Sequence, Set

from ..user_files import Fault
from ..watching import Board, Connection
from .accounts import Account, Accounts, accounts_at, changes_behind, is_one, user_of
from .allowance import Allowances
from .ends import Client
from .hosts import Hosts
from .place import Owner, Place
from .server import Words, how_it_ended, trial_of, version_of
from .status import Known
from .store import Damaged, Fenced, Store, StoreFault
from .user import Hear, User
from .writer import Writer

MAX_OPEN = 1000
SECONDS_BETWEEN_TRIES = 0.01
SECONDS_TO_SETTLE = 10.0
SECONDS_OF_A_STATUS = 1.0
SECONDS_BETWEEN_LOOKS = 1.0
# Seconds between calls of `hold` at a shared place, and seconds of failed calls after which this front ends.
SECONDS_BETWEEN_HOLDS, SECONDS_TO_HOLD = 0.5, 60.0
# Time limits to find a user's front, and to connect to it.
SECONDS_TO_FIND, SECONDS_TO_PASS_ON = 60.0, 2.0
VERSION, TRIAL = "version", "trial"
# Exit status of a server with invalid words or users.
BAD_WORDS = 2
HAS_BAD_WORDS = how_it_ended(BAD_WORDS)
NOBODY = Account(b"", "0 0 0")


class Options(NamedTuple):
    """Command-line options."""

    listener: socket.socket
    place: Place
    words: Words
    sync: str
    has_header: bool
    at: str
    steps_a_day: Optional[int]


class Listening(Protocol):
    """Accepts clients until it is closed."""

    def close(self) -> None:
        ...


class Front:
    """Lets users in, each to its own records and its own connection to a server."""

    seconds_for_hello: Optional[float] = None

    def __init__(self, options: Options, board: Board):
        """The place in `options` must have begun."""
        self.has_header = options.has_header
        self._options, self._board, self._place = options, board, options.place
        self._store = Store(self._place.base)
        sync = "group" if self._place.is_shared else options.sync
        self._writer = Writer(self._store, sync, self.fail, self.may_tell)
        self._accounts: Accounts = {}
        self._change = 0
        self._users: Dict[str, User] = {}
        self._refused: Dict[str, str] = {}
        self._allowances = Allowances(options.steps_a_day)
        self._clients: Set[Client] = set()
        self._claims: Dict[str, "asyncio.Task[Optional[Owner]]"] = {}
        self._tasks: Set["asyncio.Task[None]"] = set()
        self._held = 0.0
        self._hosts = Hosts(self, options.words)
        self._is_ending, self._putting_aside = asyncio.Event(), asyncio.Lock()
        self._status = 0
        self._known = {"since": time.time(), "process": os.getpid(), "end": ""}
        self._known |= {"at": options.at, "has_header": options.has_header}

    # Users.

    async def _take_stored(self) -> bool:
        """Updates the users from the store if they have changed there. Returns whether the store has or had any."""
        number, changed, gone, aside = await asyncio.to_thread(changes_behind, self._store.base, self._change)
        if number > self._change:
            accounts = {**(self._accounts if self._change else {}), **changed}
            for name in gone:
                accounts.pop(name, None)
            await self._take_users(accounts, aside)
            self._change = number
        return bool(number)

    async def _take_users(self, accounts: Accounts, aside: Sequence[str] = ()) -> None:
        """Replaces the users by these. Users who were stopped are tried again, and the data of those in `aside` is put aside."""
        before, self._accounts = self._accounts, accounts
        again = [*self._refused, *(name for name, user in self._users.items() if user.stopped)]
        self._refused = {}
        for user in [*self._users.values()]:
            self._give_up(user, user.name in aside)
            old, new = before.get(user.name, NOBODY), accounts.get(user.name, NOBODY)
            if old.token != new.token:
                user.abort_clients()
            if not user.stopped and user.quota != new.quota:
                self._hosts.move(user, new.quota)
        for name in aside:
            await self._put_aside(name)
        for name in self._place.take_over(self._store, self._refuse):
            self.note("journal taken over", user=name)
        await self._claim_all(again)

    async def _claim_all(self, names: Sequence[str]) -> None:
        """Claims users before they connect."""
        for name in names:
            if name in self._accounts and name not in self._refused:
                await self._claimed(name)

    def _give_up(self, user: User, is_aside: bool) -> None:
        """Stops a removed user, and forgets a stopped one unless a write of its data is under way."""
        if (user.name not in self._accounts or is_aside) and not user.stopped:
            user.stop("the user was removed")
        if user.stopped and not user.is_busy():
            self.forget(user)

    def forget(self, user: User) -> None:
        """Forgets a user, who is read again at the next claim."""
        if user.stopped and user.seat is not None:
            self._hosts.give_back(user)
        del self._users[user.name]
        self._store.forget(user.name)

    async def _put_aside(self, name: str) -> None:
        """Puts the data of a removed user aside, unless another front has the user and does so."""
        if name in self._claims:
            await asyncio.wait([self._claims[name]])
        while name in self._users:
            self._give_up(self._users[name], True)
            await asyncio.sleep(SECONDS_BETWEEN_TRIES)
        if await asyncio.to_thread(self._place.claim, name) is None:
            await self._put_aside_here(name)

    async def _put_aside_here(self, name: str) -> None:
        async with self._putting_aside:
            if aside := await asyncio.to_thread(self._store.put_aside, name):
                self.note("put aside", user=name, name=aside)

    def _claimed(self, name: str) -> "asyncio.Task[Optional[Owner]]":
        """Claims a user, once at a time."""
        if name not in self._claims:
            self._claims[name] = asyncio.create_task(self._claim(name))
            self._claims[name].add_done_callback(lambda _: self._claims.pop(name))
        return self._claims[name]

    async def _claim(self, name: str) -> Optional[Owner]:
        """Claims and reads a user, or returns the front that has it. Damaged data stops this user only."""
        account = self._accounts.get(name, NOBODY)
        if name in self._users:
            return None
        if owner := await asyncio.to_thread(self._place.claim, name):
            return owner
        await self._put_aside_here(name)
        if self._change and not await asyncio.to_thread(is_one, self._store.base, name, account):
            return None
        try:
            kept = await asyncio.to_thread(self._store.read, name)
        except Damaged as error:
            await asyncio.to_thread(self._place.release, name)
            self._refuse(name, f"what is kept is damaged: {error}")
        else:
            told = await asyncio.to_thread(self._place.told) if self._options.steps_a_day else []
            if self._accounts.get(name) == account:
                self._users[name] = user = User(name, kept, self._store, self._writer, self.note, self._hosts.renew)
                user.allowance, user.quota = self._allowances.of(name, told), account.quota
                user.on_reply = self.listener_of(user)
                self.begin_task(self._hosts.lend(user))
        return None

    def listener_of(self, user: User) -> Optional[Hear]:
        """The callback for each command of a user with its reply, if any."""
        return None

    def begin_task(self, work: Coroutine[object, object, None]) -> "asyncio.Task[None]":
        task = asyncio.create_task(work)
        self._tasks.add(task)
        task.add_done_callback(self._tasks.discard)
        return task

    def _refuse(self, name: str, why: str) -> None:
        self._refused[name] = why
        self.note("stopped", user=name, why=why)

    # What clients ask of it.

    def begins(self, client: Client) -> None:
        self._clients.add(client)
        self._board.begins(client.seen)
        if len(self._clients) > MAX_OPEN:
            client.turn_away()

    def turns_away(self, client: Client) -> None:
        self._board.turns_away(client.seen)

    def ends(self, client: Client) -> None:
        self._clients.discard(client)
        if not client.is_left_out:
            self._board.ends(client.seen)

    def leaves_out(self, client: Client) -> None:
        """Stops counting a client that another front has or that is a check."""
        client.is_left_out = True
        self._board.leaves_out(client.seen)

    def name_of(self, line: bytes) -> Optional[str]:
        return user_of(line, self._accounts)

    def find(self, name: str, client: Client) -> None:
        """Connects a client to its user, here or at another front."""
        if self._is_ending.is_set() or not self.may_tell():
            client.abort()
        elif name in self._users:
            client.enter(self._users[name])
        elif name in self._refused or name not in self._accounts:
            client.deny()
        else:
            client.wait()
            self.begin_task(self._find(name, self._accounts[name], client))

    async def _find(self, name: str, account: Account, client: Client) -> None:
        end = time.monotonic() + SECONDS_TO_FIND
        while time.monotonic() < end and not client.is_lost:
            try:
                owner = await self._claimed(name)
                if owner is not None:
                    return await client.pass_on(owner, SECONDS_TO_PASS_ON)
                if name in self._refused or self._accounts.get(name) != account:
                    return client.deny()
                if name in self._users and not client.is_lost:
                    return client.enter(self._users[name])
                await asyncio.sleep(SECONDS_BETWEEN_TRIES)
            except (OSError, asyncio.TimeoutError, StoreFault):
                await asyncio.sleep(SECONDS_BETWEEN_TRIES)
            except Exception:
                client.abort()
                raise
        client.abort()

    def note_let_in(self, client: Client) -> None:
        self._board.note_passed()
        self._board.note_let_in(client.seen)

    def new_connection(self, origin: str) -> Connection:
        return Connection(origin, self._board.sessions)

    # The server.

    def heed_signals(self) -> None:
        """Handles the signals for restart and end, in the running loop."""
        loop = asyncio.get_running_loop()
        loop.add_signal_handler(signal.SIGHUP, self._begin_anew)
        loop.add_signal_handler(signal.SIGTERM, self._end)
        loop.add_signal_handler(signal.SIGINT, self._end)

    async def run(self) -> int:
        """Serves until it is ended, and returns the exit status."""
        if not await self._take_stored():
            await self._take_users(accounts_at(pathlib.Path(self._options.words.users)))
        # Replay of the commands since the snapshots takes time: it begins before clients connect.
        await self._claim_all([] if self._place.is_shared else await asyncio.to_thread(self._store.names_with_records))
        if not self._users:
            self._hosts.add(next(iter(self._accounts.values()), NOBODY).quota)
        await self._hold()
        listening = await self.listen()
        works = self._writer.sync_on(), self._hold_on(), self._look_after(), self._take_changes()
        tasks = [asyncio.create_task(work) for work in works]
        await self._is_ending.wait()
        if not self._status:
            await self._settle()
        # No replies are sent once nobody listens, so another front takes over at once.
        listening.close()
        tasks += self._tasks
        for task in tasks:
            task.cancel()
        await asyncio.gather(*tasks, return_exceptions=True)
        await self._close()
        return self._status

    async def listen(self) -> Listening:
        """Starts to accept clients."""
        loop = asyncio.get_running_loop()
        return await loop.create_server(lambda: Client(self), sock=self._options.listener, backlog=128)

    async def _settle(self) -> None:
        """Finishes the items that users took, and takes snapshots, so that users are soon put back. Some may not finish in time."""
        for user in [*self._users.values()]:
            user.settle()
        end = time.monotonic() + SECONDS_TO_SETTLE
        while time.monotonic() < end and not self._status and not all(user.is_settled() for user in self._users.values()):
            await asyncio.sleep(SECONDS_BETWEEN_TRIES)

    async def _close(self) -> None:
        await self._hosts.close()
        self._writer.close()
        self._put_status()
        self._place.close()
        for client in [*self._clients]:
            client.abort()

    async def _hold_on(self) -> None:
        while self._place.is_shared:
            await asyncio.sleep(SECONDS_BETWEEN_HOLDS)
            await self._hold()

    async def _hold(self) -> None:
        """Renews the lease of this front, and does what waited for it."""
        asked, might_tell = time.monotonic(), self.may_tell()
        try:
            if await asyncio.to_thread(self._place.hold):
                self._held = asked
        except Fenced as fault:
            self.fail(str(fault))
        except StoreFault as fault:
            if asked > self._held + SECONDS_TO_HOLD:
                self.fail(str(fault))
        self._end_kicked()
        if not might_tell:
            for user in self._users.values():
                user.go_on()

    def may_tell(self) -> bool:
        """Whether no other front can have taken over, so unrecorded replies may be sent."""
        return time.monotonic() < self._held + self._place.seconds_of_lease

    def is_well(self) -> bool:
        """Whether there is a server that answers, and users are let in."""
        return self._hosts.is_well() and self.may_tell() and not self._is_ending.is_set()

    def note_server_end(self, ended: str, begun: int) -> None:
        """Notes the end of a server, after `begun` starts."""
        if ended == HAS_BAD_WORDS and begun == 1:
            self._fail(f"cannot start the server: {ended}", BAD_WORDS)

    async def note_version(self) -> None:
        """Stores the version of the program at the place, and notes a change of it."""
        version = await version_of(self._options.words.program)
        before = await asyncio.to_thread(self._place.text, VERSION)
        if before != version:
            if before:
                self.note("program", version=version, before=before)
            await asyncio.to_thread(self._place.put, VERSION, version)

    async def try_program(self) -> None:
        """Tries the program. Raises Fault if it computes differently from the first one whose sessions are kept here."""
        trial = await trial_of(self._options.words.program)
        if await asyncio.to_thread(self._place.first, TRIAL, trial) != trial:
            why = "it computes differently from the last program; use the last one, or another folder"
            raise Fault(f"cannot go on by {self._options.words.program}: {why}")

    # Requests from outside.

    def _begin_anew(self) -> None:
        self._anew = asyncio.get_running_loop().create_task(self._begin_another())

    async def _begin_another(self) -> None:
        """Reads the users again, and restarts all servers when users have settled. The new ones may run a new program."""
        try:
            await self.try_program()
            await self._take_users(self._accounts if self._change else accounts_at(pathlib.Path(self._options.words.users)))
        except (Fault, StoreFault) as fault:
            self.note("not begun anew", why=str(fault))
            return
        self.note("begins anew")
        await self._settle()
        self._hosts.end_all()

    async def _take_changes(self) -> None:
        """Updates the users soon after a change in the store."""
        while True:
            await asyncio.sleep(SECONDS_BETWEEN_LOOKS)
            with contextlib.suppress(StoreFault):
                await self._take_stored()

    def _end(self) -> None:
        self._known["end"] = "it was told to end"
        self._is_ending.set()

    def fail(self, why: str) -> None:
        """Ends the front after a failed write: no reply is sent for what is not kept."""
        self._fail(why, 1)

    def _fail(self, why: str, status: int) -> None:
        self._status = status
        self._known["end"] = why
        self.note("failed", why=why)
        self._place.give_up()
        self._is_ending.set()
        for client in [*self._clients]:
            client.abort()

    def note(self, event: str, **known: object) -> None:
        """Prints and logs an event of users or servers, and updates the status."""
        self._board.notes(event, **known)
        self._board.say(" ".join([event, *(f"{name} {value}" for name, value in known.items())]))
        self._put_status()

    def known(self) -> Known:
        """The front's status."""
        users = {name: each.known() for name, each in self._users.items() if name in self._accounts}
        users |= {name: {"state": "stopped", "why": why} for name, why in self._refused.items() if name in self._accounts}
        syncs = {"syncs": self._writer.syncs, "sync_seconds": round(self._writer.seconds, 3)}
        return {**self._known, **syncs, **self._hosts.known(), "users": users, "today": self._allowances.known(self._users)}

    def _put_status(self) -> None:
        self._place.tell(json.dumps(self.known()))

    async def _look_after(self) -> None:
        """Ends kicked connections, and updates the status."""
        while True:
            await asyncio.sleep(SECONDS_OF_A_STATUS)
            self._end_kicked()
            for user in self._users.values():
                if user.stopped and user.seat is not None:
                    self._hosts.give_back(user)
            self._put_status()

    def _end_kicked(self) -> None:
        for name in self._place.kicked():
            if name in self._users:
                self._users[name].abort_clients(has_right=True)
                self.note("kicked", user=name)
